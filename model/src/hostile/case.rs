//! One case: a state, a call, and the lengths of the sheet and the memory.

use super::calls::*;
use super::raw::Raw;
use crate::bench::{play_call, Answer, Played};
use crate::error_state::ErrorCounts;
use crate::identifier::Identifier;
use crate::limits::RECORD_WORDS;
use crate::nights::frames::hex;
use crate::script::{Call, Poll};
use crate::words::print_answer;

/// What is handed to the program in one line.
pub struct Case {
    pub raw: Raw,
    /// The call, and its arguments as it takes them.
    pub kind: u8,
    pub a: u32,
    pub b: u32,
    pub c: u32,
    pub data: Vec<u8>,
    /// Words of the sheet and bytes of the memory.
    pub sheet: usize,
    pub memory: usize,
}

impl Case {
    /// The case as hex digits.
    pub fn word(&self) -> String {
        let mut bytes = Vec::new();
        self.raw.encode(&mut bytes);
        bytes.push(self.kind);
        for number in [self.a, self.b, self.c, self.sheet as u32, self.memory as u32] {
            bytes.extend(number.to_be_bytes());
        }
        bytes.extend(&self.data);
        hex(&bytes, false)
    }

    /// What the program is to print, without the number of the line.
    pub fn expected(&self) -> String {
        let Some(before) = self.raw.sound() else {
            return line(1, 41, self.answer_of_a_no(), 0, [true; 3]);
        };
        let (memory, sheet) = (pattern_bytes(self.memory), pattern_words(self.sheet));
        let (mut state, mut memory_after, mut sheet_after) =
            (before.clone(), memory.clone(), sheet.clone());
        let played = play_call(&mut state, &mut sheet_after, &mut memory_after, self.call());
        let Played::Call { code, reason, answer, records, .. } = played else {
            unreachable!("every kind is a call");
        };
        let count = records.len() / RECORD_WORDS;
        let same = [state == before, memory_after == memory, sheet_after == sheet];
        line(code, reason, answer, count, same)
    }

    /// What the call answers with every no.
    fn answer_of_a_no(&self) -> Answer {
        match self.kind {
            GET => Answer::Mode(0),
            ERROR_STATE => Answer::ErrorState(0),
            RECEIVE_ERRORS | TRANSMIT_ERRORS => Answer::ErrorCount(0),
            _ => Answer::None,
        }
    }

    /// The call as the model takes it.
    fn call(&self) -> Call<'_> {
        let (controller, object) = (self.a, self.a);
        let (identifier, data) = (Identifier(self.c), &self.data[..]);
        match self.kind {
            INIT => Call::Init { bytes: data },
            DEINIT => Call::DeInit,
            SET => Call::Set { controller, mode: self.b },
            GET => Call::Get { controller },
            WRITE => Call::Write { object, handle: self.b as u16, identifier, data },
            POLL_WRITE => Call::Poll(Poll::Write),
            POLL_READ => Call::Poll(Poll::Read),
            POLL_MODE => Call::Poll(Poll::Mode),
            POLL_BUS_OFF => Call::Poll(Poll::BusOff),
            SENT => Call::Sent { object },
            BUS_OFF => Call::BusOff { controller },
            NEXT => Call::Next { controller },
            ERRORS => {
                let counts = ErrorCounts { transmit: self.b, receive: self.c };
                Call::Errors { controller, counts }
            }
            ERROR_STATE => Call::ErrorState { controller },
            RECEIVE_ERRORS => Call::ReceiveErrors { controller },
            TRANSMIT_ERRORS => Call::TransmitErrors { controller },
            _ => Call::Arrived { controller, identifier, data },
        }
    }
}

/// What stands in the memory before a call.
fn pattern_bytes(length: usize) -> Vec<u8> {
    (0..length).map(|at| (at % 251) as u8).collect()
}

/// What stands on the sheet before a call.
fn pattern_words(length: usize) -> Vec<u32> {
    (0..length as u32).collect()
}

fn line(code: u32, reason: u32, answer: Answer, count: usize, same: [bool; 3]) -> String {
    let mut word = Vec::new();
    print_answer(&mut word, answer);
    let answer = String::from_utf8_lossy(&word);
    let [state, memory, sheet] = same.map(|same| if same { "same" } else { "changed" });
    format!("{code} {reason} {answer} {count} {state} {memory} {sheet}")
}
