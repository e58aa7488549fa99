//! The "words" style of output: one line for each answered command.

use std::fmt::Display;

use crate::bench::{Answer, Played};
use crate::error_state::ErrorCounts;
use crate::events::Arrival;
use crate::limits::RECORD_WORDS;
use crate::mode::Mode;
use crate::state::State;

/// Prints what came of the command on line `line`.
pub fn print(out: &mut Vec<u8>, line: u64, played: &Played) {
    match *played {
        Played::Nothing => return,
        Played::Call { name, code, reason, answer, records } => {
            head(out, line, name);
            field(out, code);
            field(out, reason);
            out.push(b' ');
            print_answer(out, answer);
            for record in records.chunks_exact(RECORD_WORDS) {
                print_record(out, record);
            }
        }
        Played::Data(bytes) => {
            head(out, line, "data - - ");
            print_hex(out, bytes);
        }
        Played::Show(bytes) => {
            head(out, line, "show ");
            print_hex(out, bytes.unwrap_or_default());
        }
        Played::State(state) => {
            head(out, line, "state");
            print_state(out, state);
        }
        Played::Config { code, reason, bytes } => {
            head(out, line, "config");
            field(out, code);
            field(out, reason);
            out.push(b' ');
            print_hex(out, bytes);
        }
    }
    out.push(b'\n');
}

/// Prints the message for a line that cannot be read.
pub fn print_trouble(out: &mut Vec<u8>, line: u64, trouble: impl Display) {
    head(out, line, "? ");
    out.extend_from_slice(trouble.to_string().as_bytes());
    out.push(b'\n');
}

fn head(out: &mut Vec<u8>, line: u64, name: &str) {
    print_number(out, line);
    out.push(b' ');
    out.extend_from_slice(name.as_bytes());
}

pub(crate) fn print_answer(out: &mut Vec<u8>, answer: Answer) {
    match answer {
        Answer::None => out.push(b'-'),
        Answer::Mode(number)
        | Answer::ErrorState(number)
        | Answer::ErrorCount(number)
        | Answer::Object(number)
        | Answer::Next(Some(number)) => print_number(out, number.into()),
        Answer::Next(None) => out.extend_from_slice(b"none"),
        Answer::Arrival(Arrival::Stored(object)) => {
            out.extend_from_slice(b"stored:");
            print_number(out, object.into());
        }
        Answer::Arrival(Arrival::Unwanted) => out.extend_from_slice(b"unwanted"),
        Answer::Arrival(Arrival::Lost) => out.extend_from_slice(b"lost"),
    }
}

fn print_record(out: &mut Vec<u8>, record: &[u32]) {
    for (place, &word) in record.iter().enumerate() {
        out.extend_from_slice(if place == 0 { b" [" } else { b" " });
        print_number(out, word.into());
    }
    out.push(b']');
}

/// `I C N`, then each configured controller and each configured object.
fn print_state(out: &mut Vec<u8>, state: &State) {
    let (controllers, objects) = (state.config.controllers(), state.config.objects().len());
    field(out, state.initialised.into());
    field(out, controllers as u32);
    field(out, objects as u32);
    for place in &state.controllers[..controllers] {
        let request = place.request.map_or(0, Mode::number);
        let marks = [place.off_bus, place.recovering].map(u32::from);
        let ErrorCounts { transmit, receive } = place.errors;
        let numbers = [place.mode.number(), request, marks[0], marks[1], transmit, receive];
        print_place(out, " c:", &numbers);
    }
    for place in &state.objects[..objects] {
        print_place(out, " o:", &[place.occupied, place.gone, place.full].map(u32::from));
    }
}

fn print_place(out: &mut Vec<u8>, name: &str, numbers: &[u32]) {
    out.extend_from_slice(name.as_bytes());
    for (place, &number) in numbers.iter().enumerate() {
        if place > 0 {
            out.push(b',');
        }
        print_number(out, number.into());
    }
}

fn field(out: &mut Vec<u8>, number: u32) {
    out.push(b' ');
    print_number(out, number.into());
}

/// Lower-case hex digits, `-` for no bytes.
fn print_hex(out: &mut Vec<u8>, bytes: &[u8]) {
    const DIGITS: &[u8; 16] = b"0123456789abcdef";
    if bytes.is_empty() {
        out.push(b'-');
    }
    for &byte in bytes {
        out.push(DIGITS[usize::from(byte >> 4)]);
        out.push(DIGITS[usize::from(byte & 15)]);
    }
}

/// A decimal number.
fn print_number(out: &mut Vec<u8>, number: u64) {
    let mut digits = [0; 20];
    let mut at = digits.len();
    let mut rest = number;
    loop {
        at -= 1;
        digits[at] = b'0' + (rest % 10) as u8;
        rest /= 10;
        if rest == 0 {
            break;
        }
    }
    out.extend_from_slice(&digits[at..]);
}

#[cfg(test)]
mod tests {
    use super::*;

    #[test]
    fn numbers_are_decimal() {
        for number in [0, 1, 9, 10, 99, 100, 4_294_967_295, u64::MAX] {
            let mut out = Vec::new();
            print_number(&mut out, number);
            assert_eq!(out, number.to_string().as_bytes());
        }
    }
}
