//! The bench: the driver state, its own memory and the lengths it lends.

use crate::draft::Draft;
use crate::error_state::ErrorState;
use crate::events::Arrival;
use crate::limits::{MEMORY_BYTES, RECORD_WORDS, SHEET_WORDS};
use crate::mailbox;
use crate::mode::Mode;
use crate::outcome::Outcome;
use crate::script::{Call, Command, Poll, Trouble, LONGEST_SHEET};
use crate::state::State;

/// What a call answers besides code and reason.
#[derive(Clone, Copy, Debug, PartialEq, Eq)]
pub enum Answer {
    None,
    Mode(u32),
    ErrorState(u32),
    ErrorCount(u32),
    Object(u32),
    Arrival(Arrival),
    /// Who sends next, if anyone.
    Next(Option<u32>),
}

/// What came of a command.
#[derive(Debug, PartialEq, Eq)]
pub enum Played<'a> {
    /// `sheet`, `memory`, `controllers` and `object` answer nothing.
    Nothing,
    /// A service, poll or event, with its records.
    Call { name: &'static str, code: u32, reason: u32, answer: Answer, records: &'a [u32] },
    /// The data of an object.
    Data(&'a [u8]),
    /// The 72 bytes of an object, if there is such an object.
    Show(Option<&'a [u8]>),
    /// The whole state.
    State(&'a State),
    /// What the writer wrote, nothing with a no.
    Config { code: u32, reason: u32, bytes: &'a [u8] },
}

/// The desk bench. It keeps its own 2,304 bytes and lends as many as asked for.
pub struct Bench {
    state: State,
    /// The configuration in words.
    draft: Draft,
    memory: [u8; MEMORY_BYTES],
    memory_lent: usize,
    sheet: Vec<u32>,
    sheet_lent: usize,
    /// Holds a lent memory that is longer than the bench's own.
    long_memory: Vec<u8>,
    /// The buffer of the writer.
    room: Vec<u8>,
}

impl Default for Bench {
    fn default() -> Bench {
        Bench {
            state: State::default(),
            draft: Draft::default(),
            memory: [0; MEMORY_BYTES],
            memory_lent: MEMORY_BYTES,
            sheet: vec![0; LONGEST_SHEET as usize],
            sheet_lent: SHEET_WORDS,
            long_memory: Vec::new(),
            room: Vec::new(),
        }
    }
}

impl Bench {
    /// The driver state.
    pub fn state(&self) -> &State {
        &self.state
    }

    /// The configuration in words, as the lines so far have said it.
    pub fn draft(&self) -> &Draft {
        &self.draft
    }

    /// The bench's own memory.
    pub fn memory(&self) -> &[u8] {
        &self.memory
    }

    /// True if the lengths lent are such that no call is refused for them.
    pub fn lends_enough(&self) -> bool {
        self.sheet_lent >= SHEET_WORDS && self.memory_lent == MEMORY_BYTES
    }

    /// The words of the sheet lent at present.
    pub fn sheet_lent(&self) -> usize {
        self.sheet_lent
    }

    /// Plays one command. The only trouble left is one object too many.
    pub fn play(&mut self, command: Command) -> Result<Played<'_>, Trouble> {
        match command {
            Command::Call(call) => return Ok(self.play_lent(call)),
            Command::InitInWords => {
                let bytes = self.draft.bytes();
                return Ok(self.play_lent(Call::Init { bytes: &bytes }));
            }
            Command::Show { object } => {
                return Ok(Played::Show(mailbox::object_bytes(&self.memory, object)));
            }
            Command::State => return Ok(Played::State(&self.state)),
            Command::Config { version, room } => return Ok(self.write_config(version, room)),
            Command::Controllers { count } => self.draft = Draft::of(count),
            Command::Object(object) => self.draft.add(&object)?,
            Command::Sheet { words } => self.sheet_lent = words,
            Command::Memory { bytes } => self.memory_lent = bytes,
        }
        Ok(Played::Nothing)
    }

    /// Writes the state's configuration into a buffer of so many bytes.
    fn write_config(&mut self, version: u32, room: usize) -> Played<'_> {
        self.room.clear();
        self.room.resize(room, 0);
        let outcome = Outcome::silent(self.state.config.write(version, &mut self.room));
        let bytes = &self.room[..outcome.result.unwrap_or(0)];
        Played::Config { code: outcome.code(), reason: outcome.reason(), bytes }
    }

    /// Plays one call with the sheet and memory lent at present.
    fn play_lent(&mut self, call: Call) -> Played<'_> {
        let sheet = &mut self.sheet[..self.sheet_lent];
        let memory = lend(&mut self.memory, self.memory_lent, &mut self.long_memory);
        play_call(&mut self.state, sheet, memory, call)
    }
}

/// Plays one call with this sheet and memory.
pub fn play_call<'a>(
    state: &mut State,
    sheet: &'a mut [u32],
    memory: &'a mut [u8],
    call: Call,
) -> Played<'a> {
    match call {
        Call::Init { bytes } => plain("init", state.init(bytes, sheet, memory), sheet),
        Call::DeInit => plain("deinit", state.deinit(sheet, memory), sheet),
        Call::Set { controller, mode } => {
            plain("set", state.set_mode(controller, mode, sheet), sheet)
        }
        Call::Get { controller } => {
            let outcome = state.get_mode(controller, sheet);
            let mode = outcome.result.map_or(0, Mode::number);
            answered("get", outcome, Answer::Mode(mode), sheet)
        }
        Call::Write { object, handle, identifier, data } => {
            let outcome = state.write(object, handle, identifier, data, sheet, memory);
            let answer = outcome.result.map_or(Answer::None, Answer::Object);
            answered("write", outcome, answer, sheet)
        }
        Call::Poll(Poll::Write) => plain("poll-write", state.poll_write(sheet, memory), sheet),
        Call::Poll(Poll::Read) => plain("poll-read", state.poll_read(sheet, memory), sheet),
        Call::Poll(Poll::Mode) => plain("poll-mode", state.poll_mode(sheet, memory), sheet),
        Call::Poll(Poll::BusOff) => plain("poll-busoff", state.poll_bus_off(sheet, memory), sheet),
        Call::Sent { object } => plain("sent", state.sent(object), sheet),
        Call::BusOff { controller } => plain("busoff", state.bus_off(controller), sheet),
        Call::Arrived { controller, identifier, data } => {
            let outcome = state.arrived(controller, identifier, data, sheet, memory);
            let answer = outcome.result.map_or(Answer::None, Answer::Arrival);
            answered("arrived", outcome, answer, sheet)
        }
        Call::Errors { controller, counts } => {
            plain("errors", state.error_counts(controller, counts, sheet), sheet)
        }
        Call::ErrorState { controller } => {
            let outcome = state.error_state(controller, sheet);
            let number = outcome.result.map_or(0, ErrorState::number);
            answered("errorstate", outcome, Answer::ErrorState(number), sheet)
        }
        Call::ReceiveErrors { controller } => {
            counted("rxerrors", state.receive_errors(controller, sheet), sheet)
        }
        Call::TransmitErrors { controller } => {
            counted("txerrors", state.transmit_errors(controller, sheet), sheet)
        }
        Call::Next { controller } => {
            let outcome = state.next_to_send(controller, memory);
            let answer = outcome.result.map_or(Answer::None, Answer::Next);
            answered("next", outcome, answer, sheet)
        }
        Call::Data { object } => Played::Data(mailbox::data_of(memory, object)),
    }
}

/// A shorter memory lends the first bytes, a longer one the whole followed by zeros.
fn lend<'a>(
    own: &'a mut [u8; MEMORY_BYTES],
    length: usize,
    long_memory: &'a mut Vec<u8>,
) -> &'a mut [u8] {
    if length <= MEMORY_BYTES {
        return &mut own[..length];
    }
    long_memory.clear();
    long_memory.extend_from_slice(own);
    long_memory.resize(length, 0);
    long_memory
}

/// A call with an answer of its own.
fn answered<'a, T>(
    name: &'static str,
    outcome: Outcome<T>,
    answer: Answer,
    sheet: &'a [u32],
) -> Played<'a> {
    let records = &sheet[..outcome.records * RECORD_WORDS];
    Played::Call { name, code: outcome.code(), reason: outcome.reason(), answer, records }
}

/// A call that answers an error count, 0 with a no.
fn counted<'a>(name: &'static str, outcome: Outcome<u32>, sheet: &'a [u32]) -> Played<'a> {
    let count = outcome.result.unwrap_or(0);
    answered(name, outcome, Answer::ErrorCount(count), sheet)
}

/// A call that answers code and reason only.
fn plain<'a>(name: &'static str, outcome: Outcome<()>, sheet: &'a [u32]) -> Played<'a> {
    answered(name, outcome, Answer::None, sheet)
}
