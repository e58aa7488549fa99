//! Random calls with their arguments and the lengths that are lent.

use super::case::Case;
use super::raw::Raw;
use crate::error_state::ErrorCounts;
use crate::limits::{MEMORY_BYTES, OBJECTS, SHEET_WORDS};
use crate::nights::rng::Rng;
use crate::nights::{configs, counts, frames};

/// The kinds of call, by the number that a case has for them.
pub const INIT: u8 = 0;
pub const DEINIT: u8 = 1;
pub const SET: u8 = 2;
pub const GET: u8 = 3;
pub const WRITE: u8 = 4;
pub const POLL_WRITE: u8 = 5;
pub const POLL_READ: u8 = 6;
pub const POLL_MODE: u8 = 7;
pub const POLL_BUS_OFF: u8 = 8;
pub const SENT: u8 = 9;
pub const BUS_OFF: u8 = 10;
pub const ARRIVED: u8 = 11;
pub const NEXT: u8 = 12;
pub const ERRORS: u8 = 13;
pub const ERROR_STATE: u8 = 14;
pub const RECEIVE_ERRORS: u8 = 15;
pub const TRANSMIT_ERRORS: u8 = 16;

/// How many kinds there are.
const KINDS: usize = 17;

/// A case of this state with a random call.
pub fn case(rng: &mut Rng, raw: Raw) -> Case {
    let kind = rng.below(KINDS) as u8;
    let identifier = identifier(rng, &raw);
    let a = place(rng, &raw, kind);
    let (b, c) = match kind {
        SET => (rng.below(5) as u32, identifier),
        ERRORS => {
            let ErrorCounts { transmit, receive } = error_counts(rng, &raw, a);
            (transmit, receive)
        }
        _ => (frames::handle(rng).into(), identifier),
    };
    Case {
        kind,
        a,
        b,
        c,
        data: data(rng, kind, identifier),
        sheet: sheet(rng),
        memory: memory(rng),
        raw,
    }
}

/// Mostly counts that can be set; at times those that the controller has already.
fn error_counts(rng: &mut Rng, raw: &Raw, controller: u32) -> ErrorCounts {
    let present = raw.controllers.get(controller as usize).map(|place| place.errors);
    match (rng.below(8), present) {
        (0, _) => counts::refused(rng),
        (1, Some(present)) => present,
        (2 | 3, _) => counts::leaving(rng),
        _ => counts::on_bus(rng),
    }
}

/// An object or a controller, mostly one that is there, and for a write mostly
/// one that names a pool.
fn place(rng: &mut Rng, raw: &Raw, kind: u8) -> u32 {
    if rng.one_in(12) {
        return rng.pick([4, 31, 32, 33, 255, 256, 65_536, u32::MAX]);
    }
    if kind == WRITE && rng.percent(75) {
        if let Some(&object) = rng.choose(&naming(raw)) {
            return object;
        }
    }
    let count = if matches!(kind, WRITE | SENT) { raw.object_count } else { raw.controller_count };
    rng.below(count.clamp(1, 40) as usize) as u32
}

/// The objects in use that name a pool.
fn naming(raw: &Raw) -> Vec<u32> {
    let in_use = 0..OBJECTS.min(raw.object_count as usize);
    let lowest = |&object: &usize| {
        !raw.objects[object].receiving && raw.members(object).first() == Some(&object)
    };
    in_use.filter(lowest).map(|object| object as u32).collect()
}

/// An identifier, often one that an object of the state is waiting for.
fn identifier(rng: &mut Rng, raw: &Raw) -> u32 {
    let state = raw.sound();
    let objects = state.as_ref().map_or(&[][..], |state| state.config.objects());
    match (rng.below(4), rng.choose(objects)) {
        (0, _) => frames::bad_identifier(rng),
        (1, _) | (_, None) => {
            let fd = rng.percent(50);
            frames::good_identifier(rng, fd)
        }
        (_, Some(config)) => frames::fitting_identifier(rng, config),
    }
}

/// The bytes of a call. Calls that take none are given some now and then.
fn data(rng: &mut Rng, kind: u8, identifier: u32) -> Vec<u8> {
    if kind == INIT {
        return if rng.percent(60) { configs::good(rng) } else { configs::broken(rng) };
    }
    let length = match kind {
        _ if rng.one_in(8) => rng.pick([0, 1, 8, 9, 13, 63, 64, 65, 200]),
        WRITE => frames::written_length(rng, identifier),
        ARRIVED => frames::arriving_length(rng, identifier),
        _ => 0,
    };
    rng.bytes(length)
}

/// Words of the sheet, mostly enough.
fn sheet(rng: &mut Rng) -> usize {
    match rng.below(8) {
        0 => rng.below(SHEET_WORDS),
        1 => rng.pick([0, SHEET_WORDS - 1]),
        2 => rng.between(SHEET_WORDS, 4096),
        _ => SHEET_WORDS,
    }
}

/// Bytes of the memory, mostly as they must be.
fn memory(rng: &mut Rng) -> usize {
    match rng.below(10) {
        0 => rng.below(16_385),
        1 => rng.pick([0, MEMORY_BYTES - 1, MEMORY_BYTES + 1, 16_384]),
        _ => MEMORY_BYTES,
    }
}
