//! Replays the rounds of `speed` as lists of events, as the driver's own `speed_replay` program does. Built with the feature `trusting`, no
//! call tests the state.
//!
//!     speed_replay [ROUNDS]

use pump_model::identifier::Identifier;
use pump_model::limits::{MEMORY_BYTES, SHEET_WORDS};
use pump_model::rounds::{full, small};
use pump_model::state::State;

/// A driver with its memory and sheet.
struct Bench {
    state: State,
    memory: [u8; MEMORY_BYTES],
    sheet: [u32; SHEET_WORDS],
}

impl Bench {
    fn new(bytes: &[u8]) -> Bench {
        let mut bench =
            Bench { state: State::default(), memory: [0; MEMORY_BYTES], sheet: [0; SHEET_WORDS] };
        bench.state.init(bytes, &mut bench.sheet, &mut bench.memory);
        bench
    }
}

/// Rounds in a list of events, and calls in a round.
const LIST: usize = 64;
const CALLS: usize = 16;
const EVENTS: usize = LIST * CALLS;

/// The events of a list, every number in an array of its own, as the driver's program has them.
struct Events {
    kinds: [u8; EVENTS],
    places: [u32; EVENTS],
    values: [u32; EVENTS],
    handles: [u16; EVENTS],
    starts: [u32; EVENTS],
    ends: [u32; EVENTS],
    data: [u8; 17],
}

fn repeated<T: Copy>(round: [T; CALLS]) -> [T; EVENTS] {
    std::array::from_fn(|i| round[i % CALLS])
}

impl Events {
    fn new() -> Events {
        let id = 0x4000_0123;
        Events {
            kinds: repeated([2, 7, 4, 9, 5, 11, 6, 3, 4, 4, 2, 7, 2, 7, 10, 8]),
            places: [0; EVENTS],
            values: repeated([1, 0, id, 0, 0, 0x120, 0, 0, id, id, 2, 0, 1, 0, 0, 0]),
            handles: [7; EVENTS],
            starts: repeated([0, 0, 0, 0, 0, 9, 0, 0, 0, 0, 0, 0, 0, 0, 0, 0]),
            ends: repeated([0, 0, 9, 0, 0, 17, 0, 0, 9, 9, 0, 0, 0, 0, 0, 0]),
            data: *b"\x01\x02\x03\x04\x05\x06\x07\x08\x09pressure",
        }
    }
}

impl Bench {
    /// Event i of the list.
    fn event(&mut self, events: &Events, i: usize) {
        let (place, value) = (events.places[i], events.values[i]);
        let bytes = events.data.get(events.starts[i] as usize..events.ends[i] as usize);
        let bytes = bytes.unwrap_or(&[]);
        let (state, sheet, memory) = (&mut self.state, &mut self.sheet, &mut self.memory);
        match events.kinds[i] {
            0 => drop(state.init(bytes, sheet, memory)),
            1 => drop(state.deinit(sheet, memory)),
            2 => drop(state.set_mode(place, value, sheet)),
            3 => drop(state.get_mode(place, sheet)),
            4 => {
                let _ =
                    state.write(place, events.handles[i], Identifier(value), bytes, sheet, memory);
            }
            5 => drop(state.poll_write(sheet, memory)),
            6 => drop(state.poll_read(sheet, memory)),
            7 => drop(state.poll_mode(sheet, memory)),
            8 => drop(state.poll_bus_off(sheet, memory)),
            9 => drop(state.sent(place)),
            10 => drop(state.bus_off(place)),
            _ => drop(state.arrived(place, Identifier(value), bytes, sheet, memory)),
        }
    }
}

/// The rounds as lists of events, and the sums that the driver's program shows too.
fn replay(name: &str, bytes: &[u8], rounds: u32) {
    let mut bench = Bench::new(bytes);
    let events = Events::new();
    for _ in 0..rounds as usize / LIST {
        for i in 0..EVENTS {
            bench.event(std::hint::black_box(&events), i);
        }
    }
    let memory: u64 = bench.memory.iter().map(|&byte| u64::from(byte)).sum();
    let sheet = bench.sheet.iter().fold(0u32, |sum, &word| sum.wrapping_add(word));
    println!("{name}: {memory} in memory, {sheet} on the sheet");
}

fn main() {
    let rounds = std::env::args().nth(1).and_then(|word| word.parse().ok()).unwrap_or(1024);
    replay("1 controller, 2 objects", &small(), rounds);
    replay("4 controllers, 32 objects", &full(), rounds);
}
