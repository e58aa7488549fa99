//! Makes the same rounds of calls on the model as the driver's own `speed` program does, so that the two can be timed side by side.
//!
//!     speed [ROUNDS]

use pump_model::identifier::Identifier;
use pump_model::limits::{MEMORY_BYTES, SHEET_WORDS};
use pump_model::outcome::Outcome;
use pump_model::rounds::{full, small};
use pump_model::state::State;

/// A bench for one configuration, and what its calls came to.
struct Bench {
    state: State,
    memory: [u8; MEMORY_BYTES],
    sheet: [u32; SHEET_WORDS],
    refused: u64,
    notifications: u64,
}

impl Bench {
    fn new(bytes: &[u8]) -> Bench {
        let mut bench = Bench {
            state: State::default(),
            memory: [0; MEMORY_BYTES],
            sheet: [0; SHEET_WORDS],
            refused: 0,
            notifications: 0,
        };
        bench.state.init(bytes, &mut bench.sheet, &mut bench.memory);
        bench
    }

    fn count<T>(&mut self, outcome: Outcome<T>) {
        self.refused += u64::from(outcome.result.is_err());
        self.notifications += outcome.records as u64;
    }

    fn write(&mut self, handle: u16) {
        let data = [1, 2, 3, 4, 5, 6, 7, 8, 9];
        let identifier = Identifier(0x4000_0123);
        let outcome =
            self.state.write(0, handle, identifier, &data, &mut self.sheet, &mut self.memory);
        self.count(outcome);
    }

    fn move_to(&mut self, mode: u32) {
        let asked = self.state.set_mode(0, mode, &mut self.sheet);
        self.count(asked);
        let polled = self.state.poll_mode(&mut self.sheet, &self.memory);
        self.count(polled);
    }

    /// A frame goes out and one comes in, and the mode is asked.
    fn calm(&mut self, handle: u16) {
        self.move_to(1);
        self.write(handle);
        let sent = self.state.sent(0);
        self.count(sent);
        let confirmed = self.state.poll_write(&mut self.sheet, &self.memory);
        self.count(confirmed);
        let identifier = Identifier(0x120);
        let arrived =
            self.state.arrived(0, identifier, b"pressure", &mut self.sheet, &mut self.memory);
        self.count(arrived);
        let read = self.state.poll_read(&mut self.sheet, &self.memory);
        self.count(read);
        let mode = self.state.get_mode(0, &mut self.sheet);
        self.count(mode);
    }

    /// Two writes to one object, a stop, a start, and a bus-off.
    fn rough(&mut self, handle: u16) {
        self.write(handle);
        self.write(handle);
        self.move_to(2);
        self.move_to(1);
        let off = self.state.bus_off(0);
        self.count(off);
        let polled = self.state.poll_bus_off(&mut self.sheet, &self.memory);
        self.count(polled);
    }
}

fn play(name: &str, bytes: &[u8], rounds: u32) {
    let mut bench = Bench::new(bytes);
    for round in 0..rounds {
        bench.calm(round as u16);
        bench.rough(round as u16);
    }
    println!("{name}: {} refused, {} notifications", bench.refused, bench.notifications);
}

fn main() {
    let rounds = std::env::args().nth(1).and_then(|word| word.parse().ok()).unwrap_or(1024);
    play("1 controller, 2 objects", &small(), rounds);
    play("4 controllers, 32 objects", &full(), rounds);
}
