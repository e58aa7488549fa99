//! Wild lines: hostile calls, damaged lines and strange line ends.

use super::frames::{
    bad_identifier, good_identifier, identifier_word, number_word, random_bytes_words,
};
use super::strange::STRANGE_LINES;
use super::{configs, counts, said, Maker};
use crate::limits::{MEMORY_BYTES, SHEET_WORDS};
use crate::lines::LONGEST_LINE;

/// Kinds of wild lines.
#[derive(Clone, Copy)]
enum Kind {
    Calm,
    Hostile,
    Lengths,
    Damaged,
    Unreadable,
    Blank,
    Long,
}

const KINDS: [(usize, Kind); 7] = [
    (480, Kind::Calm),
    (300, Kind::Hostile),
    (50, Kind::Lengths),
    (90, Kind::Damaged),
    (50, Kind::Unreadable),
    (28, Kind::Blank),
    (2, Kind::Long),
];

impl Maker {
    /// The next wild line, with its line end.
    pub(super) fn wild_line(&mut self) -> Vec<u8> {
        if !self.bench().lends_enough() && self.rng.percent(30) {
            let command = self.good_length();
            return self.dressed(&command);
        }
        if !self.coming.is_empty() && self.rng.percent(85) {
            return self.next_coming();
        }
        match self.rng.weighted(&KINDS) {
            Kind::Calm => {
                let command = self.calm_command();
                self.dressed(&command)
            }
            Kind::Hostile => {
                let command = self.hostile();
                self.dressed(&command)
            }
            Kind::Lengths => {
                let command = self.any_length();
                self.dressed(&command)
            }
            Kind::Damaged => {
                let command =
                    if self.rng.percent(50) { self.calm_command() } else { self.hostile() };
                let damaged = self.damaged(command.into_bytes());
                self.ended(damaged)
            }
            Kind::Unreadable => {
                let line = self.rng.choose(STRANGE_LINES).copied().unwrap_or_default();
                self.ended(line)
            }
            Kind::Blank => {
                let line =
                    self.rng.pick(["", "", " ", "\t", " \t ", "#", "# a comment", " # init"]);
                self.ended(line)
            }
            Kind::Long => {
                let line = self.long_line();
                self.ended(line)
            }
        }
    }

    /// The next of several lines that belong together, now and then damaged.
    fn next_coming(&mut self) -> Vec<u8> {
        let command = self.coming.pop_front().unwrap_or_default();
        if self.rng.one_in(40) {
            let damaged = self.damaged(command.into_bytes());
            return self.ended(damaged);
        }
        self.dressed(&command)
    }

    /// Adds the line end: mostly LF, now and then CRLF.
    fn ended(&mut self, line: impl Into<Vec<u8>>) -> Vec<u8> {
        let mut line = line.into();
        line.extend_from_slice(if self.rng.percent(10) { b"\r\n" } else { b"\n" });
        line
    }

    /// A command with its line end, now and then with odd blanks or a comment.
    fn dressed(&mut self, command: &str) -> Vec<u8> {
        let mut line = command.to_string();
        if self.rng.percent(5) {
            line = line.replace(' ', self.rng.pick(["\t", "  ", " \t "]));
        }
        if self.rng.percent(3) {
            line.insert_str(0, self.rng.pick([" ", "\t", "   "]));
        }
        if self.rng.percent(5) {
            line.push_str(self.rng.pick([" ", "\t", " # a comment", "#", "\t#\t# x", " #\r"]));
        }
        self.ended(line)
    }

    /// Brings back a length with which calls are taken again.
    fn good_length(&mut self) -> String {
        if self.bench().sheet_lent() < SHEET_WORDS {
            format!("sheet {}", self.rng.pick([144, 144, 145, 148, 1000, 4096]))
        } else {
            format!("memory {MEMORY_BYTES}")
        }
    }

    /// Any sheet or memory length, the edges more often.
    fn any_length(&mut self) -> String {
        if self.rng.percent(50) {
            let edge = self.rng.pick([0, 1, 3, 4, 143, 144, 145, 147, 148, 288, 4095, 4096]);
            let words = if self.rng.percent(80) { edge } else { self.rng.below(4097) };
            format!("sheet {}", number_word(&mut self.rng, words as u32))
        } else {
            let edge =
                self.rng.pick([0, 1, 71, 72, 2232, 2303, 2304, 2305, 2376, 4608, 16383, 16384]);
            let bytes = if self.rng.percent(80) { edge } else { self.rng.below(16_385) };
            format!("memory {}", number_word(&mut self.rng, bytes as u32))
        }
    }

    /// A call that can be read, with arguments that may be anything.
    fn hostile(&mut self) -> String {
        if self.rng.one_in(3000) && self.coming.is_empty() {
            let lines = said::crowd(&mut self.rng);
            return self.first_of(lines);
        }
        match self.rng.below(31) {
            0 => self.init_with_any(),
            1 if self.rng.percent(50) => "deinit".to_string(),
            1 => self.init_with_any(),
            2 | 3 => format!("set {} {}", self.any_controller(), self.any_mode()),
            4 => format!("get {}", self.any_controller()),
            5..=10 => self.any_write(),
            11 => "poll write".to_string(),
            12 => "poll read".to_string(),
            13 => "poll mode".to_string(),
            14 => "poll busoff".to_string(),
            15 | 16 => format!("sent {}", self.any_object()),
            17 => format!("busoff {}", self.any_controller()),
            18..=20 => self.any_arrival(),
            21 => format!("data {}", self.any_object()),
            22 => format!("show {}", self.any_object()),
            23 => self.any_words(),
            24 if self.rng.percent(60) => self.next_to_send().unwrap_or("next 0".to_string()),
            24 => format!("next {}", self.any_controller()),
            25 => self.any_config(),
            26 | 27 => self.any_errors(),
            28 | 29 => self.any_question(),
            _ => "state".to_string(),
        }
    }

    fn init_with_any(&mut self) -> String {
        let bytes = if self.rng.percent(80) {
            configs::broken(&mut self.rng)
        } else {
            configs::good(&mut self.rng)
        };
        self.init_with(&bytes)
    }

    /// A line of a configuration in words at any moment, so that what was said
    /// before goes on or begins again.
    fn any_words(&mut self) -> String {
        match self.rng.below(10) {
            0 => {
                let count = self.rng.pick([0, 1, 2, 3, 4, 5, 255]);
                said::controllers(&mut self.rng, count)
            }
            1..=3 => "init".to_string(),
            4..=6 => said::any_object(&mut self.rng),
            _ => said::broken_object(&mut self.rng),
        }
    }

    /// The writer with any version and any room, mostly around what it takes.
    fn any_config(&mut self) -> String {
        let version = match self.rng.below(8) {
            0 => self.rng.pick([0, 3, 4, 255, 256, 257, 258, 513, 65_537, 65_538, u32::MAX]),
            1 => self.rng.word(),
            2..=4 => 1,
            _ => 2,
        };
        let bytes = self.config_bytes();
        let room = match self.rng.below(4) {
            0 => self.rng.pick([0, 1, 7, 8, 9, 20, 391, 392, 393, 4095, 4096]),
            1 => self.rng.below(4097),
            _ => self.rng.pick([bytes - 1, bytes, bytes, bytes + 1, bytes - 8, bytes + 12]),
        };
        let version = number_word(&mut self.rng, version);
        format!("config {version} {}", number_word(&mut self.rng, room as u32))
    }

    /// Error counts of any controller, now and then too large.
    fn any_errors(&mut self) -> String {
        let counts = match self.rng.below(8) {
            0 => counts::refused(&mut self.rng),
            1 | 2 => counts::leaving(&mut self.rng),
            _ => counts::on_bus(&mut self.rng),
        };
        let controller = self.any_controller();
        let transmit = number_word(&mut self.rng, counts.transmit);
        let receive = number_word(&mut self.rng, counts.receive);
        format!("errors {controller} {transmit} {receive}")
    }

    /// A question about the errors of any controller.
    fn any_question(&mut self) -> String {
        let name = self.rng.pick(["errorstate", "errorstate", "rxerrors", "txerrors"]);
        format!("{name} {}", self.any_controller())
    }

    /// Any length from 0 to 70 and any identifier, good or not; often to an object
    /// that names a pool.
    fn any_write(&mut self) -> String {
        let object = if self.rng.percent(40) {
            let object = self.rng.below(32) as u32;
            self.lowest(object).to_string()
        } else {
            self.any_object()
        };
        let handle = self.rng.below(65_536);
        let identifier = self.any_identifier();
        let length = self.rng.between(0, 70);
        let data = random_bytes_words(&mut self.rng, length);
        format!("write {object} {handle} {identifier} {data}")
    }

    fn any_arrival(&mut self) -> String {
        let controller = self.any_controller();
        let identifier = self.any_identifier();
        let length = self.rng.between(0, 70);
        let data = random_bytes_words(&mut self.rng, length);
        format!("arrived {controller} {identifier} {data}")
    }

    /// Mostly a place that may be configured; now and then out of range.
    fn any_object(&mut self) -> String {
        let object = match self.rng.below(10) {
            0 => {
                self.rng.pick([31, 32, 33, 64, 255, 256, 65_536, 1 << 31, u32::MAX - 31, u32::MAX])
            }
            1 => self.rng.word(),
            _ => self.rng.below(34) as u32,
        };
        number_word(&mut self.rng, object)
    }

    fn any_controller(&mut self) -> String {
        let controller = match self.rng.below(10) {
            0 => self.rng.pick([4, 5, 8, 255, 256, 257, 65_536, 1 << 31, u32::MAX - 3, u32::MAX]),
            1 => self.rng.word(),
            _ => self.rng.below(5) as u32,
        };
        number_word(&mut self.rng, controller)
    }

    fn any_mode(&mut self) -> String {
        match self.rng.below(8) {
            0 => self.rng.pick([0, 4, 5, 255, 256, 257, 258, 65_537, u32::MAX]).to_string(),
            1 => self.rng.word().to_string(),
            2 | 3 => number_word(&mut self.rng, 1),
            4 => "STOPPED".to_string(),
            5 => "SLEEP".to_string(),
            _ => "STARTED".to_string(),
        }
    }

    fn any_identifier(&mut self) -> String {
        let identifier = match self.rng.below(5) {
            0 => bad_identifier(&mut self.rng),
            1 => self.rng.word(),
            2 => good_identifier(&mut self.rng, false),
            _ => good_identifier(&mut self.rng, true),
        };
        identifier_word(&mut self.rng, identifier)
    }

    /// A line with one thing wrong in it; it never holds an LF.
    fn damaged(&mut self, mut line: Vec<u8>) -> Vec<u8> {
        let at = self.rng.below(line.len());
        match self.rng.below(9) {
            0 => {
                line.remove(at);
            }
            1 => line.insert(at, self.rng.pick(*b"0gx#- \t\rZ")),
            2 => line[at] = self.rng.pick(*b"0gx#- \t\rZ"),
            3 => line.truncate(at),
            4 => line[at] ^= 0x20,
            5 => {
                let byte = self.rng.byte();
                line[at] = if byte == b'\n' { 0 } else { byte };
            }
            6 => line.extend_from_slice(self.rng.pick([&b" 0"[..], b" x", b" -", b"0", b"g"])),
            7 => {
                let word = self.rng.pick([&b" - "[..], b" 00 ", b" 0 ", b" x "]);
                line.splice(at..at, word.iter().copied());
            }
            _ => line.swap(at, 0),
        }
        line
    }

    /// A line near or above the longest that can be read.
    fn long_line(&mut self) -> Vec<u8> {
        let length = match self.rng.below(8) {
            0 => LONGEST_LINE - 1,
            1 | 2 => LONGEST_LINE,
            3 | 4 => LONGEST_LINE + 1,
            5 => LONGEST_LINE + 2,
            6 => 20_000,
            _ => 70_000,
        };
        let (start, filler) = self.rng.pick([
            ("init ", "0"),
            ("init ", " "),
            ("init ", "00 "),
            ("state", " "),
            ("# ", "x"),
            ("get ", "0"),
            ("controllers ", "0"),
            ("object", " "),
            ("", "\t"),
        ]);
        start.bytes().chain(filler.bytes().cycle()).take(length).collect()
    }
}
