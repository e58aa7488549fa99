//! What operators may rely on (02, Q-5), judged over random nights from the lines and
//! what is printed for them alone: from the event that takes a controller off the bus
//! until it is STARTED again it answers 2, before its bus-off poll and after it; and
//! each entering of passive is told by one record of kind 8, and nothing else is.

mod common;

use common::printed::{plain_number, words, Printed};
use pump_model::nights::{Maker, Style};

/// What is known of a controller, since it was STARTED last or the driver initialised.
#[derive(Clone, Copy, Default)]
struct Known {
    /// It went off the bus.
    off: bool,
    /// A bus-off poll has told of it.
    polled: bool,
    transmit: u32,
    receive: u32,
    /// It was told to be passive.
    told: bool,
}

impl Known {
    fn error_state(&self) -> u32 {
        if self.off {
            2
        } else {
            u32::from(self.transmit.max(self.receive) > 127)
        }
    }
}

/// How often what is claimed was put to the test.
#[derive(Default)]
struct Tally {
    asked_marked: usize,
    asked_recovering: usize,
    asked_passive: usize,
    asked_active: usize,
    counts_asked: usize,
    entered: usize,
    entered_again: usize,
    off_by_counts: usize,
    states_seen: usize,
}

#[derive(Default)]
struct Operator {
    controllers: [Known; 4],
    tally: Tally,
}

impl Operator {
    /// Judges a line by what was printed for it, and notes what it says.
    fn note(&mut self, words: &[&str], answer: &[u8]) {
        self.judge_state(answer);
        let Some(printed) = Printed::read(answer) else {
            return;
        };
        let told = self.expected(words, &printed);
        let passive = printed.records.iter().filter(|record| record[0] == 8);
        assert!(passive.eq(told.iter()), "{words:?}: {:?}, not {told:?}", printed.records);
        if printed.code == 0 {
            self.judge_answer(words, &printed);
            self.note_accepted(words, &printed);
        }
    }

    /// The records of kind 8 that are to be written: one where counts enter passive.
    fn expected(&mut self, words: &[&str], printed: &Printed) -> Vec<Vec<u32>> {
        if printed.name != "errors" || printed.code != 0 {
            return Vec::new();
        }
        let [controller, transmit, receive] = [1, 2, 3].map(|place| plain_number(words[place]));
        let known = &mut self.controllers[controller as usize];
        assert!(!known.off, "an event on a controller that is off the bus is accepted");
        assert!(transmit <= 65_535 && receive <= 65_535, "{words:?} is accepted");
        let before = known.error_state();
        *known = Known { off: transmit > 255, transmit, receive, ..*known };
        self.tally.off_by_counts += usize::from(known.off);
        if (before, known.error_state()) != (0, 1) {
            return Vec::new();
        }
        self.tally.entered += 1;
        self.tally.entered_again += usize::from(known.told);
        known.told = true;
        vec![vec![8, controller, transmit.min(255), receive.min(255)]]
    }

    /// Judges what a question answers.
    fn judge_answer(&mut self, words: &[&str], printed: &Printed) {
        if !["errorstate", "rxerrors", "txerrors"].contains(&printed.name.as_str()) {
            return;
        }
        let known = self.controllers[plain_number(words[1]) as usize];
        let tally = &mut self.tally;
        let expected = match printed.name.as_str() {
            "rxerrors" => known.receive.min(255),
            "txerrors" => known.transmit.min(255),
            _ => known.error_state(),
        };
        assert_eq!(printed.answer, expected.to_string(), "{words:?}");
        let met = match (printed.name.as_str(), known.error_state()) {
            ("errorstate", 0) => &mut tally.asked_active,
            ("errorstate", 1) => &mut tally.asked_passive,
            ("errorstate", _) if known.polled => &mut tally.asked_recovering,
            ("errorstate", _) => &mut tally.asked_marked,
            _ => &mut tally.counts_asked,
        };
        *met += 1;
    }

    /// Notes an accepted call. Only a mode record says that a controller is STARTED again.
    fn note_accepted(&mut self, words: &[&str], printed: &Printed) {
        match printed.name.as_str() {
            "busoff" => {
                let known = &mut self.controllers[plain_number(words[1]) as usize];
                assert!(!known.off, "a controller that is off the bus goes off the bus");
                known.off = true;
            }
            "init" | "deinit" => self.controllers = [Known::default(); 4],
            _ => (),
        }
        for record in &printed.records {
            let known = self.controllers.get_mut(record[1] as usize);
            match (record[0], known) {
                (3, Some(known)) if record[2] == 1 => *known = Known::default(),
                (4, Some(known)) => {
                    assert!(known.off && !known.polled, "a bus-off that no event made");
                    known.polled = true;
                }
                _ => (),
            }
        }
    }

    /// Judges what a state line says of marks and counts.
    fn judge_state(&mut self, answer: &[u8]) {
        let text = String::from_utf8_lossy(answer);
        let mut words = text.split_ascii_whitespace().skip(1);
        if words.next() != Some("state") {
            return;
        }
        let places = words.filter_map(|word| word.strip_prefix("c:"));
        for (place, known) in places.zip(&self.controllers) {
            let numbers: Vec<u32> = place.split(',').map(plain_number).collect();
            let marks = [known.off && !known.polled, known.off && known.polled].map(u32::from);
            let expected = [marks[0], marks[1], known.transmit, known.receive];
            assert_eq!(numbers[2..], expected, "{place}");
            self.tally.states_seen += 1;
        }
    }
}

/// Judges nights with these seeds.
fn judge(style: Style, seeds: std::ops::Range<u64>, lines: usize) -> Tally {
    let mut all = Tally::default();
    for seed in seeds {
        let mut operator = Operator { tally: all, ..Operator::default() };
        let mut maker = Maker::new(seed, style);
        for _ in 0..lines {
            let line = maker.next_line();
            operator.note(&words(&String::from_utf8_lossy(&line)), maker.last_answer());
        }
        all = operator.tally;
    }
    all
}

#[test]
fn trouble_is_seen_before_and_after_a_bus_off() {
    for (style, least) in [(Style::Calm, 300), (Style::Wild, 40)] {
        let tally = judge(style, 200..212, 10_000);
        for (what, count) in [
            ("asked while marked", tally.asked_marked),
            ("asked after the bus-off poll", tally.asked_recovering),
            ("asked while passive", tally.asked_passive),
            ("asked while active", tally.asked_active),
            ("asked for counts", tally.counts_asked),
            ("passive is entered", tally.entered),
            ("passive is entered again, with no start between", tally.entered_again),
            ("off the bus by the transmit count", tally.off_by_counts),
            ("controllers in state lines", tally.states_seen),
        ] {
            assert!(count > least, "{style:?}: {what}: {count}");
        }
    }
}
