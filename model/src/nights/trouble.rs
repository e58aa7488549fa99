//! Error counts in a night: events, questions, and trouble that grows on a controller.

use super::frames::number_word;
use super::{counts, Maker};
use crate::error_state::ErrorCounts;
use crate::mode::Mode;

/// What counts rise to, one after the other: both sides of each limit.
const STEPS: [u32; 8] = [96, 127, 128, 254, 255, 256, 65_534, 65_535];

/// The largest transmit count of a controller on the bus, and the largest count.
const MOST_ON_BUS: u32 = 255;
const MOST_COUNTED: u32 = 65_535;

impl Maker {
    /// A controller that is STARTED and not marked.
    fn running(&mut self) -> Option<u32> {
        let running = self.controllers_where(|place| place.mode == Mode::Started && !place.off_bus);
        self.rng.choose(&running).copied()
    }

    /// The event with these counts.
    pub(super) fn errors(&mut self, controller: u32, counts: ErrorCounts) -> String {
        let ErrorCounts { transmit, receive } = counts;
        let words =
            [controller, transmit, receive].map(|number| number_word(&mut self.rng, number));
        format!("errors {}", words.join(" "))
    }

    /// An event that leaves a controller on the bus; rarely one whose numbers are too large.
    pub(super) fn errors_on_bus(&mut self) -> Option<String> {
        let controller = self.running()?;
        let counts = if self.rng.one_in(25) {
            counts::refused(&mut self.rng)
        } else {
            counts::on_bus(&mut self.rng)
        };
        Some(self.errors(controller, counts))
    }

    /// An event that takes a controller off the bus: by its counts, or without them.
    pub(super) fn off_the_bus(&mut self, controller: u32) -> String {
        if self.rng.percent(60) {
            return format!("busoff {controller}");
        }
        let counts = counts::leaving(&mut self.rng);
        self.errors(controller, counts)
    }

    /// A controller that runs goes off the bus.
    pub(super) fn bus_off(&mut self) -> Option<String> {
        let controller = self.running()?;
        Some(self.off_the_bus(controller))
    }

    /// A question about the errors of a configured controller.
    pub(super) fn ask_errors(&mut self) -> Option<String> {
        let all = self.controllers_where(|_| true);
        let controller = *self.rng.choose(&all)?;
        Some(self.question(controller))
    }

    /// Counts of any controller, configured or not, and whatever it does.
    pub(super) fn errors_anywhere(&mut self) -> String {
        let controller = self.rng.below(4) as u32;
        let counts = ErrorCounts {
            transmit: counts::any(&mut self.rng),
            receive: counts::any(&mut self.rng),
        };
        self.errors(controller, counts)
    }

    /// A question about the errors of any controller, configured or not.
    pub(super) fn question_anywhere(&mut self) -> String {
        let controller = self.rng.below(4) as u32;
        self.question(controller)
    }

    /// A question about the errors of a controller, mostly of its state.
    pub(super) fn question(&mut self, controller: u32) -> String {
        let name = self.rng.pick(["errorstate", "errorstate", "rxerrors", "txerrors"]);
        format!("{name} {}", number_word(&mut self.rng, controller))
    }

    /// Trouble grows on a controller that runs. It passes and at times comes back, leads
    /// off the bus, is ended by a stop, or stays. The first of the lines.
    pub(super) fn trouble(&mut self) -> Option<String> {
        let controller = self.running()?;
        let present = self.bench().state().controllers[controller as usize].errors;
        let from = if self.rng.percent(50) { present } else { ErrorCounts::default() };
        let mut lines = self.growing(controller, from);
        match self.rng.below(10) {
            0..=3 => lines.extend(self.passing(controller)),
            4..=7 => lines.extend(self.falling(controller)),
            8 => lines.extend(self.stopping(controller)),
            _ => (),
        }
        Some(self.first_of(lines))
    }

    /// Counts that rise; the controller stays on the bus.
    fn growing(&mut self, controller: u32, from: ErrorCounts) -> Vec<String> {
        let mut counts = from;
        let mut lines = Vec::new();
        for _ in 0..self.rng.between(3, 7) {
            counts = self.risen(counts);
            lines.push(self.errors(controller, counts));
            if self.rng.percent(30) {
                lines.push(self.question(controller));
            }
        }
        lines
    }

    /// Counts after one error more, as a chip counts them, or after several.
    fn risen(&mut self, counts: ErrorCounts) -> ErrorCounts {
        let ErrorCounts { mut transmit, mut receive } = counts;
        match self.rng.below(6) {
            0 => transmit += 8,
            1 => receive += 1,
            2 => transmit = next_step(transmit),
            3 => receive = next_step(receive),
            4 => (transmit, receive) = (next_step(transmit), next_step(receive)),
            _ => transmit += self.rng.below(100) as u32,
        }
        ErrorCounts { transmit: transmit.min(MOST_ON_BUS), receive: receive.min(MOST_COUNTED) }
    }

    /// Counts back to active, and at times up again.
    fn passing(&mut self, controller: u32) -> Vec<String> {
        let (transmit, receive) = (counts::active(&mut self.rng), counts::active(&mut self.rng));
        let counts = ErrorCounts { transmit, receive };
        let mut lines = vec![self.errors(controller, counts), self.question(controller)];
        if self.rng.percent(75) {
            lines.extend(self.growing(controller, counts));
        }
        lines
    }

    /// A bus-off by the transmit count, its poll, mostly the next start, and what is
    /// asked meanwhile. At times a request waits that the poll clears.
    fn falling(&mut self, controller: u32) -> Vec<String> {
        let counts = counts::leaving(&mut self.rng);
        let mut lines = vec![self.errors(controller, counts)];
        if self.rng.percent(20) {
            lines.extend([format!("set {controller} STOPPED"), "poll mode".to_string()]);
        }
        if self.rng.percent(60) {
            lines.push(self.question(controller));
        }
        lines.push("poll busoff".to_string());
        lines.extend(self.looking(controller));
        if self.rng.percent(25) {
            lines.extend(self.sleeping(controller));
        }
        if self.rng.percent(80) {
            lines.extend(self.starting(controller));
        }
        lines
    }

    /// A stop, which keeps the counts, and mostly the next start, which does not.
    fn stopping(&mut self, controller: u32) -> Vec<String> {
        let mut lines = vec![format!("set {controller} STOPPED"), "poll mode".to_string()];
        lines.extend(self.looking(controller));
        if self.rng.percent(80) {
            lines.extend(self.starting(controller));
        }
        lines
    }

    /// From STOPPED to SLEEP and back.
    fn sleeping(&mut self, controller: u32) -> Vec<String> {
        let poll = || "poll mode".to_string();
        let mut lines = vec![format!("set {controller} SLEEP"), poll()];
        lines.extend(self.looking(controller));
        lines.extend([format!("set {controller} STOPPED"), poll()]);
        lines
    }

    fn starting(&mut self, controller: u32) -> Vec<String> {
        let mut lines = vec![format!("set {controller} STARTED"), "poll mode".to_string()];
        lines.extend(self.looking(controller));
        lines
    }

    /// A question or two, or the whole state, in which the counts are as large as they are.
    fn looking(&mut self, controller: u32) -> Vec<String> {
        match self.rng.below(4) {
            0 => vec!["state".to_string()],
            1 => vec![self.question(controller), self.question(controller)],
            _ => vec![self.question(controller)],
        }
    }
}

/// The next of the steps.
fn next_step(count: u32) -> u32 {
    STEPS.into_iter().find(|&step| step > count).unwrap_or(MOST_COUNTED)
}
