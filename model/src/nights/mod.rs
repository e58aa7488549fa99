//! Random nights: seeded, reproducible scripts for the bench.
//!
//! The maker plays every line it makes on a bench of its own, so that it knows
//! what would be accepted next.

mod calm;
pub(crate) mod configs;
pub(crate) mod counts;
pub(crate) mod frames;
mod pools;
pub(crate) mod rng;
mod said;
mod strange;
mod trouble;
mod wild;

use std::collections::VecDeque;

use crate::bench::Bench;
use crate::lines::Line;
use crate::night::Night;
use rng::Rng;

/// How a night is meant to go.
#[derive(Clone, Copy, Debug, PartialEq, Eq)]
pub enum Style {
    /// Most calls are accepted.
    Calm,
    /// Damaged and hostile.
    Wild,
}

impl Style {
    /// The style of this name.
    pub fn named(name: &str) -> Option<Style> {
        [Style::Calm, Style::Wild].into_iter().find(|style| style.name() == name)
    }

    /// The name, as `nights` takes it.
    pub fn name(self) -> &'static str {
        match self {
            Style::Calm => "calm",
            Style::Wild => "wild",
        }
    }
}

/// The lines of a whole night. In a wild night with an odd seed the last line
/// has no line end, and if it was blank it is gone.
pub fn night(seed: u64, count: u64, style: Style) -> impl Iterator<Item = Vec<u8>> {
    let mut maker = Maker::new(seed, style);
    let open_end = style == Style::Wild && seed % 2 == 1;
    let lines = (1..=count).map(move |number| {
        let mut line = maker.next_line();
        if open_end && number == count {
            line.truncate(line.trim_ascii_end().len());
        }
        line
    });
    lines.filter(|line| !line.is_empty())
}

/// Makes the lines of one night.
pub struct Maker {
    rng: Rng,
    style: Style,
    night: Night,
    /// True while controllers are being stopped for a DeInit.
    winding_down: bool,
    /// The lines still to come of several that belong together, such as a
    /// configuration in words.
    coming: VecDeque<String>,
    answer: Vec<u8>,
}

impl Maker {
    /// A night that depends on the seed and the style only.
    pub fn new(seed: u64, style: Style) -> Maker {
        Maker {
            rng: Rng::new(seed),
            style,
            night: Night::default(),
            winding_down: false,
            coming: VecDeque::new(),
            answer: Vec::new(),
        }
    }

    /// The next line with its line end, LF or CRLF.
    pub fn next_line(&mut self) -> Vec<u8> {
        let line = match self.style {
            Style::Calm => {
                let mut line = self.calm_command().into_bytes();
                line.push(b'\n');
                line
            }
            Style::Wild => self.wild_line(),
        };
        self.answer.clear();
        self.night.play_line(Line::of(&line), &mut self.answer);
        line
    }

    /// The bench as it stands after the lines made so far.
    pub fn bench(&self) -> &Bench {
        self.night.bench()
    }

    /// What the bench answered to the last line.
    pub fn last_answer(&self) -> &[u8] {
        &self.answer
    }
}
