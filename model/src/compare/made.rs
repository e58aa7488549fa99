//! Nights made ahead, while the bench is at an earlier one.

use std::sync::mpsc::SyncSender;

use super::Settings;
use crate::night;
use crate::nights::{self, Style};

/// A night and what the model prints for it.
pub struct Made {
    pub seed: u64,
    pub style: Style,
    /// The lines, with their line ends.
    pub lines: Vec<Vec<u8>>,
    pub expected: Vec<u8>,
}

/// Makes both nights of every seed, until nobody takes them any more.
pub fn make_nights(settings: &Settings, sender: &SyncSender<Made>) {
    for seed in settings.seeds.clone() {
        for style in [Style::Calm, Style::Wild] {
            let lines: Vec<Vec<u8>> = nights::night(seed, settings.lines, style).collect();
            let expected = model(&lines.concat());
            if sender.send(Made { seed, style, lines, expected }).is_err() {
                return;
            }
        }
    }
}

/// What the model prints for a script.
pub fn model(script: &[u8]) -> Vec<u8> {
    let mut output = Vec::new();
    let night = night::play(script, &mut output).expect("reading and writing memory does not fail");
    output.extend_from_slice(night.complaint().as_bytes());
    output
}
