//! A night: a script played line by line on one bench.

use std::io::{self, BufRead, Write};

use crate::bench::Bench;
use crate::lines::{Line, Lines};
use crate::script::{self, Trouble};
use crate::words;

/// A bench, the number of the line it is at, how many lines were not understood, and the first of them.
#[derive(Default)]
pub struct Night {
    bench: Bench,
    line: u64,
    bad: u64,
    first_bad: u64,
    bytes: Vec<u8>,
}

impl Night {
    /// The bench as it stands after the lines played so far.
    pub fn bench(&self) -> &Bench {
        &self.bench
    }

    /// Plays one line and prints its answer. A line that cannot be read
    /// changes nothing, is answered in its place, and the night goes on.
    pub fn play_line(&mut self, line: Line, out: &mut Vec<u8>) {
        self.line += 1;
        if let Err(trouble) = self.play_read(line, out) {
            if self.bad == 0 {
                self.first_bad = self.line;
            }
            self.bad += 1;
            words::print_trouble(out, self.line, trouble);
        }
    }

    /// Reads a line, plays it and prints its answer.
    fn play_read(&mut self, line: Line, out: &mut Vec<u8>) -> Result<(), Trouble> {
        let Line::Text(text) = line else {
            return Err(Trouble::LineTooLong);
        };
        if let Some(command) = script::read(text, &mut self.bytes)? {
            words::print(out, self.line, &self.bench.play(command)?);
        }
        Ok(())
    }

    /// What the bench says on standard error of a night that was read whole: nothing where every line was understood.
    pub fn complaint(&self) -> String {
        if self.bad == 0 {
            return String::new();
        }
        format!(
            "bench: {} of {} lines not understood, first at line {}\n",
            self.bad, self.line, self.first_bad
        )
    }

    /// The end of a night that was read whole: `end LINES BAD`, lines read and lines not understood.
    pub fn end(&self, out: &mut Vec<u8>) {
        out.extend_from_slice(format!("end {} {}\n", self.line, self.bad).as_bytes());
    }
}

/// Plays a whole script from a fresh bench, and answers how it stands in the end.
pub fn play(script: impl BufRead, mut output: impl Write) -> io::Result<Night> {
    let mut lines = Lines::new(script);
    let mut night = Night::default();
    let mut answer = Vec::new();
    while let Some(line) = lines.next_line()? {
        answer.clear();
        night.play_line(line, &mut answer);
        output.write_all(&answer)?;
    }
    answer.clear();
    night.end(&mut answer);
    output.write_all(&answer)?;
    output.flush()?;
    Ok(night)
}
