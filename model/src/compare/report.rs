//! What is said about a night that differs.

use std::fmt::Write as _;
use std::io::{self, Write};

use super::difference::Difference;
use super::shrink::Shrunk;
use crate::nights::Style;

/// A night with more lines is not printed: some errors need many lines, a full
/// buffer for one, and nobody reads so many.
const MOST_PRINTED: usize = 200;

/// The night, and the program that differs from the model.
pub struct Report<'a> {
    pub bench: &'a str,
    pub seed: u64,
    pub style: Style,
    pub count: u64,
}

impl Report<'_> {
    /// The command that makes the whole night again.
    pub fn remake(&self) -> String {
        format!("nights {} {} {}", self.seed, self.count, self.style.name())
    }

    /// Says where the outputs differ first.
    pub fn difference(&self, out: &mut impl Write, difference: &Difference) -> io::Result<()> {
        let (seed, style, line) = (self.seed, self.style.name(), difference.line);
        writeln!(out, "compare: seed {seed}, {style}: output line {line} differs")?;
        writeln!(out, "    model: {}", shown(difference.model))?;
        writeln!(out, "    bench: {}", shown(difference.bench))?;
        writeln!(out, "the whole night: {}", self.remake())
    }

    /// Says that the night, played again, no longer differs.
    pub fn not_again(&self, out: &mut impl Write) -> io::Result<()> {
        writeln!(out, "{} did not answer like this again: it is not reliable", self.bench)
    }

    /// Prints the shrunken night as a command that plays it, and both outputs.
    pub fn shrunk(
        &self,
        out: &mut impl Write,
        shrunk: &Shrunk,
        model: &[u8],
        bench: &[u8],
    ) -> io::Result<()> {
        let count = shrunk.lines.len();
        writeln!(out, "lines left after {} trials: {count}", shrunk.trials)?;
        if count > MOST_PRINTED {
            return writeln!(out, "too many to print");
        }
        let night = escaped(&shrunk.lines.concat());
        writeln!(out, "\nprintf '%b' '{night}' | {} words\n", self.bench)?;
        print_output(out, "model", model)?;
        print_output(out, "bench", bench)
    }
}

fn print_output(out: &mut impl Write, name: &str, output: &[u8]) -> io::Result<()> {
    writeln!(out, "{name}:")?;
    for line in output.split_inclusive(|&byte| byte == b'\n') {
        writeln!(out, "    {}", shown(Some(line)))?;
    }
    Ok(())
}

/// An output line as it can be read.
fn shown(line: Option<&[u8]>) -> String {
    match line {
        Some(line) => match line.strip_suffix(b"\n") {
            Some(text) => escaped(text),
            None => escaped(line) + " (and no line end)",
        },
        None => "(nothing more)".to_string(),
    }
}

/// Text as it is; strange bytes as bash's `printf '%b'` takes them between
/// single quotes.
fn escaped(bytes: &[u8]) -> String {
    let mut text = String::with_capacity(bytes.len());
    for &byte in bytes {
        match byte {
            b'\\' => text.push_str("\\\\"),
            b'\t' => text.push_str("\\t"),
            b'\r' => text.push_str("\\r"),
            b'\n' | b' '..=b'~' if byte != b'\'' => text.push(byte.into()),
            // Writing to a string cannot fail.
            _ => drop(write!(text, "\\x{byte:02x}")),
        }
    }
    text
}

#[cfg(test)]
mod tests {
    use super::*;

    const REPORT: Report =
        Report { bench: "target/bin/bench", seed: 7, style: Style::Wild, count: 300 };

    /// What is printed by a part of the report.
    fn printed(part: impl FnOnce(&mut Vec<u8>) -> io::Result<()>) -> String {
        let mut out = Vec::new();
        part(&mut out).expect("no trouble in memory");
        String::from_utf8(out).expect("plain text")
    }

    #[test]
    fn a_difference_is_shown_with_both_lines() {
        let difference = Difference { line: 3, model: Some(b"4 get 0 0 1\n"), bench: None };
        let expected = "compare: seed 7, wild: output line 3 differs\n    \
                        model: 4 get 0 0 1\n    bench: (nothing more)\n\
                        the whole night: nights 7 300 wild\n";
        assert_eq!(printed(|out| REPORT.difference(out, &difference)), expected);
    }

    #[test]
    fn a_shrunken_night_is_a_command() {
        let lines = vec![b"get 1\n".to_vec(), b"it's\t\\\xff\r".to_vec()];
        let shrunk = Shrunk { lines, trials: 5 };
        let expected = "lines left after 5 trials: 2\n\n\
                        printf '%b' 'get 1\nit\\x27s\\t\\\\\\xff\\r' | target/bin/bench words\n\n\
                        model:\n    1 get 0 0 1\nbench:\n    1 get 0 0 2 (and no line end)\n";
        let (model, bench) = (b"1 get 0 0 1\n", b"1 get 0 0 2");
        assert_eq!(printed(|out| REPORT.shrunk(out, &shrunk, model, bench)), expected);
    }

    #[test]
    fn a_long_night_is_not_printed() {
        let shrunk = Shrunk { lines: vec![b"get 1\n".to_vec(); MOST_PRINTED + 1], trials: 5 };
        let expected = "lines left after 5 trials: 201\ntoo many to print\n";
        assert_eq!(printed(|out| REPORT.shrunk(out, &shrunk, b"", b"1")), expected);
    }
}
