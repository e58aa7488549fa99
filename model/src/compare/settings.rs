//! What is compared: the arguments of `compare`.

use std::ops::Range;
use std::slice::Iter;
use std::str::FromStr;

pub const USAGE: &str = "usage: compare BENCH [--seeds FROM..TO] [--lines N] [--piece SIZE]";

/// The settings of a run.
#[derive(Debug, PartialEq, Eq)]
pub struct Settings {
    /// The bench program.
    pub bench: String,
    /// The seeds, the last one left out. Each gives a calm and a wild night.
    pub seeds: Range<u64>,
    /// The lines of each night.
    pub lines: u64,
    /// How many bytes are written to the bench at once. Small pieces make it
    /// likely that lines reach it in parts.
    pub piece: usize,
}

impl Settings {
    /// Reads the arguments, or says what is wrong with them. Of an option
    /// given twice the last counts, so that a script can have settings of its own.
    pub fn read(arguments: &[String]) -> Result<Settings, String> {
        let mut settings =
            Settings { bench: String::new(), seeds: 1..21, lines: 10_000, piece: 1 << 16 };
        let mut words = arguments.iter();
        while let Some(word) = words.next() {
            match word.as_str() {
                "--seeds" => settings.seeds = range(value(word, &mut words)?)?,
                "--lines" => settings.lines = above_zero(word, value(word, &mut words)?)?,
                "--piece" => settings.piece = above_zero(word, value(word, &mut words)?)?,
                option if option.starts_with('-') => {
                    return Err(format!("there is no option {option}"));
                }
                bench if settings.bench.is_empty() => settings.bench = bench.to_string(),
                other => return Err(format!("a word too many: {other}")),
            }
        }
        if settings.bench.is_empty() {
            return Err("no bench is named".to_string());
        }
        Ok(settings)
    }
}

/// The word after an option.
fn value<'a>(option: &str, words: &mut Iter<'a, String>) -> Result<&'a str, String> {
    words.next().map(String::as_str).ok_or(format!("{option} needs a value"))
}

/// A number that is not zero: with none of something, nothing would be compared.
fn above_zero<T: FromStr + Default + PartialEq>(option: &str, word: &str) -> Result<T, String> {
    word.parse()
        .ok()
        .filter(|number| *number != T::default())
        .ok_or(format!("{option} needs a number above 0, not {word}"))
}

/// FROM..TO, with one seed at least.
fn range(word: &str) -> Result<Range<u64>, String> {
    let ends = word.split_once("..");
    ends.and_then(|(from, to)| Some(from.parse().ok()?..to.parse().ok()?))
        .filter(|seeds| !seeds.is_empty())
        .ok_or(format!("--seeds needs FROM..TO with FROM below TO, not {word}"))
}

#[cfg(test)]
mod tests {
    use super::*;

    fn read(line: &str) -> Result<Settings, String> {
        let arguments: Vec<String> = line.split_whitespace().map(str::to_string).collect();
        Settings::read(&arguments)
    }

    #[test]
    fn settings_are_read() {
        let settings = |seeds, lines, piece| {
            Ok(Settings { bench: "b/bench".to_string(), seeds, lines, piece })
        };
        assert_eq!(read("b/bench"), settings(1..21, 10_000, 65_536));
        assert_eq!(read("b/bench --seeds 7..8"), settings(7..8, 10_000, 65_536));
        assert_eq!(read("--lines 5 b/bench --piece 1"), settings(1..21, 5, 1));
        assert_eq!(read("b/bench --lines 5 --lines 6"), settings(1..21, 6, 65_536));
    }

    #[test]
    fn errors_are_named() {
        for (line, trouble) in [
            ("", "no bench is named"),
            ("--lines 5", "no bench is named"),
            ("bench words", "a word too many: words"),
            ("bench --seed 1..2", "there is no option --seed"),
            ("bench -h", "there is no option -h"),
            ("bench --seeds", "--seeds needs a value"),
            ("bench --seeds 5", "--seeds needs FROM..TO with FROM below TO, not 5"),
            ("bench --seeds 5..5", "--seeds needs FROM..TO with FROM below TO, not 5..5"),
            ("bench --seeds 5..4", "--seeds needs FROM..TO with FROM below TO, not 5..4"),
            ("bench --seeds 1..x", "--seeds needs FROM..TO with FROM below TO, not 1..x"),
            ("bench --seeds 1..=5", "--seeds needs FROM..TO with FROM below TO, not 1..=5"),
            ("bench --seeds ..5", "--seeds needs FROM..TO with FROM below TO, not ..5"),
            ("bench --lines", "--lines needs a value"),
            ("bench --lines 0", "--lines needs a number above 0, not 0"),
            ("bench --lines -1", "--lines needs a number above 0, not -1"),
            ("bench --lines many", "--lines needs a number above 0, not many"),
            ("bench --piece 0", "--piece needs a number above 0, not 0"),
        ] {
            assert_eq!(read(line), Err(trouble.to_string()), "{line}");
        }
    }
}
