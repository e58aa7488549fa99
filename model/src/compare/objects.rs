//! Configurations with fewer objects, to make a night readable.

use std::ops::Range;

use super::shorten;
use crate::script;

/// Hex digits of the header, of the object count in it, and of one record.
const HEADER: usize = 16;
const COUNT: Range<usize> = 12..14;
const RECORD: usize = 24;

/// How many objects a line configures: 0 unless it is an Init whose count and
/// length agree.
pub fn count(line: &[u8]) -> usize {
    digits(line).map_or(0, |digits| (digits.len() - HEADER) / RECORD)
}

/// The night with one object less in the Init at `place`. Objects after it move
/// down by one, and so do their numbers in the lines up to the next Init.
pub fn without(lines: &[Vec<u8>], place: usize, object: usize) -> Vec<Vec<u8>> {
    let mut lines = lines.to_vec();
    if let Some(digits) = digits(&lines[place]) {
        let record = HEADER + RECORD * object;
        let count = (digits.len() - HEADER) / RECORD - 1;
        lines[place] = [
            b"init ",
            &digits[..COUNT.start],
            format!("{count:02x}").as_bytes(),
            &digits[COUNT.end..record],
            &digits[record + RECORD..],
            b"\n",
        ]
        .concat();
    }
    for line in lines[place + 1..].iter_mut().take_while(|line| !line.starts_with(b"init")) {
        if let Some(renumbered) = moved_down(line, object) {
            *line = renumbered;
        }
    }
    lines
}

/// The digits of an Init whose count and length agree, its words put together.
fn digits(line: &[u8]) -> Option<Vec<u8>> {
    let mut words = script::words(line.trim_ascii_end());
    words.next().filter(|&name| name == b"init")?;
    let digits = words.collect::<Vec<_>>().concat();
    let count = std::str::from_utf8(digits.get(COUNT)?).ok()?;
    let count = usize::from_str_radix(count, 16).ok()?;
    (digits.len() == HEADER + RECORD * count).then_some(digits)
}

/// A line about an object after the dropped one, with its new number.
fn moved_down(line: &[u8], dropped: usize) -> Option<Vec<u8>> {
    let mut words: Vec<&[u8]> = script::words(line.trim_ascii_end()).collect();
    if !matches!(*words.first()?, b"write" | b"sent" | b"data" | b"show") {
        return None;
    }
    let object = script::number(words.get(1)?).ok().filter(|&object| object as usize > dropped)?;
    let number = (object - 1).to_string();
    words[1] = number.as_bytes();
    Some(shorten::joined(&words))
}

#[cfg(test)]
mod tests {
    use super::*;

    /// Two objects.
    const INIT: &str = "init 4348420001010200000040CC00000000000000000001080000000120000007FF\n";

    #[test]
    fn objects_are_counted() {
        assert_eq!(count(INIT.as_bytes()), 2);
        assert_eq!(count(INIT.replace(' ', "\t").replace('\n', " # K\r\n").as_bytes()), 2);
        assert_eq!(count(INIT.replace("0102", "01 02 ").as_bytes()), 2);
        for line in
            ["init 4348420001010000\n", "init 4348420001010100\n", "init -\n", "init\n", "\n"]
        {
            assert_eq!(count(line.as_bytes()), 0, "{line:?}");
        }
        assert_eq!(count(INIT.replace("init", "fly").as_bytes()), 0);
        assert_eq!(count(INIT.replace("FF\n", "\n").as_bytes()), 0);
    }

    #[test]
    fn later_objects_move_down() {
        let night = |lines: &[&str]| -> Vec<Vec<u8>> {
            lines.iter().map(|line| line.as_bytes().to_vec()).collect()
        };
        let lines = night(&[
            "sent 1\n",
            INIT,
            "data 0\n",
            "show\t0x1 # x\n",
            "set 1 2\n",
            INIT,
            "sent 1\n",
        ]);
        let first = "init 43484200010101000001080000000120000007FF\n";
        let expected = ["sent 1\n", first, "data 0\n", "show 0\n", "set 1 2\n", INIT, "sent 1\n"];
        assert_eq!(without(&lines, 1, 0), night(&expected));
        let last = "init 4348420001010100000040CC0000000000000000\n";
        let expected =
            ["sent 1\n", last, "data 0\n", "show\t0x1 # x\n", "set 1 2\n", INIT, "sent 1\n"];
        assert_eq!(without(&lines, 1, 1), night(&expected));
    }
}
