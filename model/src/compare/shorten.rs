//! Simpler lines to try in place of a line.

use crate::script;

/// The words of a line that are replaced, as many as an object line has. Words after
/// them are bytes, which are gathered in one word first.
const REPLACED: usize = 10;

/// Simpler lines, the boldest first. Each is shorter, has fewer digits that
/// matter, or has lost its odd line end or blanks, so that trying them comes
/// to an end.
pub fn simpler(line: &[u8]) -> Vec<Vec<u8>> {
    let text = line.trim_ascii_end();
    let words: Vec<&[u8]> = script::words(text).collect();
    let mut lines = vec![joined(&words)];
    lines.extend(gathered(&words));
    lines.extend(cut(text));
    for place in 1..words.len().min(REPLACED) {
        let is_count = words[0] == b"errors" && place > 1;
        let counts = if is_count { smaller_counts(words[place]) } else { Vec::new() };
        for simple in replacements(words[place]).into_iter().chain(counts) {
            let mut words = words.clone();
            words[place] = &simple;
            lines.push(joined(&words));
        }
    }
    lines.retain(|simpler| simpler != line);
    lines
}

/// The words with nothing but one space between them, and a plain line end.
pub fn joined(words: &[&[u8]]) -> Vec<u8> {
    let mut line = words.join(&b' ');
    line.push(b'\n');
    line
}

/// The line with its bytes in one word, if they are in several.
fn gathered(words: &[&[u8]]) -> Option<Vec<u8>> {
    let single = match *words.first()? {
        b"init" => 1,
        b"arrived" => 3,
        b"write" => 4,
        _ => return None,
    };
    let (single, bytes) = words.split_at_checked(single)?;
    let bytes = bytes.concat();
    (words.len() > single.len() + 1).then(|| joined(&[single, &[&bytes]].concat()))
}

/// The line without its second half, its last quarter and so on. The long
/// words are the last of their lines; they keep whole bytes as far as may be.
fn cut(text: &[u8]) -> Vec<Vec<u8>> {
    let mut lines = Vec::new();
    let mut size = text.len() / 2;
    while size > 0 {
        // Two digits are one byte.
        let even = if size > 1 { size & !1 } else { size };
        lines.push([&text[..text.len() - even], b"\n"].concat());
        size /= 2;
    }
    lines
}

/// Simpler words: the smallest number, no bytes, as many zeros.
fn replacements(word: &[u8]) -> Vec<Vec<u8>> {
    if word == b"0" || word == b"-" {
        return Vec::new();
    }
    let zeros = vec![b'0'; word.len()];
    let mut words = vec![b"0".to_vec(), b"-".to_vec()];
    if word != zeros {
        words.push(zeros);
    }
    words
}

/// The smallest counts above each limit, where the word is a larger one.
fn smaller_counts(word: &[u8]) -> Vec<Vec<u8>> {
    let count = script::number(word).unwrap_or(0);
    let smaller = [128, 256, 65_536].into_iter().filter(|&limit| limit < count);
    smaller.map(|limit: u32| limit.to_string().into_bytes()).collect()
}

#[cfg(test)]
mod tests {
    use super::*;

    fn simpler_than(line: &str) -> Vec<String> {
        let text = |line: Vec<u8>| String::from_utf8(line).expect("plain text");
        simpler(line.as_bytes()).into_iter().map(text).collect()
    }

    #[test]
    fn dressing_goes_first() {
        assert_eq!(simpler_than("\t get\t0  # x\r\n")[0], "get 0\n");
        assert_eq!(simpler_than("state")[0], "state\n");
        assert_eq!(simpler_than("# a comment\n")[0], "\n");
    }

    #[test]
    fn ends_are_cut_by_whole_bytes() {
        let lines = simpler_than("init 0123456789\n");
        assert_eq!(lines[..3], ["init 0123\n", "init 01234567\n", "init 012345678\n"]);
    }

    #[test]
    fn bytes_are_gathered() {
        assert_eq!(simpler_than("init 43 4842\n")[0], "init 434842\n");
        assert_eq!(simpler_than("write 0 7 123 01 - 02\n")[0], "write 0 7 123 01-02\n");
        assert_eq!(simpler_than("arrived 0 123 01 02\n")[0], "arrived 0 123 0102\n");
        for line in ["init 434842\n", "init\n", "write 0 7 123\n", "set 0 1 2\n"] {
            assert!(
                gathered(&script::words(line.trim_end().as_bytes()).collect::<Vec<_>>()).is_none()
            );
        }
    }

    #[test]
    fn words_are_replaced() {
        let lines = simpler_than("sent 31\n");
        for line in ["sent 0\n", "sent -\n", "sent 00\n"] {
            assert!(lines.contains(&line.to_string()), "{line:?}");
        }
        assert!(!lines.iter().any(|line| line == "sent 31\n"));
        assert_eq!(simpler_than("\n"), Vec::<String>::new());
    }

    #[test]
    fn counts_stay_above_a_limit() {
        let lines = simpler_than("errors 3 200 0x11000\n");
        for line in ["errors 3 128 0x11000\n", "errors 3 200 128\n", "errors 3 200 65536\n"] {
            assert!(lines.contains(&line.to_string()), "{line:?}");
        }
        assert!(!lines.contains(&"errors 3 256 0x11000\n".to_string()));
        assert!(!lines.iter().any(|line| line.starts_with("errors 128")), "no controller");
        let others = simpler_than("errors 0 128 0\n");
        assert!(!others.iter().any(|line| line.starts_with("errors 0 128 1")), "{others:?}");
    }

    #[test]
    fn trying_them_comes_to_an_end() {
        for pick in 0..20 {
            comes_to_an_end(b"\twrite 0x1F 65535 9fffffff 00FF 11 -0 22 \t# x\r", pick);
            comes_to_an_end(b"errors 0x3 0x11000,65537#", pick);
        }
    }

    /// Puts a simpler line in place of the line, again and again, the one at `pick`.
    fn comes_to_an_end(line: &[u8], pick: usize) {
        let mut line = line.to_vec();
        for _ in 0..100 {
            let mut lines = simpler(&line);
            if lines.is_empty() {
                return;
            }
            line = lines.swap_remove(pick % lines.len());
        }
        panic!("still {line:?}");
    }
}
