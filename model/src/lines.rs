//! Reading a script line by line, with bounded memory whatever the input.

use std::io::{self, BufRead};

/// The longest line that can be read, without its line end.
pub const LONGEST_LINE: usize = 8192;

/// One line without its line end.
#[derive(Debug, PartialEq, Eq)]
pub enum Line<'a> {
    Text(&'a [u8]),
    TooLong,
}

impl<'a> Line<'a> {
    /// One whole line given with its line end, LF or CRLF.
    pub fn of(line: &'a [u8]) -> Line<'a> {
        let text = match line.strip_suffix(b"\n") {
            Some(text) => text.strip_suffix(b"\r").unwrap_or(text),
            None => line,
        };
        if text.len() > LONGEST_LINE {
            Line::TooLong
        } else {
            Line::Text(text)
        }
    }
}

/// Splits an input into lines ended by LF or CRLF. A last line without LF
/// counts too; there a CR belongs to the line.
pub struct Lines<R> {
    input: R,
    buffer: Vec<u8>,
}

impl<R: BufRead> Lines<R> {
    pub fn new(input: R) -> Lines<R> {
        Lines { input, buffer: Vec::with_capacity(LONGEST_LINE + 1) }
    }

    /// The next line, or `None` at the end of the input.
    pub fn next_line(&mut self) -> io::Result<Option<Line<'_>>> {
        self.buffer.clear();
        let mut length: u64 = 0;
        loop {
            let piece = self.input.fill_buf()?;
            if piece.is_empty() {
                if length == 0 {
                    return Ok(None);
                }
                return Ok(Some(self.line(length)));
            }
            let end = piece.iter().position(|&byte| byte == b'\n');
            let text = &piece[..end.unwrap_or(piece.len())];
            // One byte more than a line may have, for the CR of a CRLF.
            let room = LONGEST_LINE + 1 - self.buffer.len();
            self.buffer.extend_from_slice(&text[..text.len().min(room)]);
            length += text.len() as u64;
            let used = text.len() + usize::from(end.is_some());
            self.input.consume(used);
            if end.is_some() {
                if length == self.buffer.len() as u64 && self.buffer.last() == Some(&b'\r') {
                    self.buffer.pop();
                    length -= 1;
                }
                return Ok(Some(self.line(length)));
            }
        }
    }

    fn line(&self, length: u64) -> Line<'_> {
        if length > LONGEST_LINE as u64 {
            Line::TooLong
        } else {
            Line::Text(&self.buffer)
        }
    }
}

#[cfg(test)]
mod tests {
    use super::*;
    use std::io::BufReader;

    /// The lines of an input read in pieces of `piece` bytes; `None` is too long.
    fn lines(input: &[u8], piece: usize) -> Vec<Option<Vec<u8>>> {
        let mut lines = Lines::new(BufReader::with_capacity(piece, input));
        let mut all = Vec::new();
        while let Some(line) = lines.next_line().expect("no read error") {
            all.push(match line {
                Line::Text(text) => Some(text.to_vec()),
                Line::TooLong => None,
            });
        }
        all
    }

    #[test]
    fn line_ends() {
        for piece in [1, 2, 3, 64] {
            let text = |t: &str| Some(t.as_bytes().to_vec());
            assert_eq!(lines(b"", piece), []);
            assert_eq!(lines(b"\n", piece), [text("")]);
            assert_eq!(lines(b"a\r\nb\nc", piece), [text("a"), text("b"), text("c")]);
            assert_eq!(lines(b"a\r\r\n\r\n\r", piece), [text("a\r"), text(""), text("\r")]);
        }
    }

    #[test]
    fn the_longest_line() {
        for piece in [7, 8192, 100_000] {
            for (length, end, fits) in [
                (8191, "\n", true),
                (8192, "\n", true),
                (8192, "\r\n", true),
                (8192, "", true),
                (8193, "\n", false),
                (8193, "\r\n", false),
                (8193, "", false),
                (8192, "\r\r\n", false),
                (8192, "\r", false),
                (50_000, "\r\n", false),
            ] {
                let input = [&vec![b'x'; length][..], end.as_bytes()].concat();
                assert_eq!(lines(&input, piece).len(), 1);
                assert_eq!(lines(&input, piece)[0].is_some(), fits, "{length} and {end:?}");
            }
        }
    }
}
