//! Configurations in words put as bytes, so that one line says them.

use crate::draft::Draft;
use crate::lines::Line;
use crate::nights::frames::hex;
use crate::script::{self, Command};

/// The night with the bytes of the configuration in words in every Init that
/// has none. The lines that say it are still there, but nothing needs them.
pub fn out(lines: &[Vec<u8>]) -> Vec<Vec<u8>> {
    let mut draft = Draft::default();
    lines.iter().map(|line| spelled(line, &mut draft).unwrap_or_else(|| line.clone())).collect()
}

/// The line in place of an Init in words. Lines that say a configuration go into
/// the draft.
fn spelled(line: &[u8], draft: &mut Draft) -> Option<Vec<u8>> {
    let Line::Text(text) = Line::of(line) else {
        return None;
    };
    match script::read(text, &mut Vec::new()).ok()?? {
        Command::InitInWords => Some(format!("init {}\n", hex(&draft.bytes(), false)).into()),
        Command::Controllers { count } => {
            *draft = Draft::of(count);
            None
        }
        Command::Object(object) => {
            // One too many changes nothing.
            let _ = draft.add(&object);
            None
        }
        _ => None,
    }
}

#[cfg(test)]
mod tests {
    use super::*;

    #[test]
    fn bytes_come_in_place_of_words() {
        let night = |lines: &[&str]| -> Vec<Vec<u8>> {
            lines.iter().map(|line| line.as_bytes().to_vec()).collect()
        };
        let lines = [
            "init # nothing said yet\n",
            "controllers 1\r\n",
            "object send controller 0 payload 64 padding CC\n",
            "object send controller 0 payload 64 padding\n",
            "init\n",
            "object receive controller 0 payload 8 code 120 mask 7FF\n",
            "init -\n",
            "init",
            "object send controller 0 payload 64 padding CC pool 0\n",
            "init\n",
        ];
        let mut expected = lines;
        expected[0] = "init 4348420001000000\n";
        expected[4] = "init 4348420001010100000040cc0000000000000000\n";
        expected[7] = "init 4348420001010200000040cc00000000000000000001080000000120000007ff\n";
        expected[9] = "init 4348420002010300000040cc00000000000000000001080000000120000007ff\
                       000040cc0000000000000000\n";
        assert_eq!(out(&night(&lines)), night(&expected));
        assert_eq!(out(&night(&lines[1..4])), night(&lines[1..4]));
    }
}
