//! The bench as a program of its own.

use std::io::Write;
use std::process::{ChildStdin, Command, Stdio};
use std::thread;

/// A program that reads a script and prints an answer.
pub struct Program<'a> {
    pub path: &'a str,
    pub arguments: &'a [&'a str],
    /// How many bytes are written to it at once.
    pub piece: usize,
}

impl Program<'_> {
    /// What the program prints, and behind that what it says on standard error; or why there is nothing to compare.
    pub fn play(&self, script: &[u8]) -> Result<Vec<u8>, String> {
        let path = self.path;
        let mut child = Command::new(path)
            .args(self.arguments)
            .stdin(Stdio::piped())
            .stdout(Stdio::piped())
            .stderr(Stdio::piped())
            .spawn()
            .map_err(|error| format!("{path} cannot be started ({error})"))?;
        let input = child.stdin.take();
        // The program answers while it reads: one pipe must not wait for the other.
        let output = thread::scope(|scope| {
            scope.spawn(|| feed(input, script, self.piece));
            child.wait_with_output()
        });
        let output = output.map_err(|error| format!("{path} cannot be read ({error})"))?;
        if !output.status.success() {
            let words = String::from_utf8_lossy(&output.stderr);
            return Err(format!("{path} died ({}) {words}", output.status).trim_end().to_string());
        }
        Ok([output.stdout, output.stderr].concat())
    }
}

/// Writes the script in pieces and closes the input.
fn feed(input: Option<ChildStdin>, script: &[u8], piece: usize) {
    let Some(mut input) = input else {
        return;
    };
    for piece in script.chunks(piece) {
        // A program that no longer reads has died or answers less than it
        // should; either shows without this error.
        if input.write_all(piece).is_err() {
            return;
        }
    }
}

#[cfg(test)]
mod tests {
    use super::*;

    fn play(path: &str, script: &[u8], piece: usize) -> Result<Vec<u8>, String> {
        Program { path, arguments: &["words"], piece }.play(script)
    }

    #[test]
    fn what_is_printed_is_read() {
        assert_eq!(play("echo", b"", 1), Ok(b"words\n".to_vec()));
    }

    #[test]
    fn a_program_that_does_not_read_holds_nothing_up() {
        let script = vec![b'\n'; 1 << 20];
        for piece in [1 << 16, usize::MAX] {
            assert_eq!(play("echo", &script, piece), Ok(b"words\n".to_vec()));
        }
    }

    #[test]
    fn trouble_is_named() {
        let missing = play("/no/such/bench", b"", 1).expect_err("no such program");
        assert!(missing.starts_with("/no/such/bench cannot be started ("), "{missing}");
        assert_eq!(play("false", b"", 1), Err("false died (exit status: 1)".to_string()));
    }
}
