//! `model`: reads a bench script on stdin and prints the "words" style on stdout, and on stderr what the bench says there.

use std::io::{self, BufReader, BufWriter};
use std::process::ExitCode;

const BUFFER: usize = 1 << 16;

fn main() -> ExitCode {
    let script = BufReader::with_capacity(BUFFER, io::stdin().lock());
    let output = BufWriter::with_capacity(BUFFER, io::stdout().lock());
    match pump_model::night::play(script, output) {
        Ok(night) => {
            eprint!("{}", night.complaint());
            ExitCode::SUCCESS
        }
        Err(error) => {
            eprintln!("model: {error}");
            ExitCode::FAILURE
        }
    }
}
