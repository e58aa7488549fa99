//! `nights SEED COUNT [calm|wild]`: prints a random night of COUNT lines.

use std::env;
use std::io::{self, BufWriter, Write};
use std::process::ExitCode;

use pump_model::nights::{self, Style};

const USAGE: &str = "usage: nights SEED COUNT [calm|wild]";

fn main() -> ExitCode {
    let arguments: Vec<String> = env::args().skip(1).collect();
    let Some((seed, count, style)) = understood(&arguments) else {
        eprintln!("{USAGE}");
        return ExitCode::from(2);
    };
    match print_night(seed, count, style) {
        Ok(()) => ExitCode::SUCCESS,
        Err(error) => {
            eprintln!("nights: {error}");
            ExitCode::FAILURE
        }
    }
}

fn understood(arguments: &[String]) -> Option<(u64, u64, Style)> {
    let (seed, count, style) = match arguments {
        [seed, count] => (seed, count, "calm"),
        [seed, count, style] => (seed, count, style.as_str()),
        _ => return None,
    };
    Some((seed.parse().ok()?, count.parse().ok()?, Style::named(style)?))
}

fn print_night(seed: u64, count: u64, style: Style) -> io::Result<()> {
    let mut output = BufWriter::with_capacity(1 << 16, io::stdout().lock());
    for line in nights::night(seed, count, style) {
        output.write_all(&line)?;
    }
    output.flush()
}
