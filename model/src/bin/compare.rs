//! `compare BENCH`: plays random nights on the model and on a bench program,
//! and compares what they print.

use std::env;
use std::io;
use std::process::ExitCode;

use pump_model::compare::{self, Settings, Verdict, USAGE};

/// The status for a difference. Whatever keeps nights from being compared has
/// a status of its own, so that it is not taken for one.
const DIFFERS: u8 = 1;
const NOT_COMPARED: u8 = 2;

fn main() -> ExitCode {
    let arguments: Vec<String> = env::args().skip(1).collect();
    let settings = match Settings::read(&arguments) {
        Ok(settings) => settings,
        Err(trouble) => {
            eprintln!("compare: {trouble}\n{USAGE}");
            return ExitCode::from(NOT_COMPARED);
        }
    };
    match compare::run(&settings, &mut io::stdout().lock()) {
        Ok(Verdict::Agrees) => ExitCode::SUCCESS,
        Ok(Verdict::Differs) => ExitCode::from(DIFFERS),
        Err(trouble) => {
            eprintln!("compare: {trouble}");
            ExitCode::from(NOT_COMPARED)
        }
    }
}
