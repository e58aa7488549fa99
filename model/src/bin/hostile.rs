//! `hostile PROGRAM [SEED] [COUNT]`: hands states of any kind to the driver,
//! also such as no history reaches, and compares its answers with the model's.

use std::env;
use std::process::ExitCode;

use pump_model::hostile;

/// The status for a difference, and for nothing compared.
const DIFFERS: u8 = 1;
const NOT_COMPARED: u8 = 2;

const COUNT: usize = 20_000;

/// The program, the seed and how many cases.
fn read(arguments: &[String]) -> Option<(&str, u64, usize)> {
    let (path, rest) = arguments.split_first()?;
    let (seed, count) = match rest {
        [] => (1, COUNT),
        [seed] => (seed.parse().ok()?, COUNT),
        [seed, count] => (seed.parse().ok()?, count.parse().ok()?),
        _ => return None,
    };
    Some((path, seed, count))
}

fn main() -> ExitCode {
    let arguments: Vec<String> = env::args().skip(1).collect();
    let Some((path, seed, count)) = read(&arguments) else {
        eprintln!("usage: hostile PROGRAM [SEED] [COUNT]");
        return ExitCode::from(NOT_COMPARED);
    };
    match hostile::run(path, seed, count) {
        Ok(Ok(agreed)) => {
            println!("{agreed}");
            ExitCode::SUCCESS
        }
        Ok(Err(difference)) => {
            println!("{difference}");
            ExitCode::from(DIFFERS)
        }
        Err(trouble) => {
            eprintln!("hostile: {trouble}");
            ExitCode::from(NOT_COMPARED)
        }
    }
}
