//! Comparing a bench program with the model, byte for byte, on random nights.

mod difference;
mod made;
mod objects;
pub(crate) mod program;
mod progress;
mod report;
mod settings;
mod shorten;
mod shrink;
mod spelled;
mod tally;

use std::error::Error;
use std::io::{self, Write};
use std::sync::mpsc;
use std::thread;

use difference::Difference;
use made::{make_nights, model, Made};
use program::Program;
use progress::Progress;
use report::Report;
pub use settings::{Settings, USAGE};
use shrink::Shrinker;
use tally::Tally;

/// How many smaller nights are played at most to shrink one that differs.
const MOST_TRIALS: usize = 2000;

/// What came of all nights.
#[derive(Clone, Copy, Debug, PartialEq, Eq)]
pub enum Verdict {
    Agrees,
    Differs,
}

/// Compares night after night, up to the first that differs. An error means
/// that a night could not be compared.
pub fn run(settings: &Settings, out: &mut impl Write) -> Result<Verdict, Box<dyn Error>> {
    thread::scope(|scope| {
        let (sender, receiver) = mpsc::sync_channel(1);
        scope.spawn(move || make_nights(settings, &sender));
        compare(settings, receiver, out)
    })
}

fn compare(
    settings: &Settings,
    nights: mpsc::Receiver<Made>,
    out: &mut impl Write,
) -> Result<Verdict, Box<dyn Error>> {
    let bench = Program { path: &settings.bench, arguments: &["words"], piece: settings.piece };
    let mut progress = Progress::default();
    let mut tally = Tally::default();
    for Made { seed, style, lines, expected } in nights {
        let report = Report { bench: bench.path, seed, style, count: settings.lines };
        let printed = bench
            .play(&lines.concat())
            .map_err(|trouble| format!("{trouble}, in the night of: {}", report.remake()))?;
        if let Some(difference) = Difference::first(&expected, &printed) {
            progress.clear();
            report.difference(out, &difference)?;
            shrink(&report, &bench, lines, &mut progress, out)?;
            return Ok(Verdict::Differs);
        }
        tally.add(lines.len(), &expected);
        progress.tell(|seconds| {
            let rate = tally.calls as f64 / seconds;
            format!("seed {seed} of {:?}: {tally}, {rate:.0} calls a second", settings.seeds)
        });
    }
    progress.clear();
    writeln!(out, "compare: {tally}: the model and {} agree in every byte", bench.path)?;
    Ok(Verdict::Agrees)
}

/// Shrinks a night that differs and reports what is left of it.
fn shrink(
    report: &Report,
    bench: &Program,
    lines: Vec<Vec<u8>>,
    progress: &mut Progress,
    out: &mut impl Write,
) -> io::Result<()> {
    // A smaller night at which the bench dies shows another error, not this one.
    let mut differs = |lines: &[Vec<u8>]| {
        progress.tell(|_| format!("shrinking: a night of {} lines", lines.len()));
        let script = lines.concat();
        bench.play(&script).is_ok_and(|printed| printed != model(&script))
    };
    if !differs(&lines) {
        return report.not_again(out);
    }
    let shrunk = Shrinker::new(lines, MOST_TRIALS, differs).shrink();
    progress.clear();
    let script = shrunk.lines.concat();
    match bench.play(&script) {
        Ok(printed) => report.shrunk(out, &shrunk, &model(&script), &printed),
        Err(_) => report.not_again(out),
    }
}
