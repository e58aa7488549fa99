//! Progress on standard error.

use std::io::{self, IsTerminal};
use std::time::{Duration, Instant};

/// A line on a terminal is rewritten; elsewhere each one stays, so there are fewer.
const ON_TERMINAL: Duration = Duration::from_millis(200);
const ELSEWHERE: Duration = Duration::from_secs(5);

/// Goes back to the start of the line and clears it.
const REWRITE: &str = "\r\x1b[K";

/// Tells now and then how far things are.
pub struct Progress {
    started: Instant,
    told: Instant,
    terminal: bool,
}

impl Default for Progress {
    fn default() -> Progress {
        let now = Instant::now();
        Progress { started: now, told: now, terminal: io::stderr().is_terminal() }
    }
}

impl Progress {
    /// Tells a line made from the seconds since the start, if it is time again.
    pub fn tell(&mut self, line: impl FnOnce(f64) -> String) {
        let pause = if self.terminal { ON_TERMINAL } else { ELSEWHERE };
        if self.told.elapsed() < pause {
            return;
        }
        self.told = Instant::now();
        let line = line(self.started.elapsed().as_secs_f64());
        if self.terminal {
            eprint!("{REWRITE}compare: {line}");
        } else {
            eprintln!("compare: {line}");
        }
    }

    /// Makes room for what is printed next.
    pub fn clear(&self) {
        if self.terminal {
            eprint!("{REWRITE}");
        }
    }
}
