//! How much was compared.

use std::fmt;

/// What has agreed so far.
#[derive(Debug, Default, PartialEq, Eq)]
pub struct Tally {
    pub nights: u64,
    pub lines: u64,
    pub calls: u64,
}

impl Tally {
    /// Adds a night of so many lines and what was printed for it.
    pub fn add(&mut self, lines: usize, output: &[u8]) {
        self.nights += 1;
        self.lines += lines as u64;
        self.calls +=
            output.split(|&byte| byte == b'\n').filter(|line| is_call(line)).count() as u64;
    }
}

/// True for the printed line of a call: not of a line that cannot be read, nor
/// of a look at the bench.
fn is_call(line: &[u8]) -> bool {
    let name = line.split(|&byte| byte == b' ').nth(1);
    name.is_some_and(|name| !matches!(name, b"?" | b"show" | b"state"))
}

impl fmt::Display for Tally {
    fn fmt(&self, f: &mut fmt::Formatter<'_>) -> fmt::Result {
        let Tally { nights, lines, calls } = self;
        write!(f, "{nights} nights, {lines} lines, {calls} calls")
    }
}

#[cfg(test)]
mod tests {
    use super::*;

    #[test]
    fn calls_are_counted() {
        let mut tally = Tally::default();
        tally.add(7, b"1 get 1 5 0 [5 18 5 0]\n2 ? not a mode\n3 show -\n4 state 0 0 0\n");
        tally.add(2, b"1 poll-write 0 0 -\n2 data - - -\n");
        assert_eq!(tally, Tally { nights: 2, lines: 9, calls: 3 });
        assert_eq!(tally.to_string(), "2 nights, 9 lines, 3 calls");
    }
}
