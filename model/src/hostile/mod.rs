//! Comparing the driver with the model on states of any kind: sound ones,
//! ones with a rule broken, and ones made of random numbers.

mod breaks;
mod calls;
mod case;
mod error_breaks;
mod raw;
mod rules;
mod states;

use std::fmt;

use crate::compare::program::Program;
use crate::nights::rng::Rng;
use case::Case;
use rules::RULES;

/// How many cases the program is handed at once.
const ROUND: usize = 1000;

/// How many bytes are written to the program at once.
const PIECE: usize = 65_536;

/// How the state of a case was made.
#[derive(Clone, Copy)]
enum Origin {
    Sound,
    Broken(usize),
    Random,
}

impl fmt::Display for Origin {
    fn fmt(&self, f: &mut fmt::Formatter<'_>) -> fmt::Result {
        match *self {
            Origin::Sound => f.write_str("a sound state"),
            Origin::Broken(rule) => {
                write!(f, "a sound state but for one rule: {}", RULES[rule].wrong)
            }
            Origin::Random => f.write_str("a state of random numbers"),
        }
    }
}

/// The kinds of case take turns, and so do the rules.
fn origin(number: usize) -> Origin {
    match number % 3 {
        0 => Origin::Sound,
        1 => Origin::Broken(number / 3 % RULES.len()),
        _ => Origin::Random,
    }
}

/// The case with this number.
fn make(seed: u64, number: usize) -> Case {
    let mut rng = Rng::new(Rng::new(seed).bits() ^ number as u64);
    let raw = match origin(number) {
        Origin::Sound => states::sound(&mut rng),
        Origin::Broken(rule) => RULES[rule].broken(&mut rng),
        Origin::Random => states::random(&mut rng),
    };
    calls::case(&mut rng, raw)
}

/// Plays so many cases. What is told of them is `Ok` if they all agree and
/// `Err` if one differs; an outer error means that nothing could be compared.
pub fn run(path: &str, seed: u64, count: usize) -> Result<Result<String, String>, String> {
    let program = Program { path, arguments: &[], piece: PIECE };
    let mut tally = Tally::default();
    for start in (0..count).step_by(ROUND) {
        let numbers = start..count.min(start + ROUND);
        let cases: Vec<Case> = numbers.clone().map(|number| make(seed, number)).collect();
        let script: String = cases.iter().map(|case| case.word() + "\n").collect();
        let printed = program.play(script.as_bytes())?;
        let printed = String::from_utf8_lossy(&printed);
        let mut lines = printed.lines();
        for (line, (number, case)) in numbers.zip(&cases).enumerate() {
            let expected = format!("{} {}", line + 1, case.expected());
            let got = lines.next().unwrap_or("nothing");
            if got != expected {
                return Ok(Err(difference(number, case, got, &expected)));
            }
            tally.add(origin(number), &expected);
        }
        if let Some(more) = lines.next() {
            return Ok(Err(format!("a line too many: {more}")));
        }
    }
    Ok(Ok(tally.to_string()))
}

fn difference(number: usize, case: &Case, got: &str, expected: &str) -> String {
    format!(
        "case {number}, {}\n{}\nprogram: {got}\nmodel:   {expected}",
        origin(number),
        case.word()
    )
}

/// How many cases of each kind agree.
#[derive(Default)]
struct Tally {
    sound: usize,
    accepted: usize,
    broken: usize,
    random: usize,
}

impl Tally {
    fn add(&mut self, origin: Origin, line: &str) {
        match origin {
            Origin::Sound => self.sound += 1,
            Origin::Broken(_) => self.broken += 1,
            Origin::Random => self.random += 1,
        }
        self.accepted += usize::from(line.split(' ').nth(1) == Some("0"));
    }
}

impl fmt::Display for Tally {
    fn fmt(&self, f: &mut fmt::Formatter<'_>) -> fmt::Result {
        let Tally { sound, accepted, broken, random } = self;
        write!(
            f,
            "{} cases agree: {sound} of sound states, {broken} with one of {} rules broken, \
             {random} of random numbers; {accepted} calls are accepted",
            sound + broken + random,
            RULES.len()
        )
    }
}

#[cfg(test)]
mod tests {
    use super::*;
    use crate::error_state::ErrorCounts;

    /// Where controllers and objects begin in the bytes of a case, and how many bytes
    /// come before those of its call, as `crates/hostile/src/case.rt` has them.
    const CONTROLLERS_AT: usize = 1 + 4 + 4;
    const OBJECTS_AT: usize = CONTROLLERS_AT + 4 * 12;
    const STATE_BYTES: usize = OBJECTS_AT + 32 * 13 + 32 * 3;

    #[test]
    fn cases_are_laid_out_as_the_program_reads_them() {
        for number in 0..300 {
            let case = make(1, number);
            let word = case.word();
            assert_eq!(word.len(), 2 * (STATE_BYTES + 21 + case.data.len()));
            assert_eq!(word[2 * STATE_BYTES..][..2], format!("{:02x}", case.kind));
            for (controller, raw) in case.raw.controllers.iter().enumerate() {
                let at = 2 * (CONTROLLERS_AT + 12 * controller);
                let (off_bus, recovering) = (u8::from(raw.off_bus), u8::from(raw.recovering));
                let ErrorCounts { transmit, receive } = raw.errors;
                let (mode, request) = (raw.mode, raw.request);
                let marks = format!("{mode:02x}{request:02x}{off_bus:02x}{recovering:02x}");
                let expected = format!("{marks}{transmit:08x}{receive:08x}");
                assert_eq!(word[at..][..24], expected, "controller {controller}");
            }
            for (object, raw) in case.raw.objects.iter().enumerate() {
                let at = 2 * (OBJECTS_AT + 13 * object);
                let (receiving, pool) = (u8::from(raw.receiving), raw.pool);
                let expected = format!("{:02x}{receiving:02x}{pool:02x}", raw.controller);
                assert_eq!(word[at..][..6], expected, "object {object}");
            }
        }
    }

    /// What the calls of a kind answer on sound states: reason and answer.
    fn answers(kind: u8) -> Vec<(u32, String)> {
        let cases = (0..6000).step_by(3).map(|number| make(1, number));
        let lines = cases.filter(|case| case.kind == kind).map(|case| case.expected());
        let answer = |line: String| {
            let words: Vec<&str> = line.split(' ').collect();
            (words[1].parse().expect("a reason"), words[2].to_string())
        };
        lines.map(answer).collect()
    }

    #[test]
    fn writes_to_sound_states_meet_every_reason() {
        let met: Vec<u32> = answers(calls::WRITE).iter().map(|(reason, _)| *reason).collect();
        for reason in [0, 2, 3, 5, 32, 33, 34, 35, 36] {
            assert!(met.contains(&reason), "{reason} is not met: {met:?}");
        }
        assert!(!met.contains(&41), "a sound state is not unsound");
    }

    #[test]
    fn error_counts_on_sound_states_meet_every_reason() {
        let met: Vec<u32> = answers(calls::ERRORS).iter().map(|(reason, _)| *reason).collect();
        for reason in [0, 4, 5, 32, 35, 37, 43] {
            assert!(met.contains(&reason), "{reason} is not met: {met:?}");
        }
        assert!(!met.contains(&41), "a sound state is not unsound");
        // A record is written or not, and the state changes or stays with the same counts.
        let cases = (0..6000).step_by(3).map(|number| make(1, number));
        let events = cases.filter(|case| case.kind == calls::ERRORS);
        let lines: Vec<String> = events.map(|case| case.expected()).collect();
        for line in
            ["0 0 - 1 changed same changed", "0 0 - 0 changed same same", "0 0 - 0 same same same"]
        {
            assert!(lines.iter().any(|met| met == line), "{line}");
        }
    }

    #[test]
    fn questions_about_errors_meet_every_answer() {
        for (kind, some) in [
            (calls::ERROR_STATE, &["0", "1", "2"][..]),
            (calls::RECEIVE_ERRORS, &["0", "127", "128", "255"]),
            (calls::TRANSMIT_ERRORS, &["0", "127", "128", "255"]),
        ] {
            let met = answers(kind);
            for reason in [4, 5, 32] {
                assert!(met.contains(&(reason, "0".to_string())), "{kind}: {reason} is not met");
            }
            for answer in some {
                assert!(met.contains(&(0, answer.to_string())), "{kind}: {answer} is not met");
            }
        }
    }

    #[test]
    fn a_state_that_is_not_sound_answers_0_to_every_question() {
        for number in (1..3000).step_by(3) {
            let case = make(1, number);
            let question = matches!(case.kind, calls::GET | 14..=16);
            let answer = if question { "0" } else { "-" };
            assert_eq!(case.expected(), format!("1 41 {answer} 0 same same same"));
        }
    }

    #[test]
    fn who_sends_next_meets_every_answer() {
        let met = answers(calls::NEXT);
        for reason in [4, 5, 33] {
            assert!(met.contains(&(reason, "-".to_string())), "{reason} is not met: {met:?}");
        }
        assert!(met.contains(&(0, "none".to_string())));
        let objects = met.iter().filter(|(reason, answer)| *reason == 0 && answer != "none");
        assert!(objects.count() > 10);
    }
}
