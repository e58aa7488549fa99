//! Pools in random configurations.

use super::configs::{record, HEADER, RECORD, SENDING};
use super::rng::Rng;
use crate::config::{Config, Kind};
use crate::draft::DraftObject;
use crate::limits::OBJECTS;
use crate::version::Version;

/// Where a sending record of version 2 has its pool.
pub const POOL: usize = 7;

/// Puts the sending records into pools, so that they say something good in version
/// 2. All of a pool are as the first of them.
pub fn gather(rng: &mut Rng, records: &mut [u8]) {
    let numbers = numbers(rng);
    let mut first: [Option<[u8; RECORD]>; OBJECTS] = [None; OBJECTS];
    for record in records.chunks_exact_mut(RECORD).filter(|record| record[1] == SENDING) {
        let pool = *rng.choose(&numbers).unwrap_or(&0);
        record[POOL] = pool;
        let mut whole = [0; RECORD];
        whole.copy_from_slice(record);
        record.copy_from_slice(first[usize::from(pool)].get_or_insert(whole));
    }
}

/// The numbers of one pool or several, at times all there are.
fn numbers(rng: &mut Rng) -> Vec<u8> {
    let count = rng.pick([1, 2, 2, 3, 4, 6, 12, 32]);
    if rng.percent(30) {
        return (0..count).collect();
    }
    // An odd step goes through all numbers.
    let (start, step) = (rng.byte(), rng.byte() | 1);
    (0..count).map(|turn| start.wrapping_add(step.wrapping_mul(turn)) % OBJECTS as u8).collect()
}

/// Puts two sending records into one pool of version 2, in which they agree in all
/// but one thing, good in itself. Nothing changes if there are no two.
pub fn disagree(rng: &mut Rng, bytes: &mut [u8]) {
    let (header, records) = bytes.split_at_mut(HEADER);
    let starts = (0..records.len()).step_by(RECORD);
    let sending: Vec<usize> = starts.filter(|at| records[at + 1] == SENDING).collect();
    let (Some(&one), Some(&other)) = (rng.choose(&sending), rng.choose(&sending)) else {
        return;
    };
    if one == other {
        return;
    }
    header[..5].copy_from_slice(&Version::Two.start());
    let controllers = header[5];
    records.copy_within(one..one + RECORD, other);
    match rng.below(3) {
        0 if controllers > 1 => records[other] = (records[one] + 1) % controllers,
        1 => records[other + 2] = if records[one + 2] == 8 { 64 } else { 8 },
        _ => records[other + 3] ^= rng.pick([1, 128, 255]),
    }
}

/// An object that can be added to a good configuration with room for it, so that
/// it stays good: a further member of a pool, or an object of its own.
pub fn one_more(rng: &mut Rng, config: &Config) -> DraftObject {
    let mut sending = config.objects().to_vec();
    sending.retain(|object| object.kind == Kind::Sending);
    if let Some(member) = rng.choose(&sending).filter(|_| rng.percent(40)) {
        let (controller, payload, padding) = (member.controller, member.payload, member.padding);
        let record = [controller, SENDING, payload, padding, 0, 0, 0, 0, 0, 0, 0, 0];
        return DraftObject { record, pool: Some(member.pool) };
    }
    let record = record(rng, config.controllers(), 50);
    if record[1] != SENDING {
        return DraftObject { record, pool: None };
    }
    let mut unused: Vec<u8> = (0..OBJECTS as u8).collect();
    unused.retain(|&pool| config.members(pool).next().is_none());
    let own = config.objects().len() as u8;
    // Where no pool is said it is the own number.
    let silent = unused.contains(&own) && rng.percent(60);
    let pool = rng.choose(&unused).copied().filter(|_| !silent);
    DraftObject { record, pool }
}

#[cfg(test)]
mod tests {
    use super::*;
    use crate::draft::Draft;
    use crate::nights::configs;

    #[test]
    fn two_that_disagree_are_bad() {
        let mut rng = Rng::new(3);
        let (mut changed, mut good) = (0, 0);
        for _ in 0..600 {
            let before = configs::good(&mut rng);
            let mut after = before.clone();
            disagree(&mut rng, &mut after);
            changed += usize::from(after != before);
            good += usize::from(after != before && Config::read(&after).is_some());
        }
        assert!(changed > 300, "{changed} of 600 are changed");
        assert_eq!(good, 0);
    }

    #[test]
    fn one_more_keeps_it_good() {
        let mut rng = Rng::new(4);
        for _ in 0..40 {
            let mut draft = Draft::of(rng.between(1, 4) as u8);
            for _ in 0..OBJECTS {
                let config = Config::read(&draft.bytes()).expect("a good one");
                draft.add(&one_more(&mut rng, &config)).expect("room for it");
            }
            assert!(Config::read(&draft.bytes()).is_some());
        }
    }
}
