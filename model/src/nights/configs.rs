//! Random configuration bytes, good ones and broken ones.

use super::frames::identifier_bits;
use super::pools;
use super::rng::Rng;
use crate::draft::Record;
use crate::identifier::EXTENDED;
use crate::version::Version;

pub const HEADER: usize = 8;
pub const RECORD: usize = 12;
pub const SENDING: u8 = 0;
pub const RECEIVING: u8 = 1;

/// A configuration that Init accepts, of version 1 or 2.
pub fn good(rng: &mut Rng) -> Vec<u8> {
    let version = if rng.percent(40) { Version::One } else { Version::Two };
    let controllers = rng.between(1, 4);
    let objects = match rng.below(10) {
        0 => rng.between(0, 1),
        1 | 2 => 32,
        _ => rng.between(2, 32),
    };
    let mut bytes = header(version, controllers as u8, objects as u8);
    let receiving_percent = rng.pick([50, 50, 50, 20, 80, 0, 100]);
    for _ in 0..objects {
        bytes.extend(record(rng, controllers, receiving_percent));
    }
    if version == Version::Two {
        pools::gather(rng, &mut bytes[HEADER..]);
    }
    bytes
}

fn header(version: Version, controllers: u8, objects: u8) -> Vec<u8> {
    let mut bytes = version.start().to_vec();
    bytes.extend([controllers, objects, 0]);
    bytes
}

/// A good record of version 1 for one of so many controllers.
pub fn record(rng: &mut Rng, controllers: usize, receiving_percent: usize) -> Record {
    let controller = rng.below(controllers) as u8;
    let payload = rng.pick([8, 64]);
    let mut record = [controller, SENDING, payload, 0, 0, 0, 0, 0, 0, 0, 0, 0];
    if rng.percent(receiving_percent) {
        let (code, mask) = filter(rng);
        record[1] = RECEIVING;
        record[4..8].copy_from_slice(&code.to_be_bytes());
        record[8..].copy_from_slice(&mask.to_be_bytes());
    } else {
        record[3] = rng.byte();
    }
    record
}

/// A good filter; many are alike, so that several objects fit one frame.
fn filter(rng: &mut Rng) -> (u32, u32) {
    let extended = rng.percent(40);
    let bits = identifier_bits(extended);
    let code = match rng.below(4) {
        0 => rng.word(),
        1 => u32::MAX,
        _ => 0x120 + rng.below(4) as u32,
    };
    let mask = match rng.below(5) {
        0 => 0,
        1 => rng.word(),
        2 => 0x7F0,
        _ => u32::MAX,
    };
    (code & mask & bits | if extended { EXTENDED } else { 0 }, mask & bits)
}

/// A good configuration with one thing broken (now and then it stays good).
pub fn broken(rng: &mut Rng) -> Vec<u8> {
    let mut bytes = good(rng);
    let objects = usize::from(bytes[6]);
    match rng.below(if objects > 0 { 17 } else { 8 }) {
        0 => flip(rng, &mut bytes, 0, 5),
        1 => bytes[5] = rng.pick([0, 5, 6, 128, 255]),
        2 => bytes[6] = rng.pick([0, 1, 31, 32, 33, 64, 255]),
        3 => bytes[7] = rng.byte(),
        4 => shorten(rng, &mut bytes),
        5 => lengthen(rng, &mut bytes),
        6 => bytes = nonsense(rng),
        7 => break_version(rng, &mut bytes),
        8 | 9 => pools::disagree(rng, &mut bytes),
        field => {
            let start = HEADER + RECORD * rng.below(objects);
            break_record(rng, &mut bytes[start..start + RECORD], field);
        }
    }
    bytes
}

/// Another version, often the other known one: what the records say then may be good.
fn break_version(rng: &mut Rng, bytes: &mut [u8]) {
    let other = 3 - u16::from(bytes[4]);
    let version = rng.pick([other, other, 0, 3, 4, 255, 256, 257, 258, 513, 514, u16::MAX]);
    bytes[3..5].copy_from_slice(&version.to_be_bytes());
}

/// Breaks one field of one record.
fn break_record(rng: &mut Rng, record: &mut [u8], field: usize) {
    match field {
        10 => record[0] = rng.pick([1, 2, 3, 4, 5, 255]),
        11 => record[1] = rng.pick([0, 1, 2, 3, 128, 255]),
        12 => record[2] = rng.pick([0, 1, 7, 9, 16, 63, 65, 72, 128, 255]),
        13 => record[3] = rng.byte(),
        14 => stray(rng, record),
        15 => record[pools::POOL] = rng.pick([1, 31, 32, 33, 64, 128, 255]),
        _ => flip(rng, record, 4, 8),
    }
}

/// Sets a bit of the code and clears it in the mask; only a receiving record has a filter.
fn stray(rng: &mut Rng, record: &mut [u8]) {
    let extended = record[4] & 0x80 != 0;
    let bit = rng.below(if extended { 29 } else { 11 });
    record[1] = RECEIVING;
    record[3] = 0;
    record[7 - bit / 8] |= 1 << (bit % 8);
    record[11 - bit / 8] &= !(1 << (bit % 8));
}

/// Flips one bit among `count` bytes from `start` on.
fn flip(rng: &mut Rng, bytes: &mut [u8], start: usize, count: usize) {
    bytes[start + rng.below(count)] ^= 1 << rng.below(8);
}

fn shorten(rng: &mut Rng, bytes: &mut Vec<u8>) {
    let length = bytes.len();
    let cut = rng.pick([1, 2, 4, 11, 12, 13, 24]).min(length);
    let kept = if rng.percent(30) { rng.below(length) } else { length - cut };
    bytes.truncate(kept);
}

fn lengthen(rng: &mut Rng, bytes: &mut Vec<u8>) {
    let extra = rng.pick([1, 2, 4, 11, 12, 13, 24, 400]);
    let added = if rng.percent(50) { vec![0; extra] } else { rng.bytes(extra) };
    bytes.extend(added);
}

/// Anything: random bytes, or 33 and more good records.
fn nonsense(rng: &mut Rng) -> Vec<u8> {
    if rng.percent(50) {
        let length = rng.pick([0, 1, 7, 8, 9, 20, 32, 392, 393, 1000]);
        return rng.bytes(length);
    }
    let objects = rng.pick([33, 34, 64, 255]);
    let version = rng.pick([Version::One, Version::Two]);
    let mut bytes = header(version, 4, objects);
    for _ in 0..objects {
        bytes.extend([0, SENDING, 8, 0, 0, 0, 0, 0, 0, 0, 0, 0]);
    }
    bytes
}

#[cfg(test)]
mod tests {
    use super::*;
    use crate::config::Config;

    #[test]
    fn good_ones_are_accepted_and_most_broken_ones_are_not() {
        let mut rng = Rng::new(1);
        assert!((0..5000).all(|_| Config::read(&good(&mut rng)).is_some()));
        let bad = (0..5000).filter(|_| Config::read(&broken(&mut rng)).is_none()).count();
        assert!(bad > 3500, "{bad} of 5000 are bad");
    }

    #[test]
    fn good_ones_have_pools_of_every_kind() {
        let mut rng = Rng::new(2);
        let (mut alone, mut several, mut above, mut two_pools) = (0, 0, 0, 0);
        for _ in 0..500 {
            let config = Config::read(&good(&mut rng)).expect("a good one");
            let sizes: Vec<usize> = (0..32).map(|pool| config.members(pool).count()).collect();
            let count = config.objects().len();
            alone += usize::from(sizes.iter().all(|&size| size <= 1));
            several += usize::from(sizes.iter().any(|&size| size > 2));
            above += usize::from(sizes[count..].iter().any(|&size| size > 0));
            two_pools += usize::from(sizes.iter().filter(|&&size| size > 1).count() > 1);
        }
        for (what, number) in [
            ("no pool of several", alone),
            ("a pool of several", several),
            ("a pool number above the count", above),
            ("two pools of several", two_pools),
        ] {
            assert!(number > 75, "{what}: {number} of 500");
        }
    }
}
