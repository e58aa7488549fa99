//! Configurations said in words, a line for each object, and object lines that
//! are wrong in one way or another.

use super::configs::{HEADER, RECEIVING, RECORD, SENDING};
use super::frames::{hex, identifier_word, number_word};
use super::pools::POOL;
use super::rng::Rng;
use crate::draft::{DraftObject, Record};
use crate::version::Version;

/// Words that stand somewhere in an object line, or nearly so.
const WORDS: &[&str] = &[
    "send",
    "receive",
    "Send",
    "object",
    "controller",
    "controllers",
    "payload",
    "padding",
    "code",
    "mask",
    "MASK",
    "pool",
    "pools",
    "31",
    "32",
    "-",
    "x",
    "0",
    "00",
    "000",
    "0000",
    "0g",
    "0x",
    "0x00",
    "8",
    "64",
    "255",
    "256",
    "0xff",
    "0x100",
    "4294967295",
    "4294967296",
    "ffffffff",
    "0xFFFFFFFF",
    "000000000",
    "00000012g",
];

/// The lines that say these bytes and hand them to Init; `None` if words cannot.
pub fn lines(rng: &mut Rng, bytes: &[u8]) -> Option<Vec<String>> {
    let (header, records) = bytes.split_at_checked(HEADER)?;
    let version = Version::of_start(&header[..5])?;
    let counted = records.len() == RECORD * usize::from(header[6]);
    if header[7] != 0 || !counted {
        return None;
    }
    let mut objects: Vec<DraftObject> = records.chunks_exact(RECORD).map(bare).collect();
    if version == Version::Two {
        say_pools(rng, &mut objects)?;
    }
    let mut lines = vec![controllers(rng, header[5])];
    for said in objects {
        lines.push(object(rng, &said)?);
    }
    lines.push("init".to_string());
    Some(lines)
}

/// An object with this record that says no pool.
fn bare(record: &[u8]) -> DraftObject {
    let mut whole: Record = [0; RECORD];
    whole.copy_from_slice(record);
    DraftObject { record: whole, pool: None }
}

/// Takes the pools of version 2 out of the records. One sending object at least
/// says its pool; others need not where it is their own number.
fn say_pools(rng: &mut Rng, objects: &mut [DraftObject]) -> Option<()> {
    let mut sending: Vec<usize> = (0..objects.len()).collect();
    sending.retain(|&number| objects[number].record[1] == SENDING);
    let always = *rng.choose(&sending)?;
    let silent = rng.pick([0, 50, 100]);
    for number in sending {
        let pool = std::mem::take(&mut objects[number].record[POOL]);
        let own = usize::from(pool) == number;
        if number == always || !own || !rng.percent(silent) {
            objects[number].pool = Some(pool);
        }
    }
    Some(())
}

/// The line that begins a configuration.
pub fn controllers(rng: &mut Rng, count: u8) -> String {
    format!("controllers {}", number_word(rng, count.into()))
}

/// The line for this object; `None` if words cannot say it.
pub fn object(rng: &mut Rng, DraftObject { record, pool }: &DraftObject) -> Option<String> {
    let place = format!(
        "controller {} payload {}",
        number_word(rng, record[0].into()),
        number_word(rng, record[2].into())
    );
    match record[1] {
        SENDING if record[4..] == [0; 8] => {
            let padding = hex(&record[3..4], rng.percent(50));
            let mut line = format!("object send {place} padding {padding}");
            if let Some(pool) = *pool {
                line += &format!(" pool {}", number_word(rng, pool.into()));
            }
            Some(line)
        }
        RECEIVING if record[3] == 0 => {
            let (code, mask) = (big_endian(&record[4..8]), big_endian(&record[8..]));
            let code = identifier_word(rng, code);
            let mask = identifier_word(rng, mask);
            Some(format!("object receive {place} code {code} mask {mask}"))
        }
        _ => None,
    }
}

/// An object line that can be read; what it says may be anything.
pub fn any_object(rng: &mut Rng) -> String {
    let controller = rng.pick([0, 0, 1, 2, 3, 4, 255]);
    let payload = rng.pick([8, 8, 64, 64, 0, 9, 63, 255]);
    let mut record = [controller, SENDING, payload, 0, 0, 0, 0, 0, 0, 0, 0, 0];
    let mut pool = None;
    if rng.percent(50) {
        record[3] = rng.byte();
        pool = Some(rng.pick([0, 1, 2, 7, 30, 31, 32, 33, 64, 255])).filter(|_| rng.percent(40));
    } else {
        record[1] = RECEIVING;
        record[4..8].copy_from_slice(&any_filter(rng).to_be_bytes());
        record[8..].copy_from_slice(&any_filter(rng).to_be_bytes());
    }
    object(rng, &DraftObject { record, pool }).unwrap_or_default()
}

fn any_filter(rng: &mut Rng) -> u32 {
    match rng.below(4) {
        0 => rng.word(),
        1 => 1 << rng.below(32),
        2 => u32::MAX,
        _ => 0x120,
    }
}

/// An object line with a word lost, added, replaced or in the wrong place.
pub fn broken_object(rng: &mut Rng) -> String {
    let line = any_object(rng);
    let mut words: Vec<&str> = line.split(' ').collect();
    let at = rng.between(1, words.len() - 1);
    let other = rng.between(1, words.len() - 1);
    let odd = rng.choose(WORDS).copied().unwrap_or_default();
    match rng.below(8) {
        0 => drop(words.remove(at)),
        1 => words.insert(at, odd),
        2 => words.swap(at, other),
        3 => words.truncate(at),
        _ => words[at] = odd,
    }
    words.join(" ")
}

/// The lines of a configuration with about as many objects as a header can count, or a few more.
pub fn crowd(rng: &mut Rng) -> Vec<String> {
    let count = rng.between(250, 280);
    let mut lines = vec![controllers(rng, 4)];
    lines.extend((0..count).map(|_| any_object(rng)));
    lines.push("init".to_string());
    lines
}

/// Numbers of several bytes are big-endian everywhere.
fn big_endian(bytes: &[u8]) -> u32 {
    bytes.iter().fold(0, |number, &byte| number << 8 | u32::from(byte))
}

#[cfg(test)]
mod tests {
    use super::*;
    use crate::draft::Draft;
    use crate::nights::configs;
    use crate::script::{read, Command, Trouble};
    use std::collections::BTreeSet;

    /// The bytes that lines in words hand to Init.
    fn handed(lines: &[String]) -> Vec<u8> {
        let mut draft = Draft::default();
        for line in lines {
            match read(line.as_bytes(), &mut Vec::new()) {
                Ok(Some(Command::Controllers { count })) => draft = Draft::of(count),
                Ok(Some(Command::Object(object))) => draft.add(&object).expect("room"),
                Ok(Some(Command::InitInWords)) => return draft.bytes(),
                other => panic!("{line}: {other:?}"),
            }
        }
        panic!("no init in {lines:?}");
    }

    #[test]
    fn lines_say_the_bytes() {
        let mut rng = Rng::new(5);
        let (mut pools, mut silent) = (0, 0);
        for _ in 0..400 {
            let bytes = configs::good(&mut rng);
            let Some(lines) = lines(&mut rng, &bytes) else {
                // A pool can only be said of an object that sends.
                assert!(bytes[4] == 2 && bytes[8..].chunks(12).all(|record| record[1] == 1));
                continue;
            };
            assert_eq!(handed(&lines), bytes);
            let send = lines.iter().filter(|line| line.starts_with("object send "));
            let (said, unsaid): (Vec<_>, Vec<_>) = send.partition(|line| line.contains(" pool "));
            pools += usize::from(!said.is_empty());
            silent += usize::from(!said.is_empty() && !unsaid.is_empty());
        }
        assert!(pools > 100 && silent > 10, "{pools} with pools, {silent} also without");
        let mut said = 0;
        for _ in 0..1000 {
            let bytes = configs::broken(&mut rng);
            if let Some(lines) = lines(&mut rng, &bytes) {
                assert_eq!(handed(&lines), bytes);
                said += 1;
            }
        }
        assert!((200..800).contains(&said), "{said} of 1000 broken ones can be said");
    }

    #[test]
    fn any_object_can_be_read_and_a_broken_one_has_every_trouble() {
        let mut rng = Rng::new(6);
        let mut troubles = BTreeSet::new();
        for _ in 0..5000 {
            assert!(read(any_object(&mut rng).as_bytes(), &mut Vec::new()).is_ok());
            if let Err(trouble) = read(broken_object(&mut rng).as_bytes(), &mut Vec::new()) {
                troubles.insert(trouble.to_string());
            }
        }
        for trouble in [
            Trouble::WordMissing,
            Trouble::WordTooMany,
            Trouble::UnknownKind,
            Trouble::UnexpectedWord,
            Trouble::NotANumber,
            Trouble::NumberTooLarge,
            Trouble::DoesNotFitAByte,
            Trouble::NotHexDigits,
            Trouble::NotOneByte,
            Trouble::NotAnIdentifier,
            Trouble::IdentifierTooLong,
        ] {
            assert!(troubles.contains(&trouble.to_string()), "{trouble}");
        }
    }

    #[test]
    fn a_crowd_is_around_the_limit() {
        let mut rng = Rng::new(7);
        let counts: BTreeSet<usize> = (0..50).map(|_| crowd(&mut rng).len() - 2).collect();
        assert!(counts.iter().min() < Some(&255) && counts.iter().max() > Some(&255));
    }
}
