//! The configuration in words: the lines that say it, and the bytes they make.

use crate::script::{byte, identifier, one_byte, Trouble};
use crate::version::Version;

/// The record of one object.
pub type Record = [u8; 12];

/// Where a record has its kind, and where that of a sending object has its pool.
const KIND: usize = 1;
const POOL: usize = 7;
const SENDING: u8 = 0;

/// The words of an object line after its kind, in their order.
const SEND_WORDS: usize = 6;
const POOL_WORDS: usize = 8;
const RECEIVE_WORDS: usize = 8;

/// An object as its line says it.
#[derive(Clone, Copy, Debug, PartialEq, Eq)]
pub struct DraftObject {
    /// Its record, the pool left out.
    pub record: Record,
    /// The pool, if the line says one; only that of a sending object can.
    pub pool: Option<u8>,
}

/// A configuration as the lines so far have said it, a good one or a bad one.
#[derive(Clone, Debug, PartialEq, Eq)]
pub struct Draft {
    controllers: u8,
    objects: Vec<DraftObject>,
}

impl Draft {
    /// So many controllers and no object.
    pub fn of(controllers: u8) -> Draft {
        Draft { controllers, objects: Vec::new() }
    }

    /// Adds an object, if the header can count it.
    pub fn add(&mut self, object: &DraftObject) -> Result<(), Trouble> {
        if self.objects.len() == usize::from(u8::MAX) {
            return Err(Trouble::TooManyObjects);
        }
        self.objects.push(*object);
        Ok(())
    }

    /// Version 2 as soon as some object says its pool.
    pub fn version(&self) -> Version {
        if self.objects.iter().any(|object| object.pool.is_some()) {
            Version::Two
        } else {
            Version::One
        }
    }

    /// The bytes for Init. In version 2 a sending object that says no pool has
    /// its own number as its pool.
    pub fn bytes(&self) -> Vec<u8> {
        let version = self.version();
        let mut bytes = version.start().to_vec();
        bytes.extend([self.controllers, self.objects.len() as u8, 0]);
        for (number, object) in self.objects.iter().enumerate() {
            let mut record = object.record;
            if version == Version::Two && record[KIND] == SENDING {
                record[POOL] = object.pool.unwrap_or(number as u8);
            }
            bytes.extend(record);
        }
        bytes
    }
}

impl Default for Draft {
    /// A night begins with no controllers.
    fn default() -> Draft {
        Draft::of(0)
    }
}

/// Reads the words after `object`.
pub fn object<'w>(
    mut words: impl Iterator<Item = &'w [u8]> + Clone,
) -> Result<DraftObject, Trouble> {
    match words.next().ok_or(Trouble::WordMissing)? {
        b"send" if words.clone().count() > SEND_WORDS => send_in_pool(counted(words)?),
        b"send" => send(counted(words)?),
        b"receive" => receive(counted(words)?),
        _ => Err(Trouble::UnknownKind),
    }
}

/// Exactly so many words.
fn counted<'w, const N: usize>(
    mut words: impl Iterator<Item = &'w [u8]>,
) -> Result<[&'w [u8]; N], Trouble> {
    let mut places = [&[][..]; N];
    for place in &mut places {
        *place = words.next().ok_or(Trouble::WordMissing)?;
    }
    match words.next() {
        Some(_) => Err(Trouble::WordTooMany),
        None => Ok(places),
    }
}

/// `controller C payload P padding XX`, from left to right.
fn send(
    [c, controller, p, payload, x, padding]: [&[u8]; SEND_WORDS],
) -> Result<DraftObject, Trouble> {
    let controller = fixed(c, b"controller").and_then(|()| byte(controller))?;
    let payload = fixed(p, b"payload").and_then(|()| byte(payload))?;
    let padding = fixed(x, b"padding").and_then(|()| one_byte(padding))?;
    let record = [controller, SENDING, payload, padding, 0, 0, 0, 0, 0, 0, 0, 0];
    Ok(DraftObject { record, pool: None })
}

/// The same, and then `pool N`.
fn send_in_pool(
    [c, controller, p, payload, x, padding, l, pool]: [&[u8]; POOL_WORDS],
) -> Result<DraftObject, Trouble> {
    let object = send([c, controller, p, payload, x, padding])?;
    let pool = fixed(l, b"pool").and_then(|()| byte(pool))?;
    Ok(DraftObject { pool: Some(pool), ..object })
}

/// `controller C payload P code ID mask ID`, from left to right.
fn receive(
    [c, controller, p, payload, f, code, m, mask]: [&[u8]; RECEIVE_WORDS],
) -> Result<DraftObject, Trouble> {
    let controller = fixed(c, b"controller").and_then(|()| byte(controller))?;
    let payload = fixed(p, b"payload").and_then(|()| byte(payload))?;
    let code = fixed(f, b"code").and_then(|()| identifier(code))?;
    let mask = fixed(m, b"mask").and_then(|()| identifier(mask))?;
    let mut record = [controller, 1, payload, 0, 0, 0, 0, 0, 0, 0, 0, 0];
    record[4..8].copy_from_slice(&code.0.to_be_bytes());
    record[8..].copy_from_slice(&mask.0.to_be_bytes());
    Ok(DraftObject { record, pool: None })
}

/// A word that can only be this one.
fn fixed(word: &[u8], expected: &[u8]) -> Result<(), Trouble> {
    if word == expected {
        Ok(())
    } else {
        Err(Trouble::UnexpectedWord)
    }
}

#[cfg(test)]
mod tests {
    use super::*;
    use crate::config::Config;
    use crate::script::words;

    fn read(line: &str) -> Result<DraftObject, Trouble> {
        object(words(line.as_bytes()))
    }

    /// A draft of these object lines.
    fn draft(controllers: u8, lines: &[&str]) -> Draft {
        let mut draft = Draft::of(controllers);
        for line in lines {
            draft.add(&read(line).expect("a good line")).expect("room for it");
        }
        draft
    }

    #[test]
    fn records_are_laid_out_as_the_bytes_are() {
        let record = [3, 0, 64, 0xCC, 0, 0, 0, 0, 0, 0, 0, 0];
        assert_eq!(
            read("send controller 3 payload 64 padding cC"),
            Ok(DraftObject { record, pool: None })
        );
        assert_eq!(
            read("send controller 3 payload 64 padding cC pool 0xff"),
            Ok(DraftObject { record, pool: Some(255) })
        );
        let record = [1, 1, 8, 0, 0x9A, 0xBC, 0xDE, 0xF0, 0, 0, 0x07, 0xFF];
        assert_eq!(
            read("receive controller 0x1 payload 8 code 0x9ABCDEF0 mask 7FF"),
            Ok(DraftObject { record, pool: None })
        );
    }

    #[test]
    fn a_draft_is_what_the_lines_say() {
        assert_eq!(Draft::default().bytes(), [0x43, 0x48, 0x42, 0, 1, 0, 0, 0]);
        let k = draft(
            1,
            &[
                "send controller 0 payload 64 padding CC",
                "receive controller 0 payload 8 code 120 mask 7FF",
            ],
        );
        let expected = [
            0x43, 0x48, 0x42, 0x00, 0x01, 0x01, 0x02, 0x00, //
            0x00, 0x00, 0x40, 0xCC, 0, 0, 0, 0, 0, 0, 0, 0, //
            0x00, 0x01, 0x08, 0x00, 0x00, 0x00, 0x01, 0x20, 0x00, 0x00, 0x07, 0xFF,
        ];
        assert_eq!(k.bytes(), expected);
        assert!(Config::read(&k.bytes()).is_some());
    }

    #[test]
    fn one_pool_makes_version_2_and_others_have_their_own_number() {
        let send = "send controller 0 payload 8 padding 55";
        let in_pool = "send controller 0 payload 8 padding 55 pool 200";
        let receive = "receive controller 0 payload 8 code 120 mask 7FF";
        let lines = [send, send, receive, in_pool, send];
        let one = draft(1, &lines[..3]);
        assert_eq!((one.version(), one.bytes()[4]), (Version::One, 1));
        assert_eq!(one.bytes()[8 + 12..][..12], [0, 0, 8, 0x55, 0, 0, 0, 0, 0, 0, 0, 0]);
        let two = draft(1, &lines);
        assert_eq!((two.version(), two.bytes()[4]), (Version::Two, 2));
        let bytes = two.bytes();
        let records: Vec<&[u8]> = bytes[8..].chunks_exact(12).collect();
        for (number, pool) in [(0, 0), (1, 1), (3, 200), (4, 4)] {
            assert_eq!(records[number], [0, 0, 8, 0x55, 0, 0, 0, pool, 0, 0, 0, 0]);
        }
        assert_eq!(records[2], [0, 1, 8, 0, 0, 0, 1, 0x20, 0, 0, 7, 0xFF]);
        let full = draft(1, &[&[send; 254][..], &[in_pool]].concat());
        assert_eq!(full.bytes()[8 + 12 * 253 + 7], 253);
    }

    #[test]
    fn a_draft_holds_255_objects() {
        let mut full = draft(4, &["send controller 0 payload 8 padding 00"; 255]);
        assert_eq!((full.bytes()[6], full.bytes().len()), (255, 8 + 12 * 255));
        let before = full.clone();
        let one_more = read("send controller 0 payload 8 padding 00 pool 0").expect("a good line");
        assert_eq!(full.add(&one_more), Err(Trouble::TooManyObjects));
        assert_eq!(full, before);
    }

    #[test]
    fn the_kind_comes_before_the_words_are_counted() {
        assert_eq!(read(""), Err(Trouble::WordMissing));
        assert_eq!(read("sends"), Err(Trouble::UnknownKind));
        assert_eq!(read("Send controller"), Err(Trouble::UnknownKind));
        assert_eq!(read("send"), Err(Trouble::WordMissing));
        assert_eq!(read("send x x x x x"), Err(Trouble::WordMissing));
        assert_eq!(read("send x x x x x x x"), Err(Trouble::WordMissing));
        assert_eq!(read("send x x x x x x x x x"), Err(Trouble::WordTooMany));
        assert_eq!(read("receive x x x x x x x"), Err(Trouble::WordMissing));
        assert_eq!(read("receive x x x x x x x x x"), Err(Trouble::WordTooMany));
    }

    #[test]
    fn words_are_read_from_left_to_right() {
        for (line, trouble) in [
            ("send x x x x x x", Trouble::UnexpectedWord),
            ("send controller x x x x x", Trouble::NotANumber),
            ("send controller 4294967296 x x x x", Trouble::NumberTooLarge),
            ("send controller 256 x x x x", Trouble::DoesNotFitAByte),
            ("send controller 255 x x x x", Trouble::UnexpectedWord),
            ("send controller 255 payload - x x", Trouble::NotANumber),
            ("send controller 255 payload 0x100 x x", Trouble::DoesNotFitAByte),
            ("send controller 255 payload 0xFF x x", Trouble::UnexpectedWord),
            ("send controller 255 payload 255 padding 0g0", Trouble::NotHexDigits),
            ("send controller 255 payload 255 padding 0x00", Trouble::NotHexDigits),
            ("send controller 255 payload 255 padding -", Trouble::NotHexDigits),
            ("send controller 255 payload 255 padding 0", Trouble::NotOneByte),
            ("send controller 255 payload 255 padding 000", Trouble::NotOneByte),
            ("send controller 255 payload 255 padding 0000", Trouble::NotOneByte),
            ("send controller 0 payload 8 code 00", Trouble::UnexpectedWord),
            ("send x x x x x x x x", Trouble::UnexpectedWord),
            ("send controller 0 payload 8 code 120 mask 7FF", Trouble::UnexpectedWord),
            ("send controller 0 payload 8 padding 0 x x", Trouble::NotOneByte),
            ("send controller 0 payload 8 padding 00 x x", Trouble::UnexpectedWord),
            ("send controller 0 payload 8 padding 00 Pool x", Trouble::UnexpectedWord),
            ("send controller 0 payload 8 padding 00 pool x", Trouble::NotANumber),
            ("send controller 0 payload 8 padding 00 pool -", Trouble::NotANumber),
            ("send controller 0 payload 8 padding 00 pool 4294967296", Trouble::NumberTooLarge),
            ("send controller 0 payload 8 padding 00 pool 256", Trouble::DoesNotFitAByte),
            ("receive controller 0 payload 8 pool 0 x x", Trouble::UnexpectedWord),
            ("receive controller 0 payload 8 padding 120 x x", Trouble::UnexpectedWord),
            ("receive controller 0 payload 8 code g x x", Trouble::NotAnIdentifier),
            ("receive controller 0 payload 8 code 000000120 x x", Trouble::IdentifierTooLong),
            ("receive controller 0 payload 8 code 120 x x", Trouble::UnexpectedWord),
            ("receive controller 0 payload 8 code 120 mask 0x", Trouble::NotAnIdentifier),
            ("receive controller 0 payload 8 code 120 mask 123456789", Trouble::IdentifierTooLong),
        ] {
            assert_eq!(read(line), Err(trouble), "{line}");
        }
    }
}
