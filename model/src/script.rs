//! The bench script: one command a line, read into a [`Command`].

use std::fmt;

use crate::draft::{self, DraftObject};
use crate::error_state::ErrorCounts;
use crate::identifier::Identifier;

/// The longest sheet a script may lend, in words.
pub const LONGEST_SHEET: u32 = 4096;

/// The longest memory a script may lend, in bytes.
pub const LONGEST_MEMORY: u32 = 16_384;

/// The most room a script may give the writer, in bytes.
pub const MOST_ROOM: u32 = 4096;

/// One command of a script: a call, or a wish to the bench itself.
/// `InitInWords` is Init with the configuration that `Controllers` and `Object` say.
#[derive(Clone, Copy, Debug, PartialEq, Eq)]
pub enum Command<'a> {
    Call(Call<'a>),
    InitInWords,
    Controllers {
        count: u8,
    },
    Object(DraftObject),
    Sheet {
        words: usize,
    },
    Memory {
        bytes: usize,
    },
    Show {
        object: u32,
    },
    State,
    /// Writes the state's configuration in a version.
    Config {
        version: u32,
        room: usize,
    },
}

/// A service, a poll, an event, the choice of who sends next, or the data of an object.
#[derive(Clone, Copy, Debug, PartialEq, Eq)]
pub enum Call<'a> {
    Init { bytes: &'a [u8] },
    DeInit,
    Set { controller: u32, mode: u32 },
    Get { controller: u32 },
    Write { object: u32, handle: u16, identifier: Identifier, data: &'a [u8] },
    Poll(Poll),
    Sent { object: u32 },
    BusOff { controller: u32 },
    Arrived { controller: u32, identifier: Identifier, data: &'a [u8] },
    Errors { controller: u32, counts: ErrorCounts },
    ErrorState { controller: u32 },
    ReceiveErrors { controller: u32 },
    TransmitErrors { controller: u32 },
    Next { controller: u32 },
    Data { object: u32 },
}

/// The four polls.
#[derive(Clone, Copy, Debug, PartialEq, Eq)]
pub enum Poll {
    Write,
    Read,
    Mode,
    BusOff,
}

/// Why a line cannot be read.
#[derive(Clone, Copy, Debug, PartialEq, Eq)]
pub enum Trouble {
    LineTooLong,
    UnknownCommand,
    WordMissing,
    WordTooMany,
    NotANumber,
    NumberTooLarge,
    NotAnIdentifier,
    IdentifierTooLong,
    NotHexDigits,
    OddDigits,
    NotOneByte,
    NotAMode,
    UnknownPoll,
    UnknownKind,
    UnexpectedWord,
    HandleTooLarge,
    SheetTooLong,
    MemoryTooLong,
    RoomTooLarge,
    DoesNotFitAByte,
    TooManyObjects,
}

impl fmt::Display for Trouble {
    fn fmt(&self, f: &mut fmt::Formatter<'_>) -> fmt::Result {
        f.write_str(match self {
            Trouble::LineTooLong => "line too long",
            Trouble::UnknownCommand => "unknown command",
            Trouble::WordMissing => "a word is missing",
            Trouble::WordTooMany => "a word too many",
            Trouble::NotANumber => "not a number",
            Trouble::NumberTooLarge => "number too large",
            Trouble::NotAnIdentifier => "not an identifier",
            Trouble::IdentifierTooLong => "identifier too long",
            Trouble::NotHexDigits => "not hex digits",
            Trouble::OddDigits => "odd number of digits",
            Trouble::NotOneByte => "not one byte",
            Trouble::NotAMode => "not a mode",
            Trouble::UnknownPoll => "unknown poll",
            Trouble::UnknownKind => "unknown kind of object",
            Trouble::UnexpectedWord => "unexpected word",
            Trouble::HandleTooLarge => "handle too large",
            Trouble::SheetTooLong => "sheet too long",
            Trouble::MemoryTooLong => "memory too long",
            Trouble::RoomTooLarge => "room too large",
            Trouble::DoesNotFitAByte => "does not fit a byte",
            Trouble::TooManyObjects => "too many objects",
        })
    }
}

/// The most words a command has after its name, its bytes left aside.
const MOST_ARGUMENTS: usize = 3;

/// The words after a command word: so many single ones, then perhaps bytes.
#[derive(Clone, Copy)]
struct Arguments {
    single: usize,
    last: Last,
}

/// What stands behind the single words.
#[derive(Clone, Copy, PartialEq, Eq)]
enum Last {
    Nothing,
    /// One word or several.
    Bytes,
    BytesOrNothing,
}

/// Reads one line without its line end. `None` is a blank line or a comment.
/// The bytes of a command are decoded into `bytes`.
pub fn read<'a>(line: &[u8], bytes: &'a mut Vec<u8>) -> Result<Option<Command<'a>>, Trouble> {
    let mut words = words(line);
    let Some(name) = words.next() else {
        return Ok(None);
    };
    if name == b"object" {
        return Ok(Some(Command::Object(draft::object(words)?)));
    }
    let arguments = arguments_of(name).ok_or(Trouble::UnknownCommand)?;
    let mut places = [&[][..]; MOST_ARGUMENTS];
    for place in &mut places[..arguments.single] {
        *place = words.next().ok_or(Trouble::WordMissing)?;
    }
    match (arguments.last, words.clone().next()) {
        (Last::Nothing, Some(_)) => return Err(Trouble::WordTooMany),
        (Last::Bytes, None) => return Err(Trouble::WordMissing),
        (Last::BytesOrNothing, None) => return Ok(Some(Command::InitInWords)),
        _ => (),
    }
    command(name, places, words, bytes).map(Some)
}

/// The words of a line, up to a comment, separated by spaces, tabs or commas.
pub fn words(line: &[u8]) -> impl Iterator<Item = &[u8]> + Clone {
    let text = line.split(|&byte| byte == b'#').next().unwrap_or_default();
    text.split(|byte| b" \t,".contains(byte)).filter(|word| !word.is_empty())
}

/// What follows this command word; `None` if it is unknown.
fn arguments_of(name: &[u8]) -> Option<Arguments> {
    let (single, last) = match name {
        b"deinit" | b"state" => (0, Last::Nothing),
        b"get" | b"errorstate" | b"rxerrors" | b"txerrors" | b"poll" | b"sent" | b"busoff"
        | b"next" | b"data" | b"sheet" | b"memory" | b"show" | b"controllers" => (1, Last::Nothing),
        b"set" | b"config" => (2, Last::Nothing),
        b"errors" => (3, Last::Nothing),
        b"init" => (0, Last::BytesOrNothing),
        b"arrived" => (2, Last::Bytes),
        b"write" => (3, Last::Bytes),
        _ => return None,
    };
    Some(Arguments { single, last })
}

/// Reads the words after a known command word, from left to right.
fn command<'a, 'w>(
    name: &[u8],
    places: [&[u8]; MOST_ARGUMENTS],
    rest: impl Iterator<Item = &'w [u8]> + Clone,
    bytes: &'a mut Vec<u8>,
) -> Result<Command<'a>, Trouble> {
    let [first, second, _] = places;
    Ok(match name {
        b"controllers" => Command::Controllers { count: byte(first)? },
        b"sheet" => Command::Sheet { words: limited(first, LONGEST_SHEET, Trouble::SheetTooLong)? },
        b"memory" => {
            Command::Memory { bytes: limited(first, LONGEST_MEMORY, Trouble::MemoryTooLong)? }
        }
        b"show" => Command::Show { object: number(first)? },
        b"state" => Command::State,
        b"config" => Command::Config {
            version: number(first)?,
            room: limited(second, MOST_ROOM, Trouble::RoomTooLarge)?,
        },
        _ => Command::Call(call(name, places, rest, bytes)?),
    })
}

/// The same for the commands that are calls; `rest` are the words of the bytes.
fn call<'a, 'w>(
    name: &[u8],
    [first, second, third]: [&[u8]; MOST_ARGUMENTS],
    rest: impl Iterator<Item = &'w [u8]> + Clone,
    bytes: &'a mut Vec<u8>,
) -> Result<Call<'a>, Trouble> {
    Ok(match name {
        b"init" => Call::Init { bytes: hex_bytes(rest, bytes)? },
        b"deinit" => Call::DeInit,
        b"set" => Call::Set { controller: number(first)?, mode: mode(second)? },
        b"get" => Call::Get { controller: number(first)? },
        b"write" => Call::Write {
            object: number(first)?,
            handle: handle(second)?,
            identifier: identifier(third)?,
            data: hex_bytes(rest, bytes)?,
        },
        b"poll" => Call::Poll(poll(first)?),
        b"sent" => Call::Sent { object: number(first)? },
        b"busoff" => Call::BusOff { controller: number(first)? },
        b"arrived" => Call::Arrived {
            controller: number(first)?,
            identifier: identifier(second)?,
            data: hex_bytes(rest, bytes)?,
        },
        b"errors" => {
            let controller = number(first)?;
            let counts = ErrorCounts { transmit: number(second)?, receive: number(third)? };
            Call::Errors { controller, counts }
        }
        b"errorstate" => Call::ErrorState { controller: number(first)? },
        b"rxerrors" => Call::ReceiveErrors { controller: number(first)? },
        b"txerrors" => Call::TransmitErrors { controller: number(first)? },
        b"next" => Call::Next { controller: number(first)? },
        b"data" => Call::Data { object: number(first)? },
        _ => return Err(Trouble::UnknownCommand),
    })
}

/// A number, decimal or 0x hexadecimal, up to 4,294,967,295.
pub fn number(word: &[u8]) -> Result<u32, Trouble> {
    let (digits, base) = match word.strip_prefix(b"0x") {
        Some(digits) => (digits, 16),
        None => (word, 10),
    };
    if digits.is_empty() {
        return Err(Trouble::NotANumber);
    }
    // `None` once the value is too large; the digits after it are still read.
    let mut value = Some(0u32);
    for &digit in digits {
        let digit = char::from(digit).to_digit(base).ok_or(Trouble::NotANumber)?;
        value = value.and_then(|value| value.checked_mul(base)?.checked_add(digit));
    }
    value.ok_or(Trouble::NumberTooLarge)
}

/// A number with a limit of its own.
fn limited(word: &[u8], limit: u32, trouble: Trouble) -> Result<usize, Trouble> {
    let value = number(word)?;
    if value > limit {
        return Err(trouble);
    }
    Ok(value as usize)
}

/// A number that a byte holds.
pub(crate) fn byte(word: &[u8]) -> Result<u8, Trouble> {
    u8::try_from(number(word)?).map_err(|_| Trouble::DoesNotFitAByte)
}

/// A handle of 16 bits.
fn handle(word: &[u8]) -> Result<u16, Trouble> {
    u16::try_from(number(word)?).map_err(|_| Trouble::HandleTooLarge)
}

/// STARTED, STOPPED, SLEEP or a number.
fn mode(word: &[u8]) -> Result<u32, Trouble> {
    match word {
        b"STARTED" => Ok(1),
        b"STOPPED" => Ok(2),
        b"SLEEP" => Ok(3),
        _ => number(word).map_err(|trouble| match trouble {
            Trouble::NotANumber => Trouble::NotAMode,
            other => other,
        }),
    }
}

/// The word after `poll`.
fn poll(word: &[u8]) -> Result<Poll, Trouble> {
    match word {
        b"write" => Ok(Poll::Write),
        b"read" => Ok(Poll::Read),
        b"mode" => Ok(Poll::Mode),
        b"busoff" => Ok(Poll::BusOff),
        _ => Err(Trouble::UnknownPoll),
    }
}

/// An identifier: 1 to 8 hexadecimal digits, with or without 0x.
pub(crate) fn identifier(word: &[u8]) -> Result<Identifier, Trouble> {
    let digits = word.strip_prefix(b"0x").unwrap_or(word);
    if digits.is_empty() {
        return Err(Trouble::NotAnIdentifier);
    }
    let mut value = 0u32;
    for &digit in digits {
        let digit = hex_digit(digit).ok_or(Trouble::NotAnIdentifier)?;
        value = value << 4 | u32::from(digit);
    }
    if digits.len() > 8 {
        return Err(Trouble::IdentifierTooLong);
    }
    Ok(Identifier(value))
}

/// Bytes as hex digits in pairs, in one word or several; `-` alone stands for none.
fn hex_bytes<'a, 'w>(
    words: impl Iterator<Item = &'w [u8]> + Clone,
    bytes: &'a mut Vec<u8>,
) -> Result<&'a [u8], Trouble> {
    bytes.clear();
    if words.clone().eq([b"-"]) {
        return Ok(bytes);
    }
    for word in words {
        whole_bytes(word, bytes)?;
    }
    Ok(bytes)
}

/// One word of whole bytes, added to those before it.
fn whole_bytes(word: &[u8], bytes: &mut Vec<u8>) -> Result<(), Trouble> {
    all_digits(word)?;
    if !word.len().is_multiple_of(2) {
        return Err(Trouble::OddDigits);
    }
    for pair in word.chunks_exact(2) {
        bytes.push(one_byte(pair)?);
    }
    Ok(())
}

/// A byte of exactly two hex digits.
pub(crate) fn one_byte(word: &[u8]) -> Result<u8, Trouble> {
    all_digits(word)?;
    match *word {
        [high, low] => {
            let high = hex_digit(high).ok_or(Trouble::NotHexDigits)?;
            let low = hex_digit(low).ok_or(Trouble::NotHexDigits)?;
            Ok(high << 4 | low)
        }
        _ => Err(Trouble::NotOneByte),
    }
}

/// The trouble with a word that has anything but hex digits in it.
fn all_digits(word: &[u8]) -> Result<(), Trouble> {
    if word.iter().all(u8::is_ascii_hexdigit) {
        Ok(())
    } else {
        Err(Trouble::NotHexDigits)
    }
}

/// The value of a hex digit, upper or lower case.
fn hex_digit(digit: u8) -> Option<u8> {
    char::from(digit).to_digit(16).map(|value| value as u8)
}

#[cfg(test)]
mod tests {
    use super::*;

    /// The trouble with a line, `None` if it can be read or is blank.
    fn trouble(line: &str) -> Option<Trouble> {
        read(line.as_bytes(), &mut Vec::new()).err()
    }

    fn reads(line: &str, expected: Call) {
        reads_command(line, Command::Call(expected));
    }

    fn reads_command(line: &str, expected: Command) {
        assert_eq!(read(line.as_bytes(), &mut Vec::new()), Ok(Some(expected)), "{line}");
    }

    #[test]
    fn every_command_is_read() {
        reads("init 43aBFf", Call::Init { bytes: &[0x43, 0xAB, 0xFF] });
        reads("init 43 aBFf 00", Call::Init { bytes: &[0x43, 0xAB, 0xFF, 0] });
        reads("init -", Call::Init { bytes: &[] });
        reads_command("init", Command::InitInWords);
        reads_command("controllers 0xFF", Command::Controllers { count: 255 });
        let record = [1, 0, 64, 0xCC, 0, 0, 0, 0, 0, 0, 0, 0];
        reads_command(
            "object send controller 1 payload 64 padding CC",
            Command::Object(DraftObject { record, pool: None }),
        );
        reads_command(
            "object send controller 1 payload 64 padding CC pool 031",
            Command::Object(DraftObject { record, pool: Some(31) }),
        );
        reads("deinit", Call::DeInit);
        reads("set 0 STARTED", Call::Set { controller: 0, mode: 1 });
        reads("set 1 STOPPED", Call::Set { controller: 1, mode: 2 });
        reads("set 0x2 SLEEP", Call::Set { controller: 2, mode: 3 });
        reads("set 3 4294967295", Call::Set { controller: 3, mode: u32::MAX });
        reads("get 0007", Call::Get { controller: 7 });
        reads(
            "write 0 65535 40000123 01",
            Call::Write {
                object: 0,
                handle: 65535,
                identifier: Identifier(0x4000_0123),
                data: &[1],
            },
        );
        reads("poll write", Call::Poll(Poll::Write));
        reads("poll read", Call::Poll(Poll::Read));
        reads("poll mode", Call::Poll(Poll::Mode));
        reads("poll busoff", Call::Poll(Poll::BusOff));
        reads("sent 31", Call::Sent { object: 31 });
        reads("busoff 0", Call::BusOff { controller: 0 });
        reads(
            "arrived 0 0x120 -",
            Call::Arrived { controller: 0, identifier: Identifier(0x120), data: &[] },
        );
        reads(
            "errors 0x1 65536 0xFFFFFFFF",
            Call::Errors {
                controller: 1,
                counts: ErrorCounts { transmit: 65_536, receive: u32::MAX },
            },
        );
        reads("errorstate 0x2", Call::ErrorState { controller: 2 });
        reads("rxerrors 007", Call::ReceiveErrors { controller: 7 });
        reads("txerrors 4294967295", Call::TransmitErrors { controller: u32::MAX });
        reads("next 0x3", Call::Next { controller: 3 });
        reads("data 1", Call::Data { object: 1 });
        reads_command("sheet 4096", Command::Sheet { words: 4096 });
        reads_command("memory 16384", Command::Memory { bytes: 16384 });
        reads_command("show 0xffffFFFF", Command::Show { object: u32::MAX });
        reads_command("state", Command::State);
        reads_command("config 1 0", Command::Config { version: 1, room: 0 });
        reads_command("config 0xFFFFFFFF 4096", Command::Config { version: u32::MAX, room: 4096 });
    }

    #[test]
    fn blanks_and_comments() {
        for line in ["", " ", "\t \t", "#", "# init", "  # x", "#\r\n"] {
            assert_eq!(read(line.as_bytes(), &mut Vec::new()), Ok(None), "{line:?}");
        }
        reads("\t get \t 1  # the mode", Call::Get { controller: 1 });
        reads("get 1#", Call::Get { controller: 1 });
        assert_eq!(trouble("get #1"), Some(Trouble::WordMissing));
    }

    #[test]
    fn words_are_counted_before_they_are_read() {
        assert_eq!(trouble("fly me"), Some(Trouble::UnknownCommand));
        assert_eq!(trouble("Init -"), Some(Trouble::UnknownCommand));
        assert_eq!(trouble("poll-write"), Some(Trouble::UnknownCommand));
        assert_eq!(trouble("write x y z"), Some(Trouble::WordMissing));
        assert_eq!(trouble("write x y z 0 0"), Some(Trouble::NotANumber));
        assert_eq!(trouble("arrived x y"), Some(Trouble::WordMissing));
        assert_eq!(trouble("controllers"), Some(Trouble::WordMissing));
        assert_eq!(trouble("controllers x y"), Some(Trouble::WordTooMany));
        assert_eq!(trouble("object"), Some(Trouble::WordMissing));
        assert_eq!(trouble("object # send"), Some(Trouble::WordMissing));
        assert_eq!(trouble("objects send"), Some(Trouble::UnknownCommand));
        assert_eq!(trouble("deinit x"), Some(Trouble::WordTooMany));
        assert_eq!(trouble("state 0"), Some(Trouble::WordTooMany));
        assert_eq!(trouble("poll"), Some(Trouble::WordMissing));
        assert_eq!(trouble("poll write now"), Some(Trouble::WordTooMany));
        assert_eq!(trouble("poll Write"), Some(Trouble::UnknownPoll));
        assert_eq!(trouble("config 1"), Some(Trouble::WordMissing));
        assert_eq!(trouble("config 1 x x"), Some(Trouble::WordTooMany));
        assert_eq!(trouble("errors x y"), Some(Trouble::WordMissing));
        assert_eq!(trouble("errors x y z 0"), Some(Trouble::WordTooMany));
        for name in ["errorstate", "rxerrors", "txerrors"] {
            assert_eq!(trouble(name), Some(Trouble::WordMissing));
            assert_eq!(trouble(&format!("{name} x y")), Some(Trouble::WordTooMany));
            assert_eq!(trouble(&format!("{name} x")), Some(Trouble::NotANumber));
            assert_eq!(trouble(&format!("{name} 4294967296")), Some(Trouble::NumberTooLarge));
        }
        assert_eq!(trouble("error 0 0 0"), Some(Trouble::UnknownCommand));
        assert_eq!(trouble("errorState 0"), Some(Trouble::UnknownCommand));
        assert_eq!(trouble("next"), Some(Trouble::WordMissing));
        assert_eq!(trouble("next 0 x"), Some(Trouble::WordTooMany));
        assert_eq!(trouble("state\r"), Some(Trouble::UnknownCommand));
        assert_eq!(trouble("state \r"), Some(Trouble::WordTooMany));
    }

    #[test]
    fn numbers() {
        for word in ["x", "0x", "0X1", "-1", "+1", "1.", "1a", "0xg", "99999999999a", "1_0"] {
            assert_eq!(trouble(&format!("get {word}")), Some(Trouble::NotANumber), "{word}");
        }
        for word in ["4294967296", "0x100000000", "99999999999999999999999"] {
            assert_eq!(trouble(&format!("get {word}")), Some(Trouble::NumberTooLarge), "{word}");
        }
        assert_eq!(trouble("next -"), Some(Trouble::NotANumber));
        assert_eq!(trouble("next 4294967296"), Some(Trouble::NumberTooLarge));
        reads("get 00000000004294967295", Call::Get { controller: u32::MAX });
        reads("get 0x000000000000a", Call::Get { controller: 10 });
    }

    #[test]
    fn limits_of_numbers() {
        assert_eq!(trouble("write 0 65536 0 -"), Some(Trouble::HandleTooLarge));
        assert_eq!(trouble("write 0 4294967296 0 -"), Some(Trouble::NumberTooLarge));
        assert_eq!(trouble("sheet 4097"), Some(Trouble::SheetTooLong));
        assert_eq!(trouble("sheet 4294967296"), Some(Trouble::NumberTooLarge));
        assert_eq!(trouble("memory 16385"), Some(Trouble::MemoryTooLong));
        assert_eq!(trouble("memory -"), Some(Trouble::NotANumber));
        assert_eq!(trouble("config 2 4097"), Some(Trouble::RoomTooLarge));
        assert_eq!(trouble("config 2 4294967296"), Some(Trouble::NumberTooLarge));
        assert_eq!(trouble("config 4294967296 4097"), Some(Trouble::NumberTooLarge));
        assert_eq!(trouble("config x 4097"), Some(Trouble::NotANumber));
        assert_eq!(trouble("controllers 256"), Some(Trouble::DoesNotFitAByte));
        assert_eq!(trouble("controllers 4294967296"), Some(Trouble::NumberTooLarge));
        assert_eq!(trouble("controllers ff"), Some(Trouble::NotANumber));
    }

    #[test]
    fn modes() {
        assert_eq!(trouble("set 0 started"), Some(Trouble::NotAMode));
        assert_eq!(trouble("set 0 UNINIT"), Some(Trouble::NotAMode));
        assert_eq!(trouble("set 0 0x"), Some(Trouble::NotAMode));
        assert_eq!(trouble("set 0 4294967296"), Some(Trouble::NumberTooLarge));
        assert_eq!(trouble("set x y"), Some(Trouble::NotANumber));
    }

    #[test]
    fn identifiers() {
        for word in ["0x", "g", "12345678g", "-", "0X12", "0x0x1", "123456789g"] {
            let line = format!("arrived 0 {word} -");
            assert_eq!(trouble(&line), Some(Trouble::NotAnIdentifier), "{word}");
        }
        for word in ["123456789", "0x000000001", "000000001"] {
            let line = format!("arrived 0 {word} -");
            assert_eq!(trouble(&line), Some(Trouble::IdentifierTooLong), "{word}");
        }
        assert_eq!(trouble("arrived 0 0xFFFFffff -"), None);
    }

    #[test]
    fn bytes() {
        for word in ["0x01", "--", "g0", "1g2", "0", "-0"] {
            let expected = if word == "0" { Trouble::OddDigits } else { Trouble::NotHexDigits };
            assert_eq!(trouble(&format!("init {word}")), Some(expected), "{word}");
        }
        assert_eq!(trouble("init 012"), Some(Trouble::OddDigits));
    }

    #[test]
    fn bytes_in_several_words() {
        let data = &[1, 2, 3, 4, 5];
        reads(
            "write 0 0 0 01 020304\t05",
            Call::Write { object: 0, handle: 0, identifier: Identifier(0), data },
        );
        reads(
            "arrived 0 0 0102 03 04 05# 06",
            Call::Arrived { controller: 0, identifier: Identifier(0), data },
        );
        for words in ["- -", "00 -", "- 00", "00 - 00", "00 0x01", "00 0"] {
            let expected = if words == "00 0" { Trouble::OddDigits } else { Trouble::NotHexDigits };
            for start in ["init", "write 0 0 0", "arrived 0 0"] {
                assert_eq!(trouble(&format!("{start} {words}")), Some(expected), "{words}");
            }
        }
        assert_eq!(trouble("init 0 g"), Some(Trouble::OddDigits));
        assert_eq!(trouble("init g 0"), Some(Trouble::NotHexDigits));
        assert_eq!(trouble("init 4 3"), Some(Trouble::OddDigits), "not even where they sum up");
    }

    #[test]
    fn the_leftmost_bad_word_is_named() {
        assert_eq!(trouble("write x 70000 g 0"), Some(Trouble::NotANumber));
        assert_eq!(trouble("write 0 70000 g 0"), Some(Trouble::HandleTooLarge));
        assert_eq!(trouble("write 0 0 g 0"), Some(Trouble::NotAnIdentifier));
        assert_eq!(trouble("write 0 0 0 0"), Some(Trouble::OddDigits));
        assert_eq!(trouble("errors x 4294967296 y"), Some(Trouble::NotANumber));
        assert_eq!(trouble("errors 0 4294967296 y"), Some(Trouble::NumberTooLarge));
        assert_eq!(trouble("errors 0 0 y"), Some(Trouble::NotANumber));
        assert_eq!(trouble("errors 0 0 -"), Some(Trouble::NotANumber));
        assert_eq!(trouble("errors 0 0 4294967296"), Some(Trouble::NumberTooLarge));
    }
}
