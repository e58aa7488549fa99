//! Random identifiers, lengths and how they are written in a script.

use std::fmt::Write;

use super::rng::Rng;
use crate::config::ObjectConfig;
use crate::identifier::{EXTENDED, EXTENDED_ONLY, FD, SPARE};

/// The lengths at which FD frames travel.
const FD_WIRE: [usize; 16] = [0, 1, 2, 3, 4, 5, 6, 7, 8, 12, 16, 20, 24, 32, 48, 64];

/// The identifier bits of a frame's format, without the three format bits.
pub fn identifier_bits(extended: bool) -> u32 {
    if extended {
        !(EXTENDED | FD | SPARE)
    } else {
        !(EXTENDED | FD | SPARE | EXTENDED_ONLY)
    }
}

/// A good identifier; FD as asked for.
pub fn good_identifier(rng: &mut Rng, fd: bool) -> u32 {
    let extended = rng.percent(40);
    let bits = match rng.below(9) {
        0 => 0,
        1 => u32::MAX,
        2 => 1 << rng.below(32),
        3 => rng.word() & 0xF | 0x120,
        // One of two base identifiers, so that a choice goes by what follows.
        4 if extended => (0x120 | rng.word() & 1) << 18 | rng.word() & 3,
        4 => 0x120 | rng.word() & 1,
        _ => rng.word(),
    };
    bits & identifier_bits(extended) | if extended { EXTENDED } else { 0 } | if fd { FD } else { 0 }
}

/// An identifier that is not good: bit 29 set, or wide without bit 31.
pub fn bad_identifier(rng: &mut Rng) -> u32 {
    let fd = rng.percent(50);
    let good = good_identifier(rng, fd);
    match rng.below(4) {
        0 => good | SPARE,
        1 => good & !EXTENDED | 1 << rng.between(11, 28),
        2 => rng.pick([0x800, 0x2000_0000, 0xA000_0000, 0x6000_0000, 0x1FFF_FFFF, u32::MAX]),
        _ => rng.word() | SPARE,
    }
}

/// An identifier that passes an object's filter.
pub fn fitting_identifier(rng: &mut Rng, config: &ObjectConfig) -> u32 {
    let extended = config.code & EXTENDED != 0;
    let free = identifier_bits(extended) & !config.mask;
    let fd = config.payload == 64 && rng.percent(50);
    config.code & !free | rng.word() & free | if fd { FD } else { 0 }
}

/// A length at which a frame of this identifier can arrive.
pub fn arriving_length(rng: &mut Rng, identifier: u32) -> usize {
    if identifier & FD != 0 {
        rng.pick(FD_WIRE)
    } else {
        rng.below(9)
    }
}

/// A length that can be written with this identifier.
pub fn written_length(rng: &mut Rng, identifier: u32) -> usize {
    if identifier & FD != 0 {
        rng.below(65)
    } else {
        rng.below(9)
    }
}

/// A handle, the edges more often.
pub fn handle(rng: &mut Rng) -> u16 {
    match rng.below(10) {
        0 => 0,
        1 => u16::MAX,
        2 => rng.pick([1, 255, 256, 32767, 32768]),
        _ => rng.word() as u16,
    }
}

/// Bytes as a script writes them, `-` for none.
pub fn hex(bytes: &[u8], upper: bool) -> String {
    if bytes.is_empty() {
        return "-".to_string();
    }
    let mut text = String::with_capacity(2 * bytes.len());
    for byte in bytes {
        // Writing to a string cannot fail.
        let _ = if upper { write!(text, "{byte:02X}") } else { write!(text, "{byte:02x}") };
    }
    text
}

/// An identifier as a script may write it.
pub fn identifier_word(rng: &mut Rng, identifier: u32) -> String {
    match rng.below(6) {
        0 => format!("{identifier:x}"),
        1 => format!("0x{identifier:X}"),
        2 => format!("0x{identifier:08x}"),
        _ => format!("{identifier:08X}"),
    }
}

/// A number as a script may write it, mostly in plain decimal.
pub fn number_word(rng: &mut Rng, number: u32) -> String {
    match rng.below(40) {
        0 => format!("0x{number:x}"),
        1 => format!("0x{number:02X}"),
        2 => format!("{number:05}"),
        _ => number.to_string(),
    }
}

/// Bytes as a script may write them: mostly in one word, now and then in several.
pub fn bytes_words(rng: &mut Rng, bytes: &[u8]) -> String {
    let upper = rng.percent(25);
    if bytes.len() < 2 || rng.percent(75) {
        return hex(bytes, upper);
    }
    // The longest word in bytes; each word is as long, or of any length up to it.
    let longest = rng.pick([1, 2, 4, 8, 12, 20]);
    let even = rng.percent(50);
    let mut words = Vec::new();
    let mut rest = bytes;
    while !rest.is_empty() {
        let length = if even { longest } else { rng.between(1, longest) };
        let (word, after) = rest.split_at(length.min(rest.len()));
        words.push(hex(word, upper));
        rest = after;
    }
    words.join(" ")
}

/// So many random bytes as a script may write them.
pub fn random_bytes_words(rng: &mut Rng, length: usize) -> String {
    let bytes = rng.bytes(length);
    bytes_words(rng, &bytes)
}

#[cfg(test)]
mod tests {
    use super::*;

    #[test]
    fn several_words_are_the_same_bytes() {
        let mut rng = Rng::new(9);
        let mut several = 0;
        for length in (0..500).map(|number| number % 70) {
            let bytes = rng.bytes(length);
            let words = bytes_words(&mut rng, &bytes);
            several += usize::from(words.contains(' '));
            assert!(words.split(' ').all(|word| word == "-" || word.len().is_multiple_of(2)));
            assert_eq!(words.replace(' ', "").to_lowercase(), hex(&bytes, false));
        }
        assert!((50..250).contains(&several), "{several} of 500 in several words");
    }
}
