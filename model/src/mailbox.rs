//! The layout of mailbox memory ("What the bench is made of").
//!
//! Object h starts at 72h: identifier word (4), wire length (1), DLC code (1),
//! handle (2), data (64), all big-endian.

use crate::identifier::Identifier;
use crate::length::Wire;
use crate::limits::{DATA_BYTES, MEMORY_BYTES, OBJECTS, OBJECT_BYTES};

const LENGTH_AT: usize = 4;
const DLC_AT: usize = 5;
const HANDLE_AT: usize = 6;
const DATA_AT: usize = 8;

/// A frame to be laid down whole.
pub struct Frame<'a> {
    pub identifier: Identifier,
    pub wire: Wire,
    pub handle: u16,
    pub data: &'a [u8],
    /// The value of the bytes between the data and the wire length.
    pub padding: u8,
}

impl Frame<'_> {
    /// Writes all 72 bytes of `object`; data bytes after the wire length are zero.
    pub fn lay_down(&self, memory: &mut [u8], object: usize) {
        let place = &mut memory[object * OBJECT_BYTES..][..OBJECT_BYTES];
        place[..LENGTH_AT].copy_from_slice(&self.identifier.0.to_be_bytes());
        place[LENGTH_AT] = self.wire.length;
        place[DLC_AT] = self.wire.dlc;
        place[HANDLE_AT..DATA_AT].copy_from_slice(&self.handle.to_be_bytes());

        let (carried, rest) = place[DATA_AT..].split_at_mut(self.wire.length.into());
        let (given, added) = carried.split_at_mut(self.data.len());
        given.copy_from_slice(self.data);
        added.fill(self.padding);
        rest.fill(0);
    }
}

/// The 72 bytes of an object, if there is such an object in the memory.
pub fn object_bytes(memory: &[u8], object: u32) -> Option<&[u8]> {
    memory.chunks_exact(OBJECT_BYTES).nth(usize::try_from(object).ok()?)
}

/// The identifier word of an object, as it stands.
pub fn identifier(memory: &[u8], object: usize) -> u32 {
    let at = object * OBJECT_BYTES;
    u32::from_be_bytes([memory[at], memory[at + 1], memory[at + 2], memory[at + 3]])
}

/// Byte 4 of an object, as it stands.
pub fn wire_length(memory: &[u8], object: usize) -> u8 {
    memory[object * OBJECT_BYTES + LENGTH_AT]
}

/// The handle of an object, as it stands.
pub fn handle(memory: &[u8], object: usize) -> u16 {
    let at = object * OBJECT_BYTES + HANDLE_AT;
    u16::from_be_bytes([memory[at], memory[at + 1]])
}

/// Data of an object: the part of the memory that holds its data, as long as
/// byte 4 says. Empty if the object is 32 or more, the memory is not 2,304
/// bytes, or byte 4 is above 64.
pub fn data_of(memory: &[u8], object: u32) -> &[u8] {
    let object = object as usize;
    if object >= OBJECTS || memory.len() != MEMORY_BYTES {
        return &[];
    }
    let length = usize::from(wire_length(memory, object));
    if length > DATA_BYTES {
        return &[];
    }
    &memory[object * OBJECT_BYTES + DATA_AT..][..length]
}

#[cfg(test)]
mod tests {
    use super::*;
    use crate::length::outgoing;

    #[test]
    fn a_frame_is_laid_down_whole() {
        let mut memory = vec![0xEE; MEMORY_BYTES];
        let frame = Frame {
            identifier: Identifier(0x4000_0123),
            wire: outgoing(true, 9).expect("fits"),
            handle: 0x1234,
            data: &[1, 2, 3, 4, 5, 6, 7, 8, 9],
            padding: 0xCC,
        };
        frame.lay_down(&mut memory, 31);
        let mut expected = vec![0x40, 0, 1, 0x23, 12, 9, 0x12, 0x34];
        expected.extend([1, 2, 3, 4, 5, 6, 7, 8, 9, 0xCC, 0xCC, 0xCC]);
        expected.resize(72, 0);
        assert_eq!(memory[31 * 72..], expected);
        assert!(memory[..31 * 72].iter().all(|&byte| byte == 0xEE));
        assert_eq!(identifier(&memory, 31), 0x4000_0123);
        assert_eq!(wire_length(&memory, 31), 12);
        assert_eq!(handle(&memory, 31), 0x1234);
        assert_eq!(data_of(&memory, 31), &expected[8..20]);
    }

    #[test]
    fn data_is_empty_where_the_rule_says_so() {
        let mut memory = vec![0; MEMORY_BYTES + 1];
        for object in 0..32 {
            memory[object * 72 + 4] = 64;
        }
        assert_eq!(data_of(&memory[..2304], 31).len(), 64);
        assert_eq!(data_of(&memory[..2304], 32).len(), 0);
        assert_eq!(data_of(&memory[..2304], u32::MAX).len(), 0);
        assert_eq!(data_of(&memory[..2303], 0).len(), 0);
        assert_eq!(data_of(&memory, 0).len(), 0);
        assert_eq!(data_of(&[], 0).len(), 0);
        memory[4] = 65;
        assert_eq!(data_of(&memory[..2304], 0).len(), 0);
        memory[4] = 255;
        assert_eq!(data_of(&memory[..2304], 0).len(), 0);
    }
}
