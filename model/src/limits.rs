//! The sizes of the bench ("What the bench is made of").

/// Places for controllers; a configuration uses 1 to 4 of them.
pub const CONTROLLERS: usize = 4;

/// Places for hardware objects; a configuration uses 0 to 32 of them.
pub const OBJECTS: usize = 32;

/// Mailbox bytes of one object: identifier 4, wire length 1, DLC code 1, handle 2, data 64.
pub const OBJECT_BYTES: usize = 72;

/// The most data bytes one frame can carry.
pub const DATA_BYTES: usize = 64;

/// Mailbox memory must be exactly this long, else reason 33.
pub const MEMORY_BYTES: usize = OBJECTS * OBJECT_BYTES;

/// Words of one record on the sheet.
pub const RECORD_WORDS: usize = 4;

/// The sheet must have at least this many words, else reason 32.
pub const SHEET_WORDS: usize = RECORD_WORDS * (CONTROLLERS + OBJECTS);

#[cfg(test)]
mod tests {
    use super::*;

    #[test]
    fn sizes_are_the_papers() {
        assert_eq!(MEMORY_BYTES, 2304);
        assert_eq!(SHEET_WORDS, 144);
        assert_eq!(OBJECT_BYTES, 8 + DATA_BYTES);
    }
}
