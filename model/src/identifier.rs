//! CAN identifiers with their format bits ("Identifiers and lengths").

/// Bit 31 marks an extended identifier.
pub const EXTENDED: u32 = 1 << 31;

/// Bit 30 marks an FD frame.
pub const FD: u32 = 1 << 30;

/// Bit 29 has no meaning and must be clear.
pub const SPARE: u32 = 1 << 29;

/// Bits 28 to 11, which only an extended identifier may use.
pub const EXTENDED_ONLY: u32 = 0x1FFF_F800;

/// An identifier word as the caller gives it, good or not.
#[derive(Clone, Copy, Debug, PartialEq, Eq)]
pub struct Identifier(pub u32);

impl Identifier {
    /// True if bit 31 is set.
    pub fn is_extended(self) -> bool {
        self.0 & EXTENDED != 0
    }

    /// True if bit 30 is set. Read off even an identifier that is not good.
    pub fn is_fd(self) -> bool {
        self.0 & FD != 0
    }

    /// Good: bit 29 clear and, where bit 31 is clear, bits 28 to 11 clear too.
    pub fn is_good(self) -> bool {
        self.0 & SPARE == 0 && (self.is_extended() || self.0 & EXTENDED_ONLY == 0)
    }
}

#[cfg(test)]
mod tests {
    use super::*;

    fn good(word: u32) -> bool {
        Identifier(word).is_good()
    }

    #[test]
    fn p13_good_and_bad_identifiers() {
        assert!(good(0x0000_07FF));
        assert!(good(0x9FFF_FFFF));
        assert!(!good(0x0000_0800));
        assert!(!good(0x2000_0000));
        assert!(!good(0xA000_0000));
    }

    #[test]
    fn the_fd_bit_does_not_spoil_an_identifier() {
        assert!(good(0x4000_0123));
        assert!(good(0xDFFF_FFFF));
        assert!(!good(0x4000_0800));
        assert!(!good(0x6000_0000));
        assert!(!good(0xFFFF_FFFF));
    }

    #[test]
    fn every_single_bit() {
        for bit in 0..32 {
            let standard = bit <= 10 || bit == 30 || bit == 31;
            assert_eq!(good(1 << bit), standard, "bit {bit} alone");
            assert_eq!(good(EXTENDED | 1 << bit), bit != 29, "bit {bit} with bit 31");
        }
    }

    #[test]
    fn format_bits() {
        assert!(Identifier(0x8000_0000).is_extended());
        assert!(!Identifier(0x7FFF_FFFF).is_extended());
        assert!(Identifier(0x4000_0000).is_fd());
        assert!(!Identifier(0xBFFF_FFFF).is_fd());
    }
}
