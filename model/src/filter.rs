//! The filter decision ("Identifiers and lengths").

use crate::identifier::Identifier;

/// True if a frame fits a receiving object, its controller left aside: bit 31
/// agrees with the code's, identifier and code agree on every bit of the mask,
/// and the payload is 64 if the frame is FD. The FD bit itself is not compared.
pub fn fits(identifier: Identifier, code: u32, mask: u32, payload: u32) -> bool {
    identifier.is_extended() == Identifier(code).is_extended()
        && (identifier.0 ^ code) & mask == 0
        && (payload == 64 || !identifier.is_fd())
}

/// What the C firmware asks: 1 or 0 for any identifier, code, mask and payload.
pub fn filter_decision(identifier: u32, code: u32, mask: u32, payload: u32) -> u32 {
    u32::from(fits(Identifier(identifier), code, mask, payload))
}

#[cfg(test)]
mod tests {
    use super::*;

    #[test]
    fn masked_bits_must_agree_and_others_are_free() {
        assert_eq!(filter_decision(0x120, 0x120, 0x7FF, 8), 1);
        assert_eq!(filter_decision(0x121, 0x120, 0x7FF, 8), 0);
        assert_eq!(filter_decision(0x121, 0x120, 0x7FE, 8), 1);
        assert_eq!(filter_decision(0x120, 0x121, 0x7FE, 8), 1);
        assert_eq!(filter_decision(0x7FF, 0x000, 0x000, 8), 1);
    }

    #[test]
    fn bit_31_is_always_compared() {
        assert_eq!(filter_decision(0x8000_0120, 0x120, 0x7FF, 8), 0);
        assert_eq!(filter_decision(0x120, 0x8000_0120, 0, 8), 0);
        assert_eq!(filter_decision(0x8000_0120, 0x8000_0120, 0x1FFF_FFFF, 8), 1);
    }

    #[test]
    fn fd_frames_need_a_payload_of_64() {
        assert_eq!(filter_decision(0x4000_0120, 0x120, 0x7FF, 8), 0);
        assert_eq!(filter_decision(0x4000_0120, 0x120, 0x7FF, 64), 1);
        assert_eq!(filter_decision(0x4000_0120, 0x120, 0x7FF, 65), 0);
        assert_eq!(filter_decision(0x120, 0x120, 0x7FF, 64), 1);
        assert_eq!(filter_decision(0x120, 0x120, 0x7FF, 0), 1);
    }

    #[test]
    fn any_mask_is_taken_literally() {
        assert_eq!(filter_decision(0x4000_0000, 0, 0x4000_0000, 64), 0);
        assert_eq!(filter_decision(0x4000_0000, 0x4000_0000, 0xFFFF_FFFF, 64), 1);
        assert_eq!(filter_decision(0x2000_0000, 0, 0x2000_0000, 8), 0);
        assert_eq!(filter_decision(0x2000_0000, 0, 0, 8), 1);
    }
}
