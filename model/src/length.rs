//! Frame lengths on the wire and their DLC codes ("Identifiers and lengths").

/// A length as it goes over the wire, with its DLC code.
#[derive(Clone, Copy, Debug, PartialEq, Eq)]
pub struct Wire {
    pub length: u8,
    pub dlc: u8,
}

/// The wire length at which a frame of `length` bytes goes out, or `None` if it
/// is too long for its format. An FD frame goes out at the next higher wire length.
pub fn outgoing(fd: bool, length: usize) -> Option<Wire> {
    let (wire, dlc) = match length {
        0..=8 => (length as u8, length as u8),
        _ if !fd => return None,
        9..=12 => (12, 9),
        13..=16 => (16, 10),
        17..=20 => (20, 11),
        21..=24 => (24, 12),
        25..=32 => (32, 13),
        33..=48 => (48, 14),
        49..=64 => (64, 15),
        _ => return None,
    };
    Some(Wire { length: wire, dlc })
}

/// The wire length of an arriving frame, or `None` if `length` is not a wire
/// length of its format (reason 40).
pub fn arriving(fd: bool, length: usize) -> Option<Wire> {
    outgoing(fd, length).filter(|wire| usize::from(wire.length) == length)
}

/// What the C firmware asks: the wire length of an FD write, 255 above 64.
pub fn wire_length(length: u32) -> u32 {
    usize::try_from(length)
        .ok()
        .and_then(|length| outgoing(true, length))
        .map_or(255, |wire| u32::from(wire.length))
}

#[cfg(test)]
mod tests {
    use super::*;

    const FD_WIRE: [u8; 16] = [0, 1, 2, 3, 4, 5, 6, 7, 8, 12, 16, 20, 24, 32, 48, 64];

    #[test]
    fn dlc_codes_stand_for_the_wire_lengths_in_order() {
        for (dlc, &length) in FD_WIRE.iter().enumerate() {
            let wire = Wire { length, dlc: dlc as u8 };
            assert_eq!(outgoing(true, length.into()), Some(wire));
            assert_eq!(arriving(true, length.into()), Some(wire));
        }
    }

    #[test]
    fn fd_writes_go_out_at_the_next_higher_wire_length() {
        for length in 0..=64usize {
            let wire = outgoing(true, length).expect("fits");
            let next = FD_WIRE.iter().copied().find(|&w| usize::from(w) >= length);
            assert_eq!(Some(wire.length), next, "length {length}");
            assert_eq!(FD_WIRE[usize::from(wire.dlc)], wire.length);
        }
        for length in [65, 66, 70, 255, 256, 2304, usize::MAX] {
            assert_eq!(outgoing(true, length), None);
        }
    }

    #[test]
    fn classic_lengths_are_0_to_8() {
        for length in 0..=8u8 {
            let wire = Some(Wire { length, dlc: length });
            assert_eq!(outgoing(false, length.into()), wire);
            assert_eq!(arriving(false, length.into()), wire);
        }
        for length in 9..=70 {
            assert_eq!(outgoing(false, length), None);
            assert_eq!(arriving(false, length), None);
        }
    }

    #[test]
    fn only_wire_lengths_arrive() {
        for length in 0..=70usize {
            let is_wire = FD_WIRE.iter().any(|&w| usize::from(w) == length);
            assert_eq!(arriving(true, length).is_some(), is_wire, "length {length}");
        }
    }

    #[test]
    fn the_answer_for_c() {
        assert_eq!(wire_length(0), 0);
        assert_eq!(wire_length(8), 8);
        assert_eq!(wire_length(9), 12);
        assert_eq!(wire_length(12), 12);
        assert_eq!(wire_length(13), 16);
        assert_eq!(wire_length(33), 48);
        assert_eq!(wire_length(49), 64);
        assert_eq!(wire_length(64), 64);
        assert_eq!(wire_length(65), 255);
        assert_eq!(wire_length(u32::MAX), 255);
    }
}
