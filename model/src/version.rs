//! The versions of configuration bytes ("Configuration bytes"; 02, Q-2).

/// The three bytes "CHB" with which configuration bytes begin.
pub const MARK: [u8; 3] = [0x43, 0x48, 0x42];

/// A known version. It says how the bytes are read; a state does not keep it.
#[derive(Clone, Copy, Debug, PartialEq, Eq)]
pub enum Version {
    /// Each sending object is its own pool, under its own number.
    One = 1,
    /// A sending record names its pool in the last byte of its code.
    Two = 2,
}

impl Version {
    /// The version with this number, if it is known.
    pub fn of(number: u32) -> Option<Version> {
        match number {
            1 => Some(Version::One),
            2 => Some(Version::Two),
            _ => None,
        }
    }

    /// The version that the first five bytes of a configuration say, if they are
    /// the mark and a known version.
    pub fn of_start(start: &[u8]) -> Option<Version> {
        let [mark @ .., high, low] = start else {
            return None;
        };
        let number = u16::from_be_bytes([*high, *low]);
        Version::of(number.into()).filter(|_| mark == MARK)
    }

    /// The mark and the version as they stand in a header.
    pub fn start(self) -> [u8; 5] {
        let [c, h, b] = MARK;
        let [high, low] = (self as u16).to_be_bytes();
        [c, h, b, high, low]
    }
}

#[cfg(test)]
mod tests {
    use super::*;

    #[test]
    fn one_and_two_are_known() {
        for number in [0, 3, 4, 255, 256, 257, 258, 512, 513, 65_537, 65_538, u32::MAX] {
            assert_eq!(Version::of(number), None, "{number}");
        }
        assert_eq!(Version::of(1), Some(Version::One));
        assert_eq!(Version::of(2), Some(Version::Two));
    }

    #[test]
    fn starts_are_the_papers() {
        assert_eq!(Version::One.start(), [0x43, 0x48, 0x42, 0, 1]);
        assert_eq!(Version::Two.start(), [0x43, 0x48, 0x42, 0, 2]);
        for version in [Version::One, Version::Two] {
            assert_eq!(Version::of_start(&version.start()), Some(version));
            for at in 0..5 {
                for byte in 0..=255 {
                    let mut start = version.start();
                    start[at] = byte;
                    let known = at == 4 && (byte == 1 || byte == 2) || start == version.start();
                    assert_eq!(Version::of_start(&start).is_some(), known, "{start:?}");
                }
            }
        }
        assert_eq!(Version::of_start(&[]), None);
        assert_eq!(Version::of_start(&[0, 1]), None);
        assert_eq!(Version::of_start(&[0x43, 0x48, 0x42, 0]), None);
    }
}
