//! Controller modes and the moves between them ("Modes").

/// The mode of a controller; the numbers are the paper's.
#[derive(Clone, Copy, Debug, Default, PartialEq, Eq)]
pub enum Mode {
    #[default]
    Uninit = 0,
    Started = 1,
    Stopped = 2,
    Sleep = 3,
}

impl Mode {
    /// The mode a request may name; 0 and 4 upward are unknown.
    pub fn requested(number: u32) -> Option<Mode> {
        match number {
            1 => Some(Mode::Started),
            2 => Some(Mode::Stopped),
            3 => Some(Mode::Sleep),
            _ => None,
        }
    }

    /// The paper's number of this mode.
    pub fn number(self) -> u32 {
        self as u32
    }

    /// True if a request for `wish` is permitted from this mode.
    pub fn permits(self, wish: Mode) -> bool {
        use Mode::*;
        matches!(
            (self, wish),
            (Started, Stopped) | (Stopped, Started | Stopped | Sleep) | (Sleep, Stopped | Sleep)
        )
    }
}

#[cfg(test)]
mod tests {
    use super::*;

    #[test]
    fn the_table_of_moves() {
        use Mode::*;
        let permitted = [
            (Started, Stopped),
            (Stopped, Started),
            (Stopped, Stopped),
            (Stopped, Sleep),
            (Sleep, Stopped),
            (Sleep, Sleep),
        ];
        for from in [Uninit, Started, Stopped, Sleep] {
            for to in [Uninit, Started, Stopped, Sleep] {
                assert_eq!(from.permits(to), permitted.contains(&(from, to)), "{from:?} to {to:?}");
            }
        }
    }

    #[test]
    fn numbers_of_modes() {
        assert_eq!(Mode::requested(0), None);
        assert_eq!(Mode::requested(4), None);
        assert_eq!(Mode::requested(u32::MAX), None);
        for number in 1..=3 {
            assert_eq!(Mode::requested(number).map(Mode::number), Some(number));
        }
        assert_eq!(Mode::Uninit.number(), 0);
    }
}
