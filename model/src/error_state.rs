//! Error counts and error states of a controller (02, Q-5; the limits are those of ISO 11898-1).

use crate::state::ControllerPlace;

/// A controller is error passive where either count is above this.
const MOST_ACTIVE: u32 = 127;

/// A controller is bus-off where its transmit count is above this.
const MOST_ON_BUS: u32 = 255;

/// The largest number that a count can be set to.
const MOST_COUNTED: u32 = 65_535;

/// The largest number that records and services tell; larger counts are told as this.
const MOST_TOLD: u32 = 255;

/// The error state of a controller; the numbers are the paper's.
#[derive(Clone, Copy, Debug, PartialEq, Eq)]
pub enum ErrorState {
    Active = 0,
    Passive = 1,
    BusOff = 2,
}

impl ErrorState {
    /// The paper's number of this state.
    pub fn number(self) -> u32 {
        self as u32
    }
}

/// The two error counts of a controller.
#[derive(Clone, Copy, Debug, Default, PartialEq, Eq)]
pub struct ErrorCounts {
    pub transmit: u32,
    pub receive: u32,
}

impl ErrorCounts {
    /// False if either number is larger than a count can be.
    pub fn can_be_counted(self) -> bool {
        self.transmit <= MOST_COUNTED && self.receive <= MOST_COUNTED
    }

    /// The error state by the counts alone. The receive count never leads off the bus.
    pub fn state(self) -> ErrorState {
        if self.transmit > MOST_ON_BUS {
            ErrorState::BusOff
        } else if self.transmit > MOST_ACTIVE || self.receive > MOST_ACTIVE {
            ErrorState::Passive
        } else {
            ErrorState::Active
        }
    }

    /// The counts as they are told.
    pub fn told(self) -> ErrorCounts {
        ErrorCounts { transmit: self.transmit.min(MOST_TOLD), receive: self.receive.min(MOST_TOLD) }
    }
}

impl ControllerPlace {
    /// The error state: bus-off also while either mark stands, whatever the counts are.
    pub fn error_state(&self) -> ErrorState {
        if self.off_bus || self.recovering {
            ErrorState::BusOff
        } else {
            self.errors.state()
        }
    }
}

#[cfg(test)]
mod tests {
    use super::*;

    fn counts(transmit: u32, receive: u32) -> ErrorCounts {
        ErrorCounts { transmit, receive }
    }

    #[test]
    fn both_sides_of_each_limit() {
        use ErrorState::*;
        for (transmit, receive, state) in [
            (0, 0, Active),
            (127, 127, Active),
            (128, 0, Passive),
            (0, 128, Passive),
            (128, 128, Passive),
            (255, 0, Passive),
            (255, 65_535, Passive),
            (0, 255, Passive),
            (0, 256, Passive),
            (0, 65_535, Passive),
            (256, 0, BusOff),
            (256, 65_535, BusOff),
            (65_535, 0, BusOff),
        ] {
            assert_eq!(counts(transmit, receive).state(), state, "{transmit}, {receive}");
        }
        assert_eq!([Active, Passive, BusOff].map(ErrorState::number), [0, 1, 2]);
    }

    #[test]
    fn what_can_be_counted() {
        assert!(counts(65_535, 65_535).can_be_counted());
        assert!(!counts(65_536, 0).can_be_counted());
        assert!(!counts(0, 65_536).can_be_counted());
        assert!(!counts(u32::MAX, u32::MAX).can_be_counted());
    }

    #[test]
    fn counts_are_told_up_to_255() {
        assert_eq!(counts(254, 255).told(), counts(254, 255));
        assert_eq!(counts(255, 256).told(), counts(255, 255));
        assert_eq!(counts(65_535, 0).told(), counts(255, 0));
    }

    #[test]
    fn either_mark_is_bus_off_whatever_the_counts_are() {
        let place = |off_bus, recovering, transmit| ControllerPlace {
            off_bus,
            recovering,
            errors: counts(transmit, 0),
            ..ControllerPlace::default()
        };
        for transmit in [0, 128, 256] {
            assert_eq!(place(true, false, transmit).error_state(), ErrorState::BusOff);
            assert_eq!(place(false, true, transmit).error_state(), ErrorState::BusOff);
        }
        assert_eq!(place(false, false, 0).error_state(), ErrorState::Active);
        assert_eq!(place(false, false, 128).error_state(), ErrorState::Passive);
    }
}
