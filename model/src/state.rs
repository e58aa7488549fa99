//! The driver state, when it is sound, and the checks all calls share.

use crate::config::{Config, Kind, ObjectConfig};
use crate::error_state::{ErrorCounts, ErrorState};
use crate::limits::{CONTROLLERS, MEMORY_BYTES, OBJECTS, SHEET_WORDS};
use crate::mode::Mode;
use crate::outcome::Reason;

/// What is remembered per controller.
#[derive(Clone, Copy, Debug, Default, PartialEq, Eq)]
pub struct ControllerPlace {
    pub mode: Mode,
    /// The waiting request, if any.
    pub request: Option<Mode>,
    /// The off-bus mark.
    pub off_bus: bool,
    /// The second mark: a bus-off poll took it off the bus, and it was not STARTED since.
    pub recovering: bool,
    pub errors: ErrorCounts,
}

impl ControllerPlace {
    /// Carries out a request. Entering STARTED clears the second mark and sets both
    /// counts to zero; every other move keeps all three.
    pub fn enter(&mut self, mode: Mode) {
        self.mode = mode;
        self.request = None;
        if mode == Mode::Started {
            self.recovering = false;
            self.errors = ErrorCounts::default();
        }
    }

    /// What the bus-off poll does to a marked controller: the second mark takes the
    /// place of the first, and the counts stay.
    pub fn leave_bus(&mut self) {
        self.mode = Mode::Stopped;
        self.request = None;
        self.off_bus = false;
        self.recovering = true;
    }
}

/// What is remembered per object.
#[derive(Clone, Copy, Debug, Default, PartialEq, Eq)]
pub struct ObjectPlace {
    /// Sending: a frame lies in it and has not been closed.
    pub occupied: bool,
    /// Sending: the frame has gone out and waits for its confirmation.
    pub gone: bool,
    /// Receiving: a frame lies in it and has not been indicated.
    pub full: bool,
}

impl ObjectPlace {
    /// Frees a sending object.
    pub fn free(&mut self) {
        self.occupied = false;
        self.gone = false;
    }
}

/// The driver state. The default is the state at rest, uninitialised.
#[derive(Clone, Debug, Default, PartialEq, Eq)]
pub struct State {
    pub initialised: bool,
    pub config: Config,
    pub controllers: [ControllerPlace; CONTROLLERS],
    pub objects: [ObjectPlace; OBJECTS],
}

impl State {
    /// The state after an accepted Init: configured controllers in STOPPED,
    /// nothing waiting, marked, occupied or full.
    pub fn configured(config: Config) -> State {
        let mut state = State { initialised: true, config, ..State::default() };
        for place in &mut state.controllers[..state.config.controllers()] {
            place.mode = Mode::Stopped;
        }
        state
    }

    /// Sound, as "What the bench is made of" defines it.
    pub fn is_sound(&self) -> bool {
        if !self.initialised {
            return *self == State::default();
        }
        self.config.is_acceptable()
            && (0..CONTROLLERS).all(|controller| self.controller_is_sound(controller))
            && (0..OBJECTS).all(|object| self.object_is_sound(object))
    }

    /// Configured: mode 1 to 3, a waiting request permitted from the present
    /// mode, off-bus only if STARTED, the second mark only if not, counts up to
    /// 65,535 and a transmit count above 255 only with a mark. Unused: at rest.
    fn controller_is_sound(&self, controller: usize) -> bool {
        let place = &self.controllers[controller];
        if controller >= self.config.controllers() {
            return *place == ControllerPlace::default();
        }
        place.mode != Mode::Uninit
            && place.request.is_none_or(|wish| place.mode.permits(wish))
            && (!place.off_bus || place.mode == Mode::Started)
            && (!place.recovering || place.mode != Mode::Started)
            && place.errors.can_be_counted()
            && (place.errors.state() != ErrorState::BusOff || place.off_bus || place.recovering)
    }

    /// Occupied only on a sending object of a STARTED controller, gone only
    /// with occupied, full only on a receiving object. Unused: at rest.
    fn object_is_sound(&self, object: usize) -> bool {
        let place = &self.objects[object];
        let Some(config) = self.config.objects().get(object) else {
            return *place == ObjectPlace::default();
        };
        let sending = config.kind == Kind::Sending;
        let started = self.controllers[usize::from(config.controller)].mode == Mode::Started;
        (!place.occupied || (sending && started))
            && (!place.gone || place.occupied)
            && (!place.full || !sending)
    }

    /// Reason 41.
    pub fn check_sound(&self) -> Result<(), Reason> {
        if cfg!(feature = "trusting") {
            return Ok(());
        }
        self.is_sound().then_some(()).ok_or(Reason::NotSound)
    }

    /// Reason 5.
    pub fn check_initialised(&self) -> Result<(), Reason> {
        self.initialised.then_some(()).ok_or(Reason::Uninit)
    }

    /// Reason 4, or the controller as a place number.
    pub fn check_controller(&self, controller: u32) -> Result<usize, Reason> {
        usize::try_from(controller)
            .ok()
            .filter(|&controller| controller < self.config.controllers())
            .ok_or(Reason::Controller)
    }

    /// Reason 2, or the object's configuration: a configured sending object.
    pub fn check_sending(&self, object: u32) -> Result<ObjectConfig, Reason> {
        self.config
            .object(object)
            .copied()
            .filter(|config| config.kind == Kind::Sending)
            .ok_or(Reason::Handle)
    }
}

/// Reason 32: the room rule is by length alone.
pub fn check_sheet(sheet: &[u32]) -> Result<(), Reason> {
    (sheet.len() >= SHEET_WORDS).then_some(()).ok_or(Reason::ShortSheet)
}

/// Reason 33.
pub fn check_memory(memory: &[u8]) -> Result<(), Reason> {
    (memory.len() == MEMORY_BYTES).then_some(()).ok_or(Reason::MemoryLength)
}

#[cfg(test)]
mod tests {
    use super::*;

    /// Two controllers, a sending and a receiving object on controller 0.
    fn state() -> State {
        let mut bytes = vec![0x43, 0x48, 0x42, 0, 1, 2, 2, 0];
        bytes.extend([0, 0, 64, 0xCC, 0, 0, 0, 0, 0, 0, 0, 0]);
        bytes.extend([0, 1, 8, 0, 0, 0, 1, 0x20, 0, 0, 7, 0xFF]);
        State::configured(Config::read(&bytes).expect("good bytes"))
    }

    /// Whether the state is sound after a change.
    fn sound(change: impl FnOnce(&mut State)) -> bool {
        let mut state = state();
        change(&mut state);
        state.is_sound()
    }

    #[test]
    fn at_rest_and_configured_are_sound() {
        assert!(State::default().is_sound());
        assert!(sound(|_| ()));
    }

    #[test]
    fn uninitialised_needs_everything_at_rest() {
        assert!(!sound(|s| s.initialised = false));
        let mut rest = State::default();
        rest.objects[31].full = true;
        assert!(!rest.is_sound());
        let initialised = State { initialised: true, ..State::default() };
        assert!(!initialised.is_sound());
    }

    #[test]
    fn a_filter_code_outside_its_mask_is_not_sound() {
        let holding = |code, mask| {
            let object = ObjectConfig {
                kind: Kind::Receiving,
                payload: 8,
                code,
                mask,
                ..ObjectConfig::default()
            };
            let mut places = [ObjectConfig::default(); OBJECTS];
            places[0] = object;
            State::configured(Config::of(1, 1, places)).is_sound()
        };
        assert!(holding(0x120, 0x7FF));
        assert!(!holding(0x121, 0x7FE));
        assert!(!holding(1, 0));
        assert!(holding(0x8000_0000, 0));
        assert!(!holding(0x9000_0000, 0));
        assert!(holding(0x9FFF_FFFF, 0x1FFF_FFFF));
        assert!(!holding(0x9FFF_FFFF, 0x0FFF_FFFF));
    }

    #[test]
    fn pools_of_a_sound_state() {
        let rest = ObjectConfig::default();
        let sending = |pool| ObjectConfig { pool, payload: 8, padding: 0x55, ..rest };
        let receiving = ObjectConfig { kind: Kind::Receiving, payload: 8, ..rest };
        let holding = |first, second, unused| {
            let mut places = [rest; OBJECTS];
            places[..3].copy_from_slice(&[first, second, unused]);
            State::configured(Config::of(2, 2, places)).is_sound()
        };
        assert!(holding(sending(0), sending(1), rest));
        assert!(holding(sending(31), sending(31), rest));
        assert!(holding(sending(7), receiving, rest));
        assert!(!holding(sending(32), receiving, rest));
        assert!(!holding(sending(31), sending(255), rest));
        assert!(!holding(sending(7), ObjectConfig { pool: 7, ..receiving }, rest));
        assert!(!holding(sending(7), sending(8), ObjectConfig { pool: 9, ..rest }));
        for other in [
            ObjectConfig { controller: 1, ..sending(7) },
            ObjectConfig { payload: 64, ..sending(7) },
            ObjectConfig { padding: 0x56, ..sending(7) },
        ] {
            assert!(!holding(sending(7), other, rest));
            assert!(!holding(other, sending(7), rest));
            assert!(holding(sending(8), other, rest));
        }
    }

    #[test]
    fn controllers() {
        assert!(!sound(|s| s.controllers[1].mode = Mode::Uninit));
        assert!(!sound(|s| s.controllers[2].mode = Mode::Stopped));
        assert!(sound(|s| s.controllers[0].request = Some(Mode::Sleep)));
        assert!(!sound(|s| s.controllers[0].request = Some(Mode::Uninit)));
        assert!(!sound(|s| s.controllers[3].request = Some(Mode::Stopped)));
        assert!(!sound(|s| s.controllers[0].off_bus = true));
        let started = |s: &mut State| s.controllers[0].mode = Mode::Started;
        assert!(sound(started));
        assert!(sound(|s| {
            started(s);
            s.controllers[0].off_bus = true;
        }));
        assert!(!sound(|s| {
            started(s);
            s.controllers[0].request = Some(Mode::Started);
        }));
    }

    #[test]
    fn marks_and_counts() {
        /// Whether controller 0 of the state is sound in a mode, with these marks and counts.
        fn holding(mode: Mode, marks: (bool, bool), transmit: u32, receive: u32) -> bool {
            sound(|s| {
                s.controllers[0] = ControllerPlace {
                    mode,
                    request: None,
                    off_bus: marks.0,
                    recovering: marks.1,
                    errors: ErrorCounts { transmit, receive },
                }
            })
        }
        let (none, off, second) = ((false, false), (true, false), (false, true));
        for mode in [Mode::Started, Mode::Stopped, Mode::Sleep] {
            let started = mode == Mode::Started;
            assert_eq!(holding(mode, off, 0, 0), started);
            assert_eq!(holding(mode, second, 0, 0), !started);
            assert!(!holding(mode, (true, true), 0, 0));
            assert!(holding(mode, none, 255, 65_535));
            assert!(!holding(mode, none, 256, 0));
            assert!(!holding(mode, none, 65_535, 0));
            assert!(!holding(mode, none, 0, 65_536));
            let marked = if started { off } else { second };
            assert!(holding(mode, marked, 256, 0));
            assert!(holding(mode, marked, 65_535, 65_535));
            assert!(!holding(mode, marked, 65_536, 0));
            assert!(!holding(mode, marked, 0, 65_536));
        }
    }

    #[test]
    fn marks_and_counts_of_unused_places() {
        for change in [
            |place: &mut ControllerPlace| place.recovering = true,
            |place: &mut ControllerPlace| place.errors.transmit = 1,
            |place: &mut ControllerPlace| place.errors.receive = 1,
        ] {
            assert!(sound(|s| {
                s.controllers[1].mode = Mode::Sleep;
                change(&mut s.controllers[1]);
            }));
            assert!(!sound(|s| change(&mut s.controllers[2])));
            let mut rest = State::default();
            change(&mut rest.controllers[0]);
            assert!(!rest.is_sound());
        }
    }

    #[test]
    fn entering_and_leaving() {
        let errors = ErrorCounts { transmit: 300, receive: 200 };
        let mut place = ControllerPlace {
            mode: Mode::Started,
            request: Some(Mode::Stopped),
            off_bus: true,
            recovering: false,
            errors,
        };
        place.leave_bus();
        let stopped = ControllerPlace {
            mode: Mode::Stopped,
            recovering: true,
            errors,
            ..ControllerPlace::default()
        };
        assert_eq!(place, stopped);
        for mode in [Mode::Stopped, Mode::Sleep] {
            place.request = Some(mode);
            place.enter(mode);
            assert_eq!(place, ControllerPlace { mode, ..stopped });
        }
        place.request = Some(Mode::Started);
        place.enter(Mode::Started);
        assert_eq!(place, ControllerPlace { mode: Mode::Started, ..ControllerPlace::default() });
    }

    #[test]
    fn objects() {
        let started = |s: &mut State| s.controllers[0].mode = Mode::Started;
        assert!(!sound(|s| s.objects[0].occupied = true));
        assert!(sound(|s| {
            started(s);
            s.objects[0].occupied = true;
        }));
        assert!(!sound(|s| {
            started(s);
            s.objects[0].gone = true;
        }));
        assert!(!sound(|s| {
            started(s);
            s.objects[1].occupied = true;
        }));
        assert!(sound(|s| s.objects[1].full = true));
        assert!(!sound(|s| s.objects[0].full = true));
        assert!(!sound(|s| s.objects[2].full = true));
    }
}
