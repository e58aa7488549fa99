//! Random states: sound ones, and ones of which every number is random.

use super::raw::{Raw, RawController, RawObject};
use crate::config::{Config, Kind};
use crate::error_state::ErrorCounts;
use crate::mode::Mode;
use crate::nights::rng::Rng;
use crate::nights::{configs, counts};
use crate::state::{ControllerPlace, ObjectPlace, State};

/// A sound state, now and then the one at rest.
pub fn sound(rng: &mut Rng) -> Raw {
    if rng.one_in(12) {
        return Raw::default();
    }
    configured(rng)
}

/// A sound state that is initialised.
pub fn configured(rng: &mut Rng) -> Raw {
    let config = Config::read(&configs::good(rng)).expect("a good configuration");
    let mut state = State::configured(config);
    let count = state.config.controllers();
    for place in &mut state.controllers[..count] {
        *place = controller(rng);
    }
    for (object, config) in state.objects.iter_mut().zip(state.config.objects()) {
        let mode = state.controllers[usize::from(config.controller)].mode;
        *object = place(rng, config.kind, mode);
    }
    Raw::of(&state)
}

fn controller(rng: &mut Rng) -> ControllerPlace {
    let mode = rng.pick([Mode::Started, Mode::Started, Mode::Stopped, Mode::Sleep]);
    let wish = rng.pick([Mode::Started, Mode::Stopped, Mode::Sleep]);
    let request = Some(wish).filter(|&wish| mode.permits(wish) && rng.percent(50));
    let started = mode == Mode::Started;
    let (off_bus, recovering) = (started && rng.percent(25), !started && rng.percent(40));
    let errors = if off_bus || recovering { marked(rng) } else { counts::on_bus(rng) };
    ControllerPlace { mode, request, off_bus, recovering, errors }
}

/// The counts of a controller with a mark: any, for a bus-off event keeps what there was.
fn marked(rng: &mut Rng) -> ErrorCounts {
    if rng.percent(60) {
        counts::leaving(rng)
    } else {
        counts::on_bus(rng)
    }
}

fn place(rng: &mut Rng, kind: Kind, mode: Mode) -> ObjectPlace {
    let occupied = kind == Kind::Sending && mode == Mode::Started && rng.percent(60);
    ObjectPlace {
        occupied,
        gone: occupied && rng.percent(50),
        full: kind == Kind::Receiving && rng.percent(50),
    }
}

/// Every number random, small ones more often.
pub fn random(rng: &mut Rng) -> Raw {
    let mut raw = Raw {
        initialised: rng.percent(80),
        controller_count: number(rng, 5),
        object_count: number(rng, 34),
        ..Raw::default()
    };
    raw.controllers.fill_with(|| RawController {
        mode: number(rng, 5) as u8,
        request: number(rng, 5) as u8,
        off_bus: rng.percent(30),
        recovering: rng.percent(30),
        errors: ErrorCounts { transmit: number(rng, 300), receive: number(rng, 300) },
    });
    raw.objects.fill_with(|| random_object(rng));
    raw.mailboxes.fill_with(|| ObjectPlace {
        occupied: rng.percent(30),
        gone: rng.percent(30),
        full: rng.percent(30),
    });
    raw
}

fn random_object(rng: &mut Rng) -> RawObject {
    RawObject {
        controller: number(rng, 5) as u8,
        receiving: rng.percent(50),
        pool: number(rng, 33) as u8,
        payload: if rng.percent(90) { rng.pick([8, 64]) } else { rng.word() as u8 },
        padding: number(rng, 2) as u8,
        code: if rng.percent(80) { 0 } else { rng.word() },
        mask: if rng.percent(80) { 0 } else { rng.word() },
    }
}

/// A number below `count`, now and then any number.
fn number(rng: &mut Rng, count: usize) -> u32 {
    if rng.percent(90) {
        rng.below(count) as u32
    } else {
        rng.word()
    }
}
