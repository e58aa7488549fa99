//! A driver state as raw numbers: anything that a caller can hand in.

use crate::config::{Config, Kind, ObjectConfig};
use crate::error_state::ErrorCounts;
use crate::limits::{CONTROLLERS, OBJECTS};
use crate::mode::Mode;
use crate::state::{ControllerPlace, ObjectPlace, State};

/// A controller's place.
#[derive(Clone, Copy, Debug, Default, PartialEq, Eq)]
pub struct RawController {
    pub mode: u8,
    /// The mode asked for, 0 for none.
    pub request: u8,
    pub off_bus: bool,
    /// The second mark.
    pub recovering: bool,
    pub errors: ErrorCounts,
}

/// An object's configuration.
#[derive(Clone, Copy, Debug, Default, PartialEq, Eq)]
pub struct RawObject {
    pub controller: u8,
    pub receiving: bool,
    pub pool: u8,
    pub payload: u8,
    pub padding: u8,
    pub code: u32,
    pub mask: u32,
}

/// A whole state; the default is the one at rest.
#[derive(Clone, Debug, Default, PartialEq, Eq)]
pub struct Raw {
    pub initialised: bool,
    pub controller_count: u32,
    pub object_count: u32,
    pub controllers: [RawController; CONTROLLERS],
    pub objects: [RawObject; OBJECTS],
    pub mailboxes: [ObjectPlace; OBJECTS],
}

impl Raw {
    /// The numbers of a state.
    pub fn of(state: &State) -> Raw {
        let mut raw = Raw {
            initialised: state.initialised,
            controller_count: state.config.controllers() as u32,
            object_count: state.config.objects().len() as u32,
            mailboxes: state.objects,
            controllers: state.controllers.map(raw_controller),
            ..Raw::default()
        };
        for (object, config) in raw.objects.iter_mut().zip(state.config.objects()) {
            *object = raw_object(config);
        }
        raw
    }

    /// The state that the numbers say, if it is sound. Numbers that the
    /// state's types cannot hold say none.
    pub fn sound(&self) -> Option<State> {
        let counts = (self.controller_count.try_into().ok()?, self.object_count.try_into().ok()?);
        let mut places = [ObjectConfig::default(); OBJECTS];
        for (place, object) in places.iter_mut().zip(&self.objects) {
            *place = object_config(object);
        }
        let mut controllers = [ControllerPlace::default(); CONTROLLERS];
        for (place, controller) in controllers.iter_mut().zip(&self.controllers) {
            *place = controller_place(controller)?;
        }
        let config = Config::of(counts.0, counts.1, places);
        let objects = self.mailboxes;
        let state = State { initialised: self.initialised, config, controllers, objects };
        state.is_sound().then_some(state)
    }

    /// The members of the pool of an object, rising; a receiving one is alone.
    pub fn members(&self, object: usize) -> Vec<usize> {
        let one = self.objects[object];
        let in_use = 0..OBJECTS.min(self.object_count as usize);
        if one.receiving {
            return vec![object];
        }
        let member = |other: &RawObject| !other.receiving && other.pool == one.pool;
        in_use.filter(|&other| member(&self.objects[other])).collect()
    }

    /// The bytes of a case that are its state.
    pub fn encode(&self, out: &mut Vec<u8>) {
        out.push(self.initialised.into());
        out.extend(self.controller_count.to_be_bytes());
        out.extend(self.object_count.to_be_bytes());
        for place in &self.controllers {
            out.extend([place.mode, place.request]);
            out.extend([place.off_bus, place.recovering].map(u8::from));
            out.extend(place.errors.transmit.to_be_bytes());
            out.extend(place.errors.receive.to_be_bytes());
        }
        for object in &self.objects {
            out.extend([object.controller, object.receiving.into(), object.pool]);
            out.extend([object.payload, object.padding]);
            out.extend(object.code.to_be_bytes());
            out.extend(object.mask.to_be_bytes());
        }
        for place in &self.mailboxes {
            out.extend([place.occupied, place.gone, place.full].map(u8::from));
        }
    }
}

fn raw_controller(place: ControllerPlace) -> RawController {
    RawController {
        mode: place.mode as u8,
        request: place.request.map_or(0, |wish| wish as u8),
        off_bus: place.off_bus,
        recovering: place.recovering,
        errors: place.errors,
    }
}

fn raw_object(config: &ObjectConfig) -> RawObject {
    RawObject {
        controller: config.controller,
        receiving: config.kind == Kind::Receiving,
        pool: config.pool,
        payload: config.payload,
        padding: config.padding,
        code: config.code,
        mask: config.mask,
    }
}

fn object_config(object: &RawObject) -> ObjectConfig {
    ObjectConfig {
        controller: object.controller,
        kind: if object.receiving { Kind::Receiving } else { Kind::Sending },
        pool: object.pool,
        payload: object.payload,
        padding: object.padding,
        code: object.code,
        mask: object.mask,
    }
}

fn controller_place(controller: &RawController) -> Option<ControllerPlace> {
    let mode = match controller.mode {
        0 => Mode::Uninit,
        number => Mode::requested(number.into())?,
    };
    let request = match controller.request {
        0 => None,
        number => Some(Mode::requested(number.into())?),
    };
    let &RawController { off_bus, recovering, errors, .. } = controller;
    Some(ControllerPlace { mode, request, off_bus, recovering, errors })
}
