//! How each rule of a sound state is broken with all others kept. `None` says
//! that the state has no place for it.

use super::raw::{Raw, RawController, RawObject};
use crate::identifier::{EXTENDED, FD, SPARE};
use crate::limits::{CONTROLLERS, OBJECTS};
use crate::nights::rng::Rng;
use crate::state::ObjectPlace;

/// One of the places for which `test` holds.
fn place(rng: &mut Rng, count: usize, test: impl Fn(usize) -> bool) -> Option<usize> {
    let places: Vec<usize> = (0..count).filter(|&place| test(place)).collect();
    rng.choose(&places).copied()
}

/// One of the configured objects of a kind.
fn object(rng: &mut Rng, raw: &Raw, receiving: bool) -> Option<usize> {
    place(rng, raw.object_count as usize, |h| raw.objects[h].receiving == receiving)
}

/// One of the configured controllers.
pub(super) fn controller(rng: &mut Rng, raw: &Raw) -> usize {
    rng.below(raw.controller_count as usize)
}

/// Any controller's place before Init.
pub(super) fn rest_controller<'a>(rng: &mut Rng, raw: &'a mut Raw) -> &'a mut RawController {
    *raw = Raw::default();
    &mut raw.controllers[rng.below(CONTROLLERS)]
}

/// The place of a controller that is not configured.
pub(super) fn spare_controller<'a>(
    rng: &mut Rng,
    raw: &'a mut Raw,
) -> Option<&'a mut RawController> {
    let c = place(rng, CONTROLLERS, |c| raw.controller_count as usize <= c)?;
    Some(&mut raw.controllers[c])
}

/// A controller's place with a mode, a request or the off-bus mark, and nothing else.
fn used_controller(rng: &mut Rng) -> RawController {
    let rest = RawController::default();
    match rng.below(3) {
        0 => RawController { mode: rng.pick([1, 2, 3, 4, 255]), ..rest },
        1 => RawController { request: rng.pick([1, 2, 3, 4, 255]), ..rest },
        _ => RawController { off_bus: true, ..rest },
    }
}

/// An object's configuration with one number that is not zero.
fn used_object(rng: &mut Rng) -> RawObject {
    let rest = RawObject::default();
    match rng.below(7) {
        0 => RawObject { controller: rng.pick([1, 4, 255]), ..rest },
        1 => RawObject { receiving: true, ..rest },
        2 => RawObject { pool: rng.pick([1, 31, 32, 255]), ..rest },
        3 => RawObject { payload: rng.pick([8, 64, 255]), ..rest },
        4 => RawObject { padding: rng.pick([1, 255]), ..rest },
        5 => RawObject { code: 1 << rng.below(32), ..rest },
        _ => RawObject { mask: 1 << rng.below(32), ..rest },
    }
}

/// What is remembered of an object, with one flag set.
fn used_mailbox(rng: &mut Rng) -> ObjectPlace {
    let rest = ObjectPlace::default();
    match rng.below(3) {
        0 => ObjectPlace { occupied: true, ..rest },
        1 => ObjectPlace { gone: true, ..rest },
        _ => ObjectPlace { full: true, ..rest },
    }
}

pub fn uninitialised(_: &mut Rng, raw: &mut Raw) -> Option<()> {
    raw.initialised = false;
    Some(())
}

pub fn uninitialised_count(rng: &mut Rng, raw: &mut Raw) -> Option<()> {
    *raw = Raw::default();
    let count = rng.pick([1, 4, 32, 256, u32::MAX]);
    if rng.percent(50) {
        raw.controller_count = count;
    } else {
        raw.object_count = count;
    }
    Some(())
}

pub fn uninitialised_controller(rng: &mut Rng, raw: &mut Raw) -> Option<()> {
    *rest_controller(rng, raw) = used_controller(rng);
    Some(())
}

pub fn uninitialised_object(rng: &mut Rng, raw: &mut Raw) -> Option<()> {
    *raw = Raw::default();
    raw.objects[rng.below(OBJECTS)] = used_object(rng);
    Some(())
}

pub fn uninitialised_mailbox(rng: &mut Rng, raw: &mut Raw) -> Option<()> {
    *raw = Raw::default();
    raw.mailboxes[rng.below(OBJECTS)] = used_mailbox(rng);
    Some(())
}

pub fn no_controller(_: &mut Rng, raw: &mut Raw) -> Option<()> {
    *raw = Raw { initialised: true, ..Raw::default() };
    Some(())
}

pub fn controllers_too_many(rng: &mut Rng, raw: &mut Raw) -> Option<()> {
    let more = rng.pick([5, 6, 256, 260, 65_540, 0x8000_0004, u32::MAX]);
    (raw.controller_count == 4).then(|| raw.controller_count = more)
}

pub fn objects_too_many(rng: &mut Rng, raw: &mut Raw) -> Option<()> {
    let more = rng.pick([33, 64, 255, 256, 288, 65_568, 0x8000_0020, u32::MAX]);
    (raw.object_count == 32).then(|| raw.object_count = more)
}

/// The members of a pool still agree: all of them are on that controller.
pub fn object_controller(rng: &mut Rng, raw: &mut Raw) -> Option<()> {
    let count = raw.controller_count as u8;
    let free = |h: usize| raw.members(h).iter().all(|&h| !raw.mailboxes[h].occupied);
    let h = place(rng, raw.object_count as usize, free)?;
    let controller = rng.pick([count, count + 1, 4, 5, 128, 255]).max(count);
    for h in raw.members(h) {
        raw.objects[h].controller = controller;
    }
    Some(())
}

/// The members of a pool still agree: all of them have that payload.
pub fn payload(rng: &mut Rng, raw: &mut Raw) -> Option<()> {
    let h = place(rng, raw.object_count as usize, |_| true)?;
    let payload = rng.pick([0, 1, 7, 9, 12, 63, 65, 72, 128, 136, 192, 255]);
    for h in raw.members(h) {
        raw.objects[h].payload = payload;
    }
    Some(())
}

pub fn padding(rng: &mut Rng, raw: &mut Raw) -> Option<()> {
    let h = object(rng, raw, true)?;
    raw.objects[h].padding = rng.pick([1, 0xCC, 255]);
    Some(())
}

pub fn sending_filter(rng: &mut Rng, raw: &mut Raw) -> Option<()> {
    let h = object(rng, raw, false)?;
    let bit = 1 << rng.below(32);
    if rng.percent(50) {
        raw.objects[h].code = bit;
    } else {
        raw.objects[h].mask = bit;
    }
    Some(())
}

pub fn code_bits(rng: &mut Rng, raw: &mut Raw) -> Option<()> {
    let h = object(rng, raw, true)?;
    raw.objects[h].code |= rng.pick([FD, SPARE, FD | SPARE]);
    Some(())
}

pub fn mask_bits(rng: &mut Rng, raw: &mut Raw) -> Option<()> {
    let h = object(rng, raw, true)?;
    raw.objects[h].mask |= rng.pick([EXTENDED, FD, SPARE, EXTENDED | FD | SPARE]);
    Some(())
}

pub fn standard_bits(rng: &mut Rng, raw: &mut Raw) -> Option<()> {
    let standard = |h: usize| raw.objects[h].receiving && raw.objects[h].code & EXTENDED == 0;
    let h = place(rng, raw.object_count as usize, standard)?;
    let bit = 1 << rng.between(11, 28);
    raw.objects[h].mask |= bit;
    if rng.percent(50) {
        raw.objects[h].code |= bit;
    }
    Some(())
}

pub fn stray_bit(rng: &mut Rng, raw: &mut Raw) -> Option<()> {
    let h = object(rng, raw, true)?;
    let extended = raw.objects[h].code & EXTENDED != 0;
    let bit = 1 << rng.below(if extended { 29 } else { 11 });
    raw.objects[h].code |= bit;
    raw.objects[h].mask &= !bit;
    Some(())
}

/// One object, or all of its pool, under a number that no pool can have.
pub fn pool_out_of_range(rng: &mut Rng, raw: &mut Raw) -> Option<()> {
    let h = object(rng, raw, false)?;
    let pool = raw.objects[h].pool;
    let other = rng.pick([32, 33, 64, 127, 128, 255, pool + 32, pool + 64, pool + 128]);
    let members = if rng.percent(50) { raw.members(h) } else { vec![h] };
    for h in members {
        raw.objects[h].pool = other;
    }
    Some(())
}

/// Often that of a sending object.
pub fn receiving_pool(rng: &mut Rng, raw: &mut Raw) -> Option<()> {
    let h = object(rng, raw, true)?;
    let other = object(rng, raw, false).map_or(0, |other| raw.objects[other].pool);
    raw.objects[h].pool = match other {
        0 => rng.pick([1, 2, 31, 32, 255]),
        _ => rng.pick([other, other, other, 1, 31, 32, 255]),
    };
    Some(())
}

pub fn unused_pool(rng: &mut Rng, raw: &mut Raw) -> Option<()> {
    let h = place(rng, OBJECTS, |h| raw.object_count as usize <= h)?;
    raw.objects[h].pool = rng.pick([1, 2, h as u8, 31, 32, 255]).max(1);
    Some(())
}

/// A member of a pool that has others.
fn member(rng: &mut Rng, raw: &Raw, test: impl Fn(usize) -> bool) -> Option<usize> {
    let count = raw.object_count as usize;
    place(rng, count, |h| raw.members(h).len() > 1 && test(h))
}

/// The other controller is there, and STARTED if it must be.
pub fn pool_controller(rng: &mut Rng, raw: &mut Raw) -> Option<()> {
    let other = controller(rng, raw);
    let started = raw.controllers[other].mode == 1;
    let h = member(rng, raw, |h| {
        usize::from(raw.objects[h].controller) != other && (started || !raw.mailboxes[h].occupied)
    })?;
    raw.objects[h].controller = other as u8;
    Some(())
}

pub fn pool_payload(rng: &mut Rng, raw: &mut Raw) -> Option<()> {
    let h = member(rng, raw, |_| true)?;
    let place = &mut raw.objects[h];
    place.payload = if place.payload == 8 { 64 } else { 8 };
    Some(())
}

pub fn pool_padding(rng: &mut Rng, raw: &mut Raw) -> Option<()> {
    let h = member(rng, raw, |_| true)?;
    raw.objects[h].padding ^= rng.pick([1, 128, 255]);
    Some(())
}

/// Puts a controller into a mode that it cannot have; what needs STARTED is
/// taken away first.
fn impossible_mode(raw: &mut Raw, controller: usize, mode: u8) {
    raw.controllers[controller] = RawController { mode, ..RawController::default() };
    for (mailbox, object) in raw.mailboxes.iter_mut().zip(&raw.objects) {
        if object.controller as usize == controller {
            mailbox.free();
        }
    }
}

pub fn mode_uninit(rng: &mut Rng, raw: &mut Raw) -> Option<()> {
    let c = controller(rng, raw);
    impossible_mode(raw, c, 0);
    Some(())
}

pub fn mode_unknown(rng: &mut Rng, raw: &mut Raw) -> Option<()> {
    let c = controller(rng, raw);
    impossible_mode(raw, c, rng.pick([4, 5, 17, 128, 255]));
    Some(())
}

pub fn request(rng: &mut Rng, raw: &mut Raw) -> Option<()> {
    let c = controller(rng, raw);
    let place = &mut raw.controllers[c];
    place.request = match place.mode {
        1 => rng.pick([1, 3]),
        3 => 1,
        _ => return None,
    };
    Some(())
}

pub fn request_unknown(rng: &mut Rng, raw: &mut Raw) -> Option<()> {
    let c = controller(rng, raw);
    raw.controllers[c].request = rng.pick([4, 5, 17, 128, 255]);
    Some(())
}

pub fn mark(rng: &mut Rng, raw: &mut Raw) -> Option<()> {
    let c = controller(rng, raw);
    (raw.controllers[c].mode != 1).then(|| raw.controllers[c].off_bus = true)
}

/// Whether the controller of an object is STARTED.
fn started(raw: &Raw, h: usize) -> bool {
    raw.controllers[raw.objects[h].controller as usize].mode == 1
}

pub fn occupied_receiving(rng: &mut Rng, raw: &mut Raw) -> Option<()> {
    let count = raw.object_count as usize;
    let h = place(rng, count, |h| raw.objects[h].receiving && started(raw, h))?;
    raw.mailboxes[h].occupied = true;
    Some(())
}

pub fn occupied_not_started(rng: &mut Rng, raw: &mut Raw) -> Option<()> {
    let count = raw.object_count as usize;
    let h = place(rng, count, |h| !raw.objects[h].receiving && !started(raw, h))?;
    raw.mailboxes[h].occupied = true;
    raw.mailboxes[h].gone = rng.percent(50);
    Some(())
}

pub fn gone_alone(rng: &mut Rng, raw: &mut Raw) -> Option<()> {
    let h = place(rng, raw.object_count as usize, |h| !raw.mailboxes[h].occupied)?;
    raw.mailboxes[h].gone = true;
    Some(())
}

pub fn full_sending(rng: &mut Rng, raw: &mut Raw) -> Option<()> {
    let h = object(rng, raw, false)?;
    raw.mailboxes[h].full = true;
    Some(())
}

pub fn unused_controller(rng: &mut Rng, raw: &mut Raw) -> Option<()> {
    *spare_controller(rng, raw)? = used_controller(rng);
    Some(())
}

pub fn unused_object(rng: &mut Rng, raw: &mut Raw) -> Option<()> {
    let h = place(rng, OBJECTS, |h| raw.object_count as usize <= h)?;
    if rng.percent(50) {
        raw.objects[h] = used_object(rng);
    } else {
        raw.mailboxes[h] = used_mailbox(rng);
    }
    Some(())
}
