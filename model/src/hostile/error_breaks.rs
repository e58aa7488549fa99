//! How each rule of the second mark and the error counts is broken with all others
//! kept.

use super::breaks::{controller, rest_controller, spare_controller};
use super::raw::Raw;
use crate::nights::counts;
use crate::nights::rng::Rng;

pub fn second_mark(rng: &mut Rng, raw: &mut Raw) -> Option<()> {
    let c = controller(rng, raw);
    (raw.controllers[c].mode == 1).then(|| raw.controllers[c].recovering = true)
}

/// The mark that its mode allows stands, so that nothing else is wrong with the count.
pub fn transmit_too_large(rng: &mut Rng, raw: &mut Raw) -> Option<()> {
    let c = controller(rng, raw);
    let place = &mut raw.controllers[c];
    place.off_bus = place.mode == 1;
    place.recovering = place.mode != 1;
    place.errors.transmit = counts::too_large(rng);
    Some(())
}

pub fn receive_too_large(rng: &mut Rng, raw: &mut Raw) -> Option<()> {
    let c = controller(rng, raw);
    raw.controllers[c].errors.receive = counts::too_large(rng);
    Some(())
}

pub fn transmit_without_mark(rng: &mut Rng, raw: &mut Raw) -> Option<()> {
    let c = controller(rng, raw);
    let place = &mut raw.controllers[c];
    place.off_bus = false;
    place.recovering = false;
    place.errors.transmit = counts::off_bus(rng);
    Some(())
}

pub fn uninitialised_second_mark(rng: &mut Rng, raw: &mut Raw) -> Option<()> {
    rest_controller(rng, raw).recovering = true;
    Some(())
}

pub fn uninitialised_transmit(rng: &mut Rng, raw: &mut Raw) -> Option<()> {
    rest_controller(rng, raw).errors.transmit = small_count(rng);
    Some(())
}

pub fn uninitialised_receive(rng: &mut Rng, raw: &mut Raw) -> Option<()> {
    rest_controller(rng, raw).errors.receive = small_count(rng);
    Some(())
}

pub fn unused_second_mark(rng: &mut Rng, raw: &mut Raw) -> Option<()> {
    spare_controller(rng, raw)?.recovering = true;
    Some(())
}

pub fn unused_transmit(rng: &mut Rng, raw: &mut Raw) -> Option<()> {
    spare_controller(rng, raw)?.errors.transmit = small_count(rng);
    Some(())
}

pub fn unused_receive(rng: &mut Rng, raw: &mut Raw) -> Option<()> {
    spare_controller(rng, raw)?.errors.receive = small_count(rng);
    Some(())
}

/// A count that is not zero and that any configured controller could have.
fn small_count(rng: &mut Rng) -> u32 {
    rng.pick([1, 2, 127, 128, 255])
}

#[cfg(test)]
mod tests {
    use super::super::rules::Break;
    use super::super::states;
    use super::*;

    /// Clears the second mark, or sets the counts to zero, in every place.
    fn mended(raw: &Raw, mark: bool, transmit: bool, receive: bool) -> Raw {
        let mut raw = raw.clone();
        for place in &mut raw.controllers {
            place.recovering &= !mark;
            if transmit {
                place.errors.transmit = 0;
            }
            if receive {
                place.errors.receive = 0;
            }
        }
        raw
    }

    #[test]
    fn nothing_else_is_wrong() {
        let breaks: [(Break, [bool; 3]); 10] = [
            // Counts of other controllers may stand by their second marks.
            (second_mark, [true, true, false]),
            (transmit_too_large, [false, true, false]),
            (receive_too_large, [false, false, true]),
            (transmit_without_mark, [false, true, false]),
            (uninitialised_second_mark, [true, false, false]),
            (uninitialised_transmit, [false, true, false]),
            (uninitialised_receive, [false, false, true]),
            (unused_second_mark, [true, true, false]),
            (unused_transmit, [false, true, false]),
            (unused_receive, [false, false, true]),
        ];
        let mut rng = Rng::new(1);
        for (number, (breaks, [mark, transmit, receive])) in breaks.into_iter().enumerate() {
            let mut broken = 0;
            for _ in 0..500 {
                let mut raw = states::configured(&mut rng);
                if breaks(&mut rng, &mut raw).is_some() {
                    broken += 1;
                    assert!(raw.sound().is_none(), "{number}");
                    assert!(mended(&raw, mark, transmit, receive).sound().is_some(), "{number}");
                }
            }
            assert!(broken > 100, "{number}: {broken} of 500");
        }
    }
}
