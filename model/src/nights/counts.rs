//! Random error counts, the edges more often.

use super::rng::Rng;
use crate::error_state::ErrorCounts;

/// A count that is active.
pub fn active(rng: &mut Rng) -> u32 {
    edge_or_between(rng, [0, 1, 126, 127], 0, 127)
}

/// A count that is passive and that both counts can have on the bus.
pub fn passive(rng: &mut Rng) -> u32 {
    edge_or_between(rng, [128, 129, 254, 255], 128, 255)
}

/// A count that leads off the bus if it is the transmit count.
pub fn off_bus(rng: &mut Rng) -> u32 {
    edge_or_between(rng, [256, 257, 65_534, 65_535], 256, 65_535)
}

/// A number that is no count.
pub fn too_large(rng: &mut Rng) -> u32 {
    match rng.below(4) {
        0 => 65_536,
        1 => rng.pick([65_537, 65_663, 65_664, 65_792, 131_071, 1 << 31, u32::MAX]),
        _ => rng.word() | 1 << rng.between(16, 31),
    }
}

/// A count, whatever it leads to.
pub fn any(rng: &mut Rng) -> u32 {
    match rng.below(8) {
        0..=2 => active(rng),
        3..=5 => passive(rng),
        _ => off_bus(rng),
    }
}

/// The counts of a controller that stays on the bus: half of them are active; of the
/// others either count alone, or both, is above the limit.
pub fn on_bus(rng: &mut Rng) -> ErrorCounts {
    let (transmit, receive) = match rng.below(6) {
        0..=2 => (active(rng), active(rng)),
        3 => (passive(rng), active(rng)),
        4 => (active(rng), raised(rng)),
        _ => (passive(rng), raised(rng)),
    };
    ErrorCounts { transmit, receive }
}

/// A receive count that is passive: it may be as large as counts can be.
pub fn raised(rng: &mut Rng) -> u32 {
    if rng.percent(60) {
        passive(rng)
    } else {
        off_bus(rng)
    }
}

/// The counts of a controller that goes off the bus by them.
pub fn leaving(rng: &mut Rng) -> ErrorCounts {
    ErrorCounts { transmit: off_bus(rng), receive: any(rng) }
}

/// Counts of which either number, or both, is none.
pub fn refused(rng: &mut Rng) -> ErrorCounts {
    let (one, other) = (too_large(rng), any(rng));
    match rng.below(3) {
        0 => ErrorCounts { transmit: one, receive: other },
        1 => ErrorCounts { transmit: other, receive: one },
        _ => ErrorCounts { transmit: one, receive: too_large(rng) },
    }
}

fn edge_or_between<const N: usize>(
    rng: &mut Rng,
    edges: [u32; N],
    least: usize,
    most: usize,
) -> u32 {
    if rng.percent(60) {
        rng.pick(edges)
    } else {
        rng.between(least, most) as u32
    }
}

#[cfg(test)]
mod tests {
    use super::*;
    use crate::error_state::ErrorState::{self, Active, BusOff, Passive};

    /// How many of 1,000 counts made so are active, passive and bus-off.
    fn states(make: fn(&mut Rng) -> ErrorCounts) -> [usize; 3] {
        let mut rng = Rng::new(1);
        let mut met = [0; 3];
        for _ in 0..1000 {
            let counts = make(&mut rng);
            assert!(counts.can_be_counted(), "{counts:?}");
            met[counts.state().number() as usize] += 1;
        }
        met
    }

    #[test]
    fn counts_are_what_they_are_named_for() {
        let met = states(on_bus);
        assert!(met[0] > 400 && met[1] > 400 && met[2] == 0, "{met:?}");
        assert_eq!(states(leaving), [0, 0, 1000]);
        let alone = |state: ErrorState, make: fn(&mut Rng) -> u32| {
            let mut rng = Rng::new(2);
            (0..1000).all(|_| {
                let counts = ErrorCounts { transmit: make(&mut rng), receive: 0 };
                counts.state() == state && counts.can_be_counted()
            })
        };
        assert!(alone(Active, active) && alone(Passive, passive) && alone(BusOff, off_bus));
    }

    #[test]
    fn a_refused_number_is_on_either_side() {
        let mut rng = Rng::new(3);
        let refused: Vec<ErrorCounts> = (0..1000).map(|_| refused(&mut rng)).collect();
        assert!(refused.iter().all(|counts| !counts.can_be_counted()));
        for (transmit, receive) in [(true, false), (false, true), (true, true)] {
            let like = |counts: &&ErrorCounts| {
                (counts.transmit > 65_535, counts.receive > 65_535) == (transmit, receive)
            };
            assert!(refused.iter().filter(like).count() > 200);
        }
    }
}
