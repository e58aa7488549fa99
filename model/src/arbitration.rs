//! The bench's choice of who sends next on a controller (02, Q-2).

use crate::identifier::Identifier;
use crate::mailbox;
use crate::outcome::{Outcome, Reason};
use crate::state::{check_memory, State};

/// How a waiting frame stands against others, the first difference counts and the
/// lower wins: base identifier, standard before extended, the lower 18 bits of an
/// extended one, the object.
#[derive(Debug, PartialEq, Eq, PartialOrd, Ord)]
struct Rank {
    base: u32,
    extended: bool,
    lower: u32,
    object: usize,
}

impl Rank {
    /// Bits 10 to 0 of a standard identifier are its base, bits 28 to 18 of an
    /// extended one. No other bits count: the word may be anything.
    fn of(object: usize, identifier: Identifier) -> Rank {
        let word = identifier.0;
        if identifier.is_extended() {
            Rank { base: word >> 18 & 0x7FF, extended: true, lower: word & 0x3_FFFF, object }
        } else {
            Rank { base: word & 0x7FF, extended: false, lower: 0, object }
        }
    }
}

impl State {
    /// Who sends next: the winner among the occupied objects of this controller
    /// that are not gone; none if there is none or the controller is off-bus. It
    /// takes memory but no sheet, changes nothing and writes no record.
    pub fn next_to_send(&self, controller: u32, memory: &[u8]) -> Outcome<Option<u32>> {
        Outcome::silent(self.try_next(controller, memory))
    }

    /// 41, 33, then 5, 4.
    fn try_next(&self, controller: u32, memory: &[u8]) -> Result<Option<u32>, Reason> {
        self.check_sound()?;
        check_memory(memory)?;
        self.check_initialised()?;
        let controller = self.check_controller(controller)?;
        if self.controllers[controller].off_bus {
            return Ok(None);
        }
        let ranks = self.waiting(controller).map(|object| {
            let identifier = Identifier(mailbox::identifier(memory, object));
            Rank::of(object, identifier)
        });
        Ok(ranks.min().map(|rank| rank.object as u32))
    }

    /// The objects of a controller that compete, rising.
    fn waiting(&self, controller: usize) -> impl Iterator<Item = usize> + '_ {
        let objects = self.config.objects().iter().zip(&self.objects).enumerate();
        let waits = objects.filter(move |(_, (config, place))| {
            usize::from(config.controller) == controller && place.occupied && !place.gone
        });
        waits.map(|(object, _)| object)
    }
}

#[cfg(test)]
mod tests {
    use super::*;
    use crate::config::Config;
    use crate::limits::{MEMORY_BYTES, OBJECT_BYTES};
    use crate::mode::Mode;
    use crate::nights::rng::Rng;

    /// Two controllers, STARTED: objects 0 to 7 send on 0, 8 and 9 on 1.
    fn state() -> State {
        let mut bytes = b"CHB\x00\x02\x02\x0a\x00".to_vec();
        for object in 0..10 {
            let controller = u8::from(object > 7);
            bytes.extend([controller, 0, 64, 0, 0, 0, 0, 30 + controller, 0, 0, 0, 0]);
        }
        let mut state = State::configured(Config::read(&bytes).expect("good bytes"));
        state.controllers[0].mode = Mode::Started;
        state.controllers[1].mode = Mode::Started;
        state
    }

    /// Memory with these identifier words.
    fn memory(words: &[u32]) -> Vec<u8> {
        let mut memory = vec![0xEE; MEMORY_BYTES];
        for (place, word) in memory.chunks_exact_mut(OBJECT_BYTES).zip(words) {
            place[..4].copy_from_slice(&word.to_be_bytes());
        }
        memory
    }

    /// Who sends next on controller 0 of these words, all waiting in their order.
    fn winner(words: &[u32]) -> Option<u32> {
        let mut state = state();
        for place in &mut state.objects[..words.len()] {
            place.occupied = true;
        }
        state.next_to_send(0, &memory(words)).result.expect("a choice")
    }

    #[test]
    fn the_order_of_the_paper() {
        assert_eq!(winner(&[]), None);
        assert_eq!(winner(&[0x7FF]), Some(0));
        assert_eq!(winner(&[2, 1, 3]), Some(1), "the lower identifier");
        assert_eq!(winner(&[1, 1, 1]), Some(0), "the lower object");
        assert_eq!(winner(&[0x8004_0000, 1]), Some(1), "standard before extended");
        assert_eq!(winner(&[0x8003_FFFF, 1]), Some(0), "base 0 before base 1");
        assert_eq!(winner(&[2, 0x8004_0000]), Some(1), "base 1 before base 2");
        assert_eq!(winner(&[0x9FFF_FFFF, 0x7FF]), Some(1));
        assert_eq!(winner(&[0x8004_0001, 0x8004_0000]), Some(1), "the lower 18 bits");
        assert_eq!(winner(&[0x8007_FFFF, 0x8008_0000]), Some(0));
        assert_eq!(winner(&[0x8004_0000, 0x8004_0000]), Some(0));
    }

    #[test]
    fn other_bits_do_not_count() {
        assert_eq!(winner(&[0x4000_0001, 2]), Some(0), "the FD bit");
        assert_eq!(winner(&[0x4000_0001, 1]), Some(0));
        assert_eq!(winner(&[1, 0x4000_0001]), Some(0));
        assert_eq!(winner(&[0x7FFF_F801, 2]), Some(0), "bits 30 to 11 of a standard one");
        assert_eq!(winner(&[2, 0x7FFF_F801]), Some(1));
        assert_eq!(winner(&[0xE004_0000, 0x8004_0001]), Some(0), "bits 30 and 29");
        assert_eq!(winner(&[0x8004_0001, 0xE004_0000]), Some(1));
    }

    #[test]
    fn who_competes() {
        let mut state = state();
        let memory = memory(&[5, 4, 3, 2, 1, 0, 0, 0, 9, 8]);
        let next = |state: &State, controller| state.next_to_send(controller, &memory).result;
        for object in [0, 2, 4, 8, 9] {
            state.objects[object].occupied = true;
        }
        assert_eq!(next(&state, 0), Ok(Some(4)));
        state.objects[4].gone = true;
        assert_eq!(next(&state, 0), Ok(Some(2)), "gone objects do not compete");
        assert_eq!(next(&state, 1), Ok(Some(9)));
        state.controllers[1].off_bus = true;
        assert_eq!(next(&state, 1), Ok(None), "off-bus");
        assert_eq!(next(&state, 0), Ok(Some(2)));
        state.objects[0].gone = true;
        state.objects[2].gone = true;
        assert_eq!(next(&state, 0), Ok(None), "nobody waits");
        assert_eq!(next(&state, 2), Err(Reason::Controller));
        assert_eq!(next(&state, u32::MAX), Err(Reason::Controller));
        assert_eq!(state.next_to_send(9, &memory[1..]).reason(), 33);
        assert_eq!(State::default().next_to_send(0, &memory[1..]).reason(), 33);
        assert_eq!(State::default().next_to_send(0, &memory).reason(), 5);
        state.objects[9].full = true;
        assert_eq!(state.next_to_send(9, &memory[1..]).reason(), 41);
    }

    /// The bits of a frame as they follow each other on the wire: the base
    /// identifier, a recessive bit where more bits follow, and these.
    fn on_the_wire(word: u32) -> Vec<bool> {
        let bit = |bit: u32| word & 1 << bit != 0;
        if bit(31) {
            let base = (18..29).rev().map(bit);
            base.chain([true]).chain((0..18).rev().map(bit)).collect()
        } else {
            (0..11).rev().map(bit).chain([false]).collect()
        }
    }

    /// True if the first of two senders stays on the bus where the other gives way:
    /// one is recessive while the other is dominant.
    fn stays(one: u32, other: u32) -> Option<bool> {
        let (one, other) = (on_the_wire(one), on_the_wire(other));
        let unlike = one.iter().zip(&other).find(|(one, other)| one != other)?;
        Some(!unlike.0)
    }

    #[test]
    fn the_winner_beats_each_other_bit_by_bit() {
        let mut rng = Rng::new(1);
        for _ in 0..1000 {
            let count = rng.between(1, 8);
            let alike = rng.word();
            let words: Vec<u32> = (0..count)
                .map(|_| match rng.below(4) {
                    0 => rng.word(),
                    1 => alike,
                    2 => alike ^ 1 << rng.below(32),
                    _ => 0x8000_0000 | (alike & 0x7FF) << 18 | rng.below(4) as u32,
                })
                .collect();
            let winner = winner(&words).expect("someone waits") as usize;
            for (object, &word) in words.iter().enumerate().filter(|(object, _)| *object != winner)
            {
                let beats = stays(words[winner], word).unwrap_or(winner < object);
                assert!(beats, "{winner} before {object} of {words:08x?}");
            }
        }
    }
}
