//! The rules of a sound state by name, and states that break one of them.

use super::breaks::*;
use super::error_breaks::*;
use super::raw::Raw;
use super::states;
use crate::nights::rng::Rng;

/// Breaks a rule in a state, or finds that this state has no place for it.
pub type Break = fn(&mut Rng, &mut Raw) -> Option<()>;

/// A rule of a sound state.
pub struct Rule {
    /// What is wrong with a state that breaks the rule, in words.
    pub wrong: &'static str,
    breaks: Break,
}

impl Rule {
    /// A state that breaks this rule alone.
    pub fn broken(&self, rng: &mut Rng) -> Raw {
        loop {
            let mut raw = states::configured(rng);
            if (self.breaks)(rng, &mut raw).is_some() {
                return raw;
            }
        }
    }
}

const fn rule(wrong: &'static str, breaks: Break) -> Rule {
    Rule { wrong, breaks }
}

/// Every rule.
pub const RULES: [Rule; 43] = [
    rule("uninitialised, but configured", uninitialised),
    rule("uninitialised, but a count is not zero", uninitialised_count),
    rule("uninitialised, but a controller is not at rest", uninitialised_controller),
    rule("uninitialised, but a second mark stands", uninitialised_second_mark),
    rule("uninitialised, but a transmit count is not zero", uninitialised_transmit),
    rule("uninitialised, but a receive count is not zero", uninitialised_receive),
    rule("uninitialised, but an object's configuration is not at rest", uninitialised_object),
    rule("uninitialised, but an object is not at rest", uninitialised_mailbox),
    rule("initialised with no controller", no_controller),
    rule("more than 4 controllers", controllers_too_many),
    rule("more than 32 objects", objects_too_many),
    rule("an object of a controller that is not there", object_controller),
    rule("a payload that is neither 8 nor 64", payload),
    rule("padding on a receiving object", padding),
    rule("a filter on a sending object", sending_filter),
    rule("code bit 30 or 29 set", code_bits),
    rule("mask bit 31, 30 or 29 set", mask_bits),
    rule("a standard filter with bits above 10", standard_bits),
    rule("a code bit outside the mask", stray_bit),
    rule("a pool number above 31", pool_out_of_range),
    rule("a pool on a receiving object", receiving_pool),
    rule("a pool on an unused object", unused_pool),
    rule("a pool on two controllers", pool_controller),
    rule("a pool with two payloads", pool_payload),
    rule("a pool with two paddings", pool_padding),
    rule("mode 0 on a configured controller", mode_uninit),
    rule("a mode above 3", mode_unknown),
    rule("a request that is not permitted", request),
    rule("a request above 3", request_unknown),
    rule("a mark on a controller that is not STARTED", mark),
    rule("a second mark on a STARTED controller", second_mark),
    rule("a transmit count above 65,535", transmit_too_large),
    rule("a receive count above 65,535", receive_too_large),
    rule("a transmit count above 255 without a mark", transmit_without_mark),
    rule("occupied on a receiving object", occupied_receiving),
    rule("occupied on a controller that is not STARTED", occupied_not_started),
    rule("gone, but not occupied", gone_alone),
    rule("full on a sending object", full_sending),
    rule("an unused controller not at rest", unused_controller),
    rule("a second mark on an unused controller", unused_second_mark),
    rule("a transmit count on an unused controller", unused_transmit),
    rule("a receive count on an unused controller", unused_receive),
    rule("an unused object not at rest", unused_object),
];

#[cfg(test)]
mod tests {
    use super::*;

    #[test]
    fn made_states_are_sound() {
        let mut rng = Rng::new(1);
        assert!((0..2000).all(|_| states::sound(&mut rng).sound().is_some()));
    }

    #[test]
    fn each_broken_rule_is_unsound() {
        let mut rng = Rng::new(1);
        for rule in &RULES {
            let unsound = |_| rule.broken(&mut rng).sound().is_none();
            assert!((0..200).all(unsound), "{}", rule.wrong);
        }
    }

    #[test]
    fn numbers_and_states_say_the_same() {
        let mut rng = Rng::new(2);
        for _ in 0..500 {
            let raw = states::sound(&mut rng);
            assert_eq!(Raw::of(&raw.sound().expect("a sound state")), raw);
        }
    }
}
