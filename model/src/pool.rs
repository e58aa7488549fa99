//! Pools: sending objects behind one handle (02, Q-2).
//!
//! The members of a pool are the sending objects in use with its number. They
//! agree in controller, payload and padding, and the lowest of them names the pool.

use crate::config::{Config, Kind, ObjectConfig};
use crate::limits::OBJECTS;
use crate::outcome::Reason;
use crate::state::State;

impl ObjectConfig {
    /// True if the two may be members of one pool.
    fn agrees_with(&self, other: &ObjectConfig) -> bool {
        self.controller == other.controller
            && self.payload == other.payload
            && self.padding == other.padding
    }
}

impl Config {
    /// The sending objects in use, rising, with their numbers.
    fn sending(&self) -> impl Iterator<Item = (usize, &ObjectConfig)> {
        let objects = self.objects().iter().enumerate();
        objects.filter(|(_, config)| config.kind == Kind::Sending)
    }

    /// The members of a pool, rising.
    pub fn members(&self, pool: u8) -> impl Iterator<Item = usize> + '_ {
        let members = self.sending().filter(move |(_, config)| config.pool == pool);
        members.map(|(object, _)| object)
    }

    /// True if every sending object agrees with the lowest of its pool; a pool
    /// number that is out of range has no such.
    pub(crate) fn pools_agree(&self) -> bool {
        let mut lowest: [Option<&ObjectConfig>; OBJECTS] = [None; OBJECTS];
        self.sending().all(|(_, config)| match lowest.get_mut(usize::from(config.pool)) {
            Some(place) => place.get_or_insert(config).agrees_with(config),
            None => false,
        })
    }
}

impl State {
    /// Reason 2, or the configuration of the object that names a pool: the lowest
    /// of its members, free or not.
    pub(crate) fn check_pool(&self, object: u32) -> Result<ObjectConfig, Reason> {
        let config = self.check_sending(object)?;
        let lowest = self.config.members(config.pool).next();
        (lowest == Some(object as usize)).then_some(config).ok_or(Reason::Handle)
    }

    /// Reason 36, or the lowest free member of a pool. A gone member is still
    /// occupied.
    pub(crate) fn check_free(&self, pool: u8) -> Result<usize, Reason> {
        let mut members = self.config.members(pool);
        members.find(|&object| !self.objects[object].occupied).ok_or(Reason::Occupied)
    }
}

#[cfg(test)]
mod tests {
    use super::*;
    use crate::nights::rng::Rng;

    /// Objects of which many have a pool in common; few of these agree.
    fn crowd(rng: &mut Rng) -> Config {
        let count = rng.below(6);
        let mut places = [ObjectConfig::default(); OBJECTS];
        for place in &mut places[..count] {
            let kind = if rng.percent(80) { Kind::Sending } else { Kind::Receiving };
            *place = ObjectConfig {
                controller: rng.below(2) as u8,
                kind,
                pool: if kind == Kind::Sending { rng.pick([0, 1, 31]) } else { 0 },
                payload: if rng.percent(70) { 8 } else { 64 },
                padding: if kind == Kind::Sending { rng.pick([0, 0, 0, 1]) } else { 0 },
                ..ObjectConfig::default()
            };
        }
        Config::of(2, count as u8, places)
    }

    #[test]
    fn to_agree_with_the_lowest_is_to_agree_two_by_two() {
        let mut rng = Rng::new(1);
        let (mut good, mut bad) = (0, 0);
        for _ in 0..2000 {
            let config = crowd(&mut rng);
            let pairwise = config.sending().all(|(_, one)| {
                config.sending().all(|(_, other)| one.pool != other.pool || one.agrees_with(other))
            });
            assert_eq!(config.is_acceptable(), pairwise, "{:?}", config.objects());
            *(if pairwise { &mut good } else { &mut bad }) += 1;
        }
        assert!(good > 250 && bad > 250, "{good} good ones, {bad} bad ones");
    }

    #[test]
    fn members_rise_and_are_sending_objects_in_use() {
        let mut rng = Rng::new(2);
        for _ in 0..500 {
            let config = crowd(&mut rng);
            for pool in [0, 1, 2, 31, 32, 255] {
                let members: Vec<usize> = config.members(pool).collect();
                assert!(members.is_sorted_by(|lower, higher| lower < higher));
                for (object, place) in config.objects().iter().enumerate() {
                    let member = place.kind == Kind::Sending && place.pool == pool;
                    assert_eq!(members.contains(&object), member);
                }
            }
        }
    }
}
