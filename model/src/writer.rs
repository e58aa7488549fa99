//! The writer of configuration bytes, of both versions (02, Q-2).

use crate::config::{Config, Kind, ObjectConfig};
use crate::outcome::Reason;
use crate::version::Version;

impl Config {
    /// Writes this configuration in a version and answers how many bytes that are.
    /// 9 for what the version cannot say, then 32 for a buffer that is too short;
    /// both leave it unchanged. Bytes past the last one written stay.
    pub fn write(&self, version: u32, buffer: &mut [u8]) -> Result<usize, Reason> {
        let version = Version::of(version).filter(|&version| self.can_be_said(version));
        let bytes = self.bytes(version.ok_or(Reason::InitFailed)?);
        let place = buffer.get_mut(..bytes.len()).ok_or(Reason::ShortSheet)?;
        place.copy_from_slice(&bytes);
        Ok(bytes.len())
    }

    /// True if some bytes of this version say this configuration: it is one that
    /// Init accepts, and in version 1 each sending object is its own pool.
    fn can_be_said(&self, version: Version) -> bool {
        let own = |(object, config): (usize, &ObjectConfig)| {
            config.kind == Kind::Receiving || usize::from(config.pool) == object
        };
        self.is_acceptable()
            && (version == Version::Two || self.objects().iter().enumerate().all(own))
    }

    /// The header, then the records.
    fn bytes(&self, version: Version) -> Vec<u8> {
        let mut bytes = version.start().to_vec();
        bytes.extend([self.controllers() as u8, self.objects().len() as u8, 0]);
        for object in self.objects() {
            bytes.extend(object.record(version));
        }
        bytes
    }
}

impl ObjectConfig {
    /// The record of 12 bytes of an acceptable object.
    fn record(&self, version: Version) -> [u8; 12] {
        let mut record = [0; 12];
        record[..4].copy_from_slice(&[
            self.controller,
            self.kind as u8,
            self.payload,
            self.padding,
        ]);
        record[4..8].copy_from_slice(&self.code.to_be_bytes());
        record[8..].copy_from_slice(&self.mask.to_be_bytes());
        if version == Version::Two && self.kind == Kind::Sending {
            record[7] = self.pool;
        }
        record
    }
}

#[cfg(test)]
mod tests {
    use super::*;
    use crate::limits::OBJECTS;
    use crate::nights::configs;
    use crate::nights::rng::Rng;

    /// What is written into a buffer with room to spare.
    fn written(config: &Config, version: u32) -> Result<Vec<u8>, Reason> {
        let mut buffer = vec![0xEE; 400];
        let length = config.write(version, &mut buffer);
        assert!(buffer[length.unwrap_or(0)..].iter().all(|&byte| byte == 0xEE), "bytes past it");
        length.map(|length| buffer[..length].to_vec())
    }

    #[test]
    fn what_was_read_is_written_byte_for_byte() {
        let mut rng = Rng::new(1);
        let mut read = 0;
        for turn in 0..800 {
            let bytes =
                if turn % 2 == 0 { configs::good(&mut rng) } else { configs::broken(&mut rng) };
            let Some((version, config)) = Config::read_with_version(&bytes) else {
                continue;
            };
            assert_eq!(written(&config, version as u32), Ok(bytes));
            read += 1;
        }
        assert!(read > 400, "{read} of 800 are read");
    }

    #[test]
    fn what_was_written_is_read() {
        let mut rng = Rng::new(2);
        let (mut both, mut two) = (0, 0);
        for _ in 0..400 {
            let config = Config::read(&configs::good(&mut rng)).expect("a good one");
            let own = config.objects().iter().enumerate().all(|(object, config)| {
                config.kind == Kind::Receiving || usize::from(config.pool) == object
            });
            let bytes = written(&config, 2).expect("version 2 can say all");
            assert_eq!(bytes.len(), 8 + 12 * config.objects().len());
            assert_eq!(Config::read_with_version(&bytes), Some((Version::Two, config.clone())));
            match written(&config, 1) {
                Ok(bytes) => {
                    let read = Config::read_with_version(&bytes);
                    assert_eq!(read, Some((Version::One, config.clone())));
                    assert!(own);
                    both += 1;
                }
                Err(reason) => {
                    assert_eq!((reason, own), (Reason::InitFailed, false));
                    two += 1;
                }
            }
        }
        assert!(both > 80 && two > 80, "{both} in both versions, {two} in version 2 alone");
    }

    #[test]
    fn other_versions_and_bad_configurations_are_9() {
        let mut rng = Rng::new(3);
        let config = Config::read(&configs::good(&mut rng)).expect("a good one");
        for version in [0, 3, 4, 255, 256, 257, 258, 65_537, 65_538, u32::MAX] {
            assert_eq!(written(&config, version), Err(Reason::InitFailed), "{version}");
        }
        let rest = ObjectConfig::default();
        let sending = ObjectConfig { payload: 8, ..rest };
        let of = |controllers, objects, first: &[ObjectConfig]| {
            let mut places = [rest; OBJECTS];
            places[..first.len()].copy_from_slice(first);
            Config::of(controllers, objects, places)
        };
        for (config, wrong) in [
            (Config::default(), "nothing is configured"),
            (of(5, 0, &[]), "controllers"),
            (of(1, 33, &[]), "objects"),
            (of(1, 255, &[]), "objects"),
            (of(1, 0, &[sending]), "an unused place not at rest"),
            (of(1, 0, &[ObjectConfig { pool: 1, ..rest }]), "an unused place with a pool"),
            (of(1, 1, &[ObjectConfig { pool: 32, ..sending }]), "a pool number"),
            (of(1, 1, &[ObjectConfig { payload: 9, ..sending }]), "a payload"),
            (of(1, 1, &[ObjectConfig { code: 1, ..sending }]), "a code where it sends"),
            (of(1, 2, &[sending, ObjectConfig { padding: 1, ..sending }]), "two paddings"),
        ] {
            for version in [1, 2] {
                assert_eq!(written(&config, version), Err(Reason::InitFailed), "{wrong}");
            }
        }
    }

    #[test]
    fn a_short_buffer_is_32_after_9_and_stays() {
        let place = ObjectConfig { payload: 8, pool: 7, ..ObjectConfig::default() };
        let mut places = [ObjectConfig::default(); OBJECTS];
        places[..2].fill(place);
        let config = Config::of(1, 2, places);
        for room in 0..40 {
            let mut buffer = vec![0xEE; room];
            let before = buffer.clone();
            assert_eq!(config.write(1, &mut buffer), Err(Reason::InitFailed));
            assert_eq!(buffer, before);
            if room < 32 {
                assert_eq!(config.write(2, &mut buffer), Err(Reason::ShortSheet));
                assert_eq!(buffer, before);
            } else {
                assert_eq!(config.write(2, &mut buffer), Ok(32));
                assert_eq!(buffer[32..], before[32..]);
            }
        }
    }
}
