//! Configuration bytes and what they say ("Configuration bytes"; 02, Q-1 and Q-2).

use crate::identifier::{EXTENDED, EXTENDED_ONLY, FD, SPARE};
use crate::limits::{CONTROLLERS, OBJECTS};
use crate::version::Version;

const START_BYTES: usize = 5;
const HEADER_BYTES: usize = 8;
const RECORD_BYTES: usize = 12;

/// Whether an object sends or receives.
#[derive(Clone, Copy, Debug, Default, PartialEq, Eq)]
pub enum Kind {
    #[default]
    Sending = 0,
    Receiving = 1,
}

/// The configuration of one object; all zero is the place at rest.
#[derive(Clone, Copy, Debug, Default, PartialEq, Eq)]
pub struct ObjectConfig {
    pub controller: u8,
    pub kind: Kind,
    /// The pool of a sending object; 0 where it receives.
    pub pool: u8,
    pub payload: u8,
    pub padding: u8,
    pub code: u32,
    pub mask: u32,
}

impl ObjectConfig {
    /// Decodes the record of 12 bytes of this object; only an unknown kind cannot
    /// be decoded.
    fn decode(record: &[u8], version: Version, object: u8) -> Option<ObjectConfig> {
        let kind = match record[1] {
            0 => Kind::Sending,
            1 => Kind::Receiving,
            _ => return None,
        };
        let code = big_endian(&record[4..8]);
        let (pool, code) = match (kind, version) {
            (Kind::Sending, Version::One) => (object, code),
            (Kind::Sending, Version::Two) => (record[7], code & !0xFF),
            (Kind::Receiving, _) => (0, code),
        };
        Some(ObjectConfig {
            controller: record[0],
            kind,
            pool,
            payload: record[2],
            padding: record[3],
            code,
            mask: big_endian(&record[8..12]),
        })
    }

    /// The rules for one record, given the number of controllers.
    fn is_acceptable(&self, controllers: u8) -> bool {
        let own_rules = match self.kind {
            Kind::Sending => usize::from(self.pool) < OBJECTS && self.code == 0 && self.mask == 0,
            Kind::Receiving => self.pool == 0 && self.padding == 0 && self.filter_is_acceptable(),
        };
        self.controller < controllers && matches!(self.payload, 8 | 64) && own_rules
    }

    /// Code bits 30 and 29 zero; mask bits 31 to 29 zero; if code bit 31 is
    /// clear, bits 28 to 11 of code and mask zero; no stray bit.
    fn filter_is_acceptable(&self) -> bool {
        let standard = self.code & EXTENDED == 0;
        self.code & (FD | SPARE) == 0
            && self.mask & (EXTENDED | FD | SPARE) == 0
            && !(standard && (self.code | self.mask) & EXTENDED_ONLY != 0)
            && !self.has_stray_bit()
    }

    /// bits 28 to 0 of the code have a one where the mask has a zero.
    fn has_stray_bit(&self) -> bool {
        let bits = !(EXTENDED | FD | SPARE);
        self.code & !self.mask & bits != 0
    }
}

/// An accepted configuration; all zero is the configuration at rest.
#[derive(Clone, Debug, Default, PartialEq, Eq)]
pub struct Config {
    controllers: u8,
    objects: u8,
    places: [ObjectConfig; OBJECTS],
}

impl Config {
    /// Reads configuration bytes; `None` is a bad configuration (reason 9).
    pub fn read(bytes: &[u8]) -> Option<Config> {
        Config::read_with_version(bytes).map(|(_, config)| config)
    }

    /// The same, with the version in which the bytes say it.
    pub fn read_with_version(bytes: &[u8]) -> Option<(Version, Config)> {
        let (header, records) = bytes.split_at_checked(HEADER_BYTES)?;
        let version = Version::of_start(&header[..START_BYTES])?;
        let (controllers, objects) = (header[5], header[6]);
        if header[7] != 0 || records.len() != RECORD_BYTES * usize::from(objects) {
            return None;
        }
        let mut config = Config { controllers, objects, ..Config::default() };
        let places = (0..).zip(&mut config.places);
        for ((object, place), record) in places.zip(records.chunks_exact(RECORD_BYTES)) {
            *place = ObjectConfig::decode(record, version, object)?;
        }
        config.is_acceptable().then_some((version, config))
    }

    /// One of these numbers, acceptable or not.
    pub fn of(controllers: u8, objects: u8, places: [ObjectConfig; OBJECTS]) -> Config {
        Config { controllers, objects, places }
    }

    /// One that Init accepts: counts in range, every record good, pools that
    /// agree, unused places at rest.
    pub fn is_acceptable(&self) -> bool {
        let count = usize::from(self.objects);
        (1..=CONTROLLERS).contains(&usize::from(self.controllers))
            && count <= OBJECTS
            && self.places[..count].iter().all(|place| place.is_acceptable(self.controllers))
            && self.pools_agree()
            && self.places[count..].iter().all(|place| *place == ObjectConfig::default())
    }

    /// Controllers in use.
    pub fn controllers(&self) -> usize {
        usize::from(self.controllers)
    }

    /// Objects in use, in rising order.
    pub fn objects(&self) -> &[ObjectConfig] {
        &self.places[..usize::from(self.objects)]
    }

    /// The object with this number, if it is configured.
    pub fn object(&self, object: u32) -> Option<&ObjectConfig> {
        self.objects().get(usize::try_from(object).ok()?)
    }
}

/// Numbers of several bytes are big-endian everywhere.
fn big_endian(bytes: &[u8]) -> u32 {
    bytes.iter().fold(0, |number, &byte| number << 8 | u32::from(byte))
}

#[cfg(test)]
mod tests {
    use super::*;

    /// The paper's configuration K.
    const K: [u8; 32] = [
        0x43, 0x48, 0x42, 0x00, 0x01, 0x01, 0x02, 0x00, //
        0x00, 0x00, 0x40, 0xCC, 0, 0, 0, 0, 0, 0, 0, 0, //
        0x00, 0x01, 0x08, 0x00, 0x00, 0x00, 0x01, 0x20, 0x00, 0x00, 0x07, 0xFF,
    ];

    fn accepted(bytes: &[u8]) -> bool {
        Config::read(bytes).is_some()
    }

    /// K with the byte at `at` replaced.
    fn k_with(at: usize, byte: u8) -> Vec<u8> {
        let mut bytes = K.to_vec();
        bytes[at] = byte;
        bytes
    }

    /// One object on one controller, receiving, with this filter.
    fn receiving(code: u32, mask: u32) -> Vec<u8> {
        let mut bytes = vec![0x43, 0x48, 0x42, 0, 1, 1, 1, 0, 0, 1, 64, 0];
        bytes.extend(code.to_be_bytes());
        bytes.extend(mask.to_be_bytes());
        bytes
    }

    /// A header for these counts and as many plain sending records.
    fn counts(controllers: u8, objects: u8) -> Vec<u8> {
        let mut bytes = vec![0x43, 0x48, 0x42, 0, 1, controllers, objects, 0];
        for _ in 0..objects {
            bytes.extend([0, 0, 8, 0x55, 0, 0, 0, 0, 0, 0, 0, 0]);
        }
        bytes
    }

    #[test]
    fn k_is_read_as_written() {
        let config = Config::read(&K).expect("K is accepted");
        assert_eq!(config.controllers(), 1);
        assert_eq!(
            config.objects(),
            [
                ObjectConfig { payload: 64, padding: 0xCC, ..ObjectConfig::default() },
                ObjectConfig {
                    kind: Kind::Receiving,
                    payload: 8,
                    code: 0x120,
                    mask: 0x7FF,
                    ..ObjectConfig::default()
                },
            ]
        );
        assert!(config.object(1).is_some());
        assert!(config.object(2).is_none());
        assert!(config.object(u32::MAX).is_none());
    }

    #[test]
    fn every_wrong_byte_of_the_fixed_header_is_bad() {
        for at in [0, 1, 2, 3, 4, 7] {
            for byte in 0..=255 {
                // K has one sending object: pool 0 in both versions.
                let good = byte == K[at] || at == 4 && byte == 2;
                assert_eq!(accepted(&k_with(at, byte)), good, "byte {at} = {byte}");
            }
        }
    }

    #[test]
    fn other_versions_are_bad() {
        for version in 0..=u16::MAX {
            let [high, low] = version.to_be_bytes();
            let mut bytes = K.to_vec();
            bytes[3..5].copy_from_slice(&[high, low]);
            assert_eq!(accepted(&bytes), version == 1 || version == 2, "version {version}");
        }
    }

    #[test]
    fn one_to_four_controllers() {
        for controllers in 0..=255 {
            let good = (1..=4).contains(&controllers);
            assert_eq!(accepted(&counts(controllers, 0)), good, "{controllers} controllers");
            assert_eq!(accepted(&counts(controllers, 3)), good, "{controllers} controllers");
        }
    }

    #[test]
    fn zero_to_32_objects() {
        for objects in 0..=255 {
            assert_eq!(accepted(&counts(1, objects)), objects <= 32, "{objects} objects");
        }
    }

    #[test]
    fn the_total_is_exactly_8_plus_12n() {
        for length in 0..K.len() {
            assert!(!accepted(&K[..length]), "cut to {length}");
        }
        for extra in 1..=24 {
            let mut bytes = K.to_vec();
            bytes.resize(K.len() + extra, 0);
            assert!(!accepted(&bytes), "longer by {extra}");
        }
        assert!(!accepted(&k_with(6, 1)));
        assert!(!accepted(&k_with(6, 3)));
    }

    #[test]
    fn the_controller_is_below_the_count() {
        for count in 1..=4 {
            for controller in 0..=255 {
                let mut bytes = counts(count, 2);
                bytes[20] = controller;
                assert_eq!(accepted(&bytes), controller < count);
            }
        }
    }

    #[test]
    fn kind_is_0_or_1() {
        for kind in 0..=255 {
            let mut bytes = receiving(0, 0);
            bytes[9] = kind;
            assert_eq!(accepted(&bytes), kind <= 1, "kind {kind}");
        }
    }

    #[test]
    fn payload_is_8_or_64() {
        for payload in 0..=255 {
            for at in [10, 22] {
                assert_eq!(accepted(&k_with(at, payload)), payload == 8 || payload == 64);
            }
        }
    }

    #[test]
    fn only_sending_objects_have_a_padding_value() {
        for padding in 0..=255 {
            assert!(accepted(&k_with(11, padding)));
            assert_eq!(accepted(&k_with(23, padding)), padding == 0);
        }
    }

    #[test]
    fn sending_objects_have_no_filter() {
        for at in 12..20 {
            for bit in 0..8 {
                assert!(!accepted(&k_with(at, 1 << bit)), "byte {at} bit {bit}");
            }
        }
    }

    /// Sending objects of version 2: controller, payload, padding and pool of each.
    fn pooled(objects: &[[u8; 4]]) -> Vec<u8> {
        let mut bytes = vec![0x43, 0x48, 0x42, 0, 2, 2, objects.len() as u8, 0];
        for &[controller, payload, padding, pool] in objects {
            bytes.extend([controller, 0, payload, padding, 0, 0, 0, pool, 0, 0, 0, 0]);
        }
        bytes
    }

    /// The pool of each object in use.
    fn pools(bytes: &[u8]) -> Vec<u8> {
        let config = Config::read(bytes).expect("good bytes");
        config.objects().iter().map(|object| object.pool).collect()
    }

    #[test]
    fn in_version_1_each_sending_object_is_its_own_pool() {
        assert_eq!(pools(&counts(4, 32)), (0..32).collect::<Vec<u8>>());
        assert_eq!(pools(&K), [0, 0]);
        let mut bytes = counts(1, 3);
        bytes[8 + 12 + 1] = 1;
        bytes[8 + 12 + 3] = 0;
        assert_eq!(pools(&bytes), [0, 0, 2], "a receiving object has pool 0");
    }

    #[test]
    fn in_version_2_the_last_byte_of_the_code_is_the_pool() {
        for pool in 0..=255 {
            assert_eq!(accepted(&pooled(&[[0, 8, 0, pool]])), pool < 32, "pool {pool} of 1");
        }
        let sparse = pooled(&[[0, 8, 1, 31], [1, 64, 2, 7], [0, 8, 1, 31], [0, 8, 1, 0]]);
        assert_eq!(pools(&sparse), [31, 7, 31, 0]);
        let mut k = k_with(4, 2);
        assert_eq!(pools(&k), [0, 0]);
        k[15] = 9;
        assert_eq!(pools(&k), [9, 0]);
        assert_eq!(Config::read(&k).map(|config| config.places[0].code), Some(0));
    }

    #[test]
    fn other_code_and_mask_bytes_of_a_sending_object_are_zero_in_version_2() {
        for at in (12..15).chain(16..20) {
            for bit in 0..8 {
                let mut bytes = k_with(at, 1 << bit);
                bytes[4] = 2;
                assert!(!accepted(&bytes), "byte {at} bit {bit}");
            }
        }
    }

    #[test]
    fn members_of_a_pool_agree_in_controller_payload_and_padding() {
        let with = |other: [u8; 4]| accepted(&pooled(&[[1, 8, 5, 3], [0, 64, 9, 4], other]));
        assert!(with([1, 8, 5, 3]));
        assert!(!with([0, 8, 5, 3]), "one pool number on two controllers");
        assert!(!with([1, 64, 5, 3]), "two payloads");
        assert!(!with([1, 8, 6, 3]), "two paddings");
        assert!(with([0, 64, 9, 4]));
        assert!(!with([1, 8, 5, 4]));
        assert!(with([0, 64, 6, 5]));
        // Version 1 bytes that are read as version 2 have all objects in pool 0.
        let mut all = counts(4, 32);
        all[4] = 2;
        assert!(accepted(&all));
        all[8 + 12 * 31 + 3] ^= 1;
        assert!(!accepted(&all));
        all[4] = 1;
        assert!(accepted(&all));
    }

    #[test]
    fn receiving_objects_are_in_no_pool() {
        let mut bytes = pooled(&[[0, 8, 5, 0], [0, 8, 5, 0]]);
        bytes.extend([1, 1, 64, 0, 0, 0, 1, 0x20, 0, 0, 7, 0xFF]);
        bytes[6] = 3;
        assert_eq!(pools(&bytes), [0, 0, 0]);
        assert_eq!(Config::read(&bytes).map(|config| config.places[2].code), Some(0x120));
    }

    #[test]
    fn both_versions_say_the_same_where_pools_are_own_numbers() {
        let one = counts(4, 32);
        let mut two = one.clone();
        two[4] = 2;
        for object in 0..32 {
            two[8 + 12 * object + 7] = object as u8;
        }
        let read = |bytes| Config::read_with_version(bytes).expect("good bytes");
        assert_eq!(read(&one).1, read(&two).1);
        assert_eq!((read(&one).0, read(&two).0), (Version::One, Version::Two));
    }

    #[test]
    fn standard_filters_use_bits_10_to_0() {
        for bit in 0..32 {
            let both = receiving(1 << bit, 1 << bit);
            assert_eq!(accepted(&both), bit <= 10, "code and mask bit {bit}");
            assert_eq!(accepted(&receiving(0, 1 << bit)), bit <= 10, "mask bit {bit}");
        }
        assert!(accepted(&receiving(0x7FF, 0x7FF)));
    }

    #[test]
    fn extended_filters_use_bits_28_to_0() {
        for bit in 0..31 {
            let both = receiving(EXTENDED | 1 << bit, 1 << bit);
            assert_eq!(accepted(&both), bit <= 28, "code and mask bit {bit}");
        }
        for bit in 0..32 {
            assert_eq!(accepted(&receiving(EXTENDED, 1 << bit)), bit <= 28, "mask bit {bit}");
        }
        assert!(accepted(&receiving(EXTENDED, 0)), "bit 31 of a code is not masked");
        assert!(accepted(&receiving(0x9FFF_FFFF, 0x1FFF_FFFF)));
    }

    #[test]
    fn a_code_has_no_bit_outside_its_mask() {
        for (kind, bits) in [(0, 0x7FF), (EXTENDED, 0x1FFF_FFFF)] {
            assert!(accepted(&receiving(kind, 0)), "no bit, mask 0");
            assert!(accepted(&receiving(kind, bits)), "no bit, all mask bits");
            assert!(accepted(&receiving(kind | bits, bits)), "all bits, all mask bits");
            for bit in (0..=28).map(|bit| 1 << bit).filter(|bit| bits & bit != 0) {
                assert!(!accepted(&receiving(kind | bit, 0)), "{bit:x}, mask 0");
                assert!(
                    !accepted(&receiving(kind | bit, bits & !bit)),
                    "{bit:x}, all mask bits but it"
                );
                assert!(accepted(&receiving(kind | bit, bit)), "{bit:x}, its mask bit alone");
                assert!(accepted(&receiving(kind | bits & !bit, bits & !bit)), "all but {bit:x}");
            }
        }
        assert!(!accepted(&receiving(0x121, 0x7FE)));
    }

    #[test]
    fn every_record_is_judged() {
        for record in 0..32 {
            let mut bytes = counts(4, 32);
            assert!(accepted(&bytes));
            bytes[8 + 12 * record + 2] = 9;
            assert!(!accepted(&bytes), "record {record}");
        }
    }

    #[test]
    fn a_configuration_at_rest_is_not_acceptable() {
        assert!(!Config::default().is_acceptable());
        let mut config = Config::read(&K).expect("K is accepted");
        config.places[31].payload = 8;
        assert!(!config.is_acceptable(), "an unused place is not at rest");
        config.places[31] = ObjectConfig { pool: 31, ..ObjectConfig::default() };
        assert!(!config.is_acceptable(), "an unused place has a pool");
        config.places[31] = ObjectConfig::default();
        assert!(config.is_acceptable());
        config.places[1].pool = 1;
        assert!(!config.is_acceptable(), "a receiving object has a pool");
    }
}
