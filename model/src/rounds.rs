//! The two configurations on which the timed programs make their rounds. Object 0 sends, object 1 receives, both on controller 0.

use crate::limits::{CONTROLLERS, OBJECTS};

/// Configuration K.
pub fn small() -> Vec<u8> {
    let mut bytes = b"CHB\x00\x01\x01\x02\x00".to_vec();
    bytes.extend([0, 0, 64, 0xCC, 0, 0, 0, 0, 0, 0, 0, 0]);
    bytes.extend([0, 1, 8, 0, 0, 0, 1, 0x20, 0, 0, 7, 0xFF]);
    bytes
}

/// K's two objects, and every other object sending with a payload of 8.
pub fn full() -> Vec<u8> {
    let mut bytes = b"CHB\x00\x01".to_vec();
    bytes.extend([CONTROLLERS as u8, OBJECTS as u8, 0]);
    bytes.extend(&small()[8..]);
    for object in 2..OBJECTS {
        bytes.extend([(object % CONTROLLERS) as u8, 0, 8, 0, 0, 0, 0, 0, 0, 0, 0, 0]);
    }
    bytes
}
