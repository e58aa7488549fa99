//! The lines P1 to P14 that the paper plays by hand, and beside P8 and P11 the mixed
//! case that 02 asks for.

mod common;

use common::{after, bytes, fresh, play, K, P5, STARTED};
use pump_model::filter::filter_decision;
use pump_model::identifier::Identifier;
use pump_model::length::wire_length;

/// The lines of P1 to P11 are one sequence; these are the lines before each.
const TO_P3: [&str; 3] = [K, "set 0 STARTED", "poll mode"];
const P7: [&str; 2] = ["sent 0", "poll write"];
const P8: [&str; 3] = [P5, "set 0 STOPPED", "poll mode"];
const P9: [&str; 2] = ["set 0 STARTED", "poll mode"];

/// Three objects that send on controller 0, each with a write of its own handle; one is sent.
const MIXED: [&str; 7] = [
    "init 4348420001010300\
     000040CC0000000000000000\
     000040CC0000000000000000\
     000040CC0000000000000000",
    "set 0 STARTED",
    "poll mode",
    "write 0 7 40000123 01",
    "write 1 8 40000123 02",
    "write 2 9 40000123 03",
    "sent 1",
];

fn sequence(parts: &[&[&'static str]]) -> Vec<&'static str> {
    parts.concat()
}

#[test]
fn p1_k_is_accepted() {
    assert_eq!(play(&format!("{K}\nget 0")), ["init 0 0 -", "get 0 0 2"]);
}

#[test]
fn p2_write_at_once() {
    assert_eq!(after(&[K], &[P5]), ["write 1 35 -"]);
}

#[test]
fn p3_start() {
    assert_eq!(
        after(&[K], &["set 0 STARTED", "poll mode", "get 0"]),
        ["set 0 0 -", "poll-mode 0 0 - [3 0 1 0]", "get 0 0 1"]
    );
}

#[test]
fn p4_start_again() {
    assert_eq!(after(&TO_P3, &["set 0 STARTED"]), ["set 1 6 - [5 3 6 0]"]);
}

#[test]
fn p5_write() {
    let mut shown = "400001230c0900070102030405060708".to_string() + "09cccccc";
    shown.push_str(&"00".repeat(52));
    assert_eq!(
        after(&TO_P3, &[P5, "show 0", "data 0"]),
        [
            "write 0 0 0".to_string(),
            format!("show {shown}"),
            "data - - 010203040506070809cccccc".to_string()
        ]
    );
}

#[test]
fn p6_write_again() {
    assert_eq!(after(&sequence(&[&TO_P3, &[P5]]), &[P5]), ["write 2 36 -"]);
}

#[test]
fn p7_sent_and_confirmed_once() {
    assert_eq!(
        after(&sequence(&[&TO_P3, &[P5]]), &["sent 0", "poll write", "poll write"]),
        ["sent 0 0 -", "poll-write 0 0 - [1 0 7 0]", "poll-write 0 0 -"]
    );
}

#[test]
fn p8_stop_cancels() {
    let front = sequence(&[&TO_P3, &[P5], &P7]);
    assert_eq!(
        after(&front, &[P5, "set 0 STOPPED", "poll mode", "sent 0"]),
        ["write 0 0 0", "set 0 0 -", "poll-mode 0 0 - [7 0 7 0] [3 0 2 0]", "sent 1 38 -"]
    );
}

#[test]
fn p8_mixed_a_stop_confirms_what_was_sent() {
    assert_eq!(
        after(&MIXED, &["set 0 STOPPED", "poll mode", "poll write", "get 0"]),
        [
            "set 0 0 -",
            "poll-mode 0 0 - [7 0 7 0] [1 1 8 0] [7 2 9 0] [3 0 2 0]",
            "poll-write 0 0 -",
            "get 0 0 2"
        ]
    );
}

#[test]
fn p9_stored_then_lost_then_read() {
    let front = sequence(&[&TO_P3, &[P5], &P7, &P8, &P9]);
    let arrival = "arrived 0 00000120 0102030405060708";
    assert_eq!(
        after(&front, &[arrival, arrival, "poll read", "poll read"]),
        [
            "arrived 0 0 stored:1",
            "arrived 0 0 lost [6 1 1 0]",
            "poll-read 0 0 - [2 1 288 8]",
            "poll-read 0 0 -"
        ]
    );
}

#[test]
fn p10_fd_is_unwanted_where_the_payload_is_8() {
    let front = sequence(&[&TO_P3, &[P5], &P7, &P8, &P9]);
    assert_eq!(
        after(&front, &["arrived 0 40000120 0102030405060708", "state"]),
        ["arrived 0 0 unwanted", "state 1 1 2 c:1,0,0,0,0,0 o:0,0,0 o:0,0,0"]
    );
}

#[test]
fn p11_bus_off() {
    let front = sequence(&[&TO_P3, &[P5], &P7, &P8, &P9]);
    assert_eq!(
        after(&front, &["busoff 0", P5, "poll busoff", "get 0"]),
        ["busoff 0 0 -", "write 0 0 0", "poll-busoff 0 0 - [7 0 7 0] [4 0 0 0]", "get 0 0 2"]
    );
}

#[test]
fn p11_mixed_a_bus_off_confirms_what_was_sent() {
    assert_eq!(
        after(&MIXED, &["busoff 0", "poll busoff", "poll write", "get 0"]),
        [
            "busoff 0 0 -",
            "poll-busoff 0 0 - [7 0 7 0] [1 1 8 0] [7 2 9 0] [4 0 0 0]",
            "poll-write 0 0 -",
            "get 0 0 2"
        ]
    );
}

#[test]
fn p12_lengths_of_writes() {
    assert_eq!(fresh(&format!("write 1 0 40000001 {}", bytes(65))), "write 1 2 - [5 6 2 0]");
    assert_eq!(fresh(&format!("write 0 0 40000001 {}", bytes(64))), "write 0 0 0");
    assert_eq!(fresh(&format!("write 0 0 40000001 {}", bytes(65))), "write 1 3 - [5 6 3 0]");
    assert_eq!(fresh(&format!("write 0 0 00000001 {}", bytes(8))), "write 0 0 0");
    assert_eq!(fresh(&format!("write 0 0 00000001 {}", bytes(9))), "write 1 3 - [5 6 3 0]");
}

#[test]
fn p13_identifiers() {
    for (identifier, good) in [
        ("000007FF", true),
        ("9FFFFFFF", true),
        ("00000800", false),
        ("20000000", false),
        ("A0000000", false),
    ] {
        let word = u32::from_str_radix(identifier, 16).expect("hex");
        assert_eq!(Identifier(word).is_good(), good, "{identifier}");
        let written = if good { "write 0 0 0" } else { "write 1 34 -" };
        assert_eq!(fresh(&format!("write 0 0 {identifier} 00")), written);
        let arrived = if good { "arrived 0 0 unwanted" } else { "arrived 1 34 -" };
        assert_eq!(fresh(&format!("arrived 0 {identifier} 00")), arrived);
    }
}

#[test]
fn p14_sheets_and_memories() {
    let with = |lengths: &str| after(&[&STARTED[..], &[lengths]].concat(), &[P5])[0].clone();
    assert_eq!(with("sheet 143"), "write 1 32 -");
    assert_eq!(with("sheet 144"), "write 0 0 0");
    assert_eq!(with("memory 2303"), "write 1 33 -");
    assert_eq!(with("memory 2304"), "write 0 0 0");
    assert_eq!(with("memory 2305"), "write 1 33 -");
}

#[test]
fn the_two_for_c() {
    assert_eq!(wire_length(12), 12);
    assert_eq!(wire_length(65), 255);
    assert_eq!(filter_decision(0x120, 0x120, 0x7FF, 8), 1);
    assert_eq!(filter_decision(0x4000_0120, 0x120, 0x7FF, 8), 0);
}
