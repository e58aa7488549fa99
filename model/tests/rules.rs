//! Rules of services, polls and events beyond the played lines.

mod common;

use common::{after, bytes, fresh, play, K, P5, STARTED};

/// Two controllers. Objects 0 and 2 send on controller 0, 1 sends on 1 with
/// payload 8; 3 and 4 receive anything standard on 0 (8 and 64 bytes), 5
/// receives anything extended on 1.
const TWO: &str = "init 4348420001020600\
                   000040AA0000000000000000\
                   010008BB0000000000000000\
                   000040000000000000000000\
                   000108000000000000000000\
                   000140000000000000000000\
                   010140008000000000000000";

/// TWO with both controllers STARTED.
const BOTH: [&str; 4] = [TWO, "set 0 1", "set 1 1", "poll mode"];

#[test]
fn before_init_services_and_events_are_5_and_polls_do_nothing() {
    let script = "deinit\nset 0 STARTED\nget 0\nwrite 0 0 0 -\npoll write\npoll read\npoll mode\n\
                  poll busoff\nsent 0\nbusoff 0\narrived 0 0 -\nerrors 0 65536 0\nerrorstate 0\nrxerrors 0\n\
                  txerrors 0\nnext 0\ndata 0\nstate";
    assert_eq!(
        play(script),
        [
            "deinit 1 6 - [5 16 6 0]",
            "set 1 5 - [5 3 5 0]",
            "get 1 5 0 [5 18 5 0]",
            "write 1 5 - [5 6 5 0]",
            "poll-write 0 0 -",
            "poll-read 0 0 -",
            "poll-mode 0 0 -",
            "poll-busoff 0 0 -",
            "sent 1 5 -",
            "busoff 1 5 -",
            "arrived 1 5 -",
            "errors 1 5 -",
            "errorstate 1 5 0 [5 17 5 0]",
            "rxerrors 1 5 0 [5 48 5 0]",
            "txerrors 1 5 0 [5 49 5 0]",
            "next 1 5 -",
            "data - - -",
            "state 0 0 0",
        ]
    );
}

#[test]
fn short_sheets_and_wrong_memories_come_first() {
    let calls = "init -\ndeinit\nset 9 9\nget 9\nerrorstate 9\nrxerrors 9\ntxerrors 9\n\
                 write 9 9 20000000 -\npoll write\npoll read\npoll mode\npoll busoff\nsent 9\n\
                 busoff 9\narrived 9 20000000 -\nnext 9\nerrors 9 65536 65536";
    let names = [
        ("init", true),
        ("deinit", true),
        ("set", false),
        ("get", false),
        ("errorstate", false),
        ("rxerrors", false),
        ("txerrors", false),
        ("write", true),
        ("poll-write", true),
        ("poll-read", true),
        ("poll-mode", true),
        ("poll-busoff", true),
    ];
    for (lengths, takes_sheet) in [("sheet 143\nmemory 2303", true), ("memory 2305", false)] {
        let answers = play(&format!("{lengths}\n{calls}"));
        for (answer, (name, takes_memory)) in answers.iter().zip(names) {
            let question = ["get", "errorstate", "rxerrors", "txerrors"].contains(&name);
            let value = if question { "0" } else { "-" };
            if takes_sheet {
                assert_eq!(*answer, format!("{name} 1 32 {value}"));
            } else if takes_memory {
                assert_eq!(*answer, format!("{name} 1 33 {value}"));
            } else {
                assert!(answer.starts_with(&format!("{name} 1 5 {value} [5 ")), "{answer}");
            }
        }
        assert_eq!(answers[12], "sent 1 5 -");
        assert_eq!(answers[13], "busoff 1 5 -");
        let reason = if takes_sheet { 32 } else { 33 };
        assert_eq!(answers[14], format!("arrived 1 {reason} -"));
        assert_eq!(answers[15], "next 1 33 -", "it takes no sheet");
        let reason = if takes_sheet { 32 } else { 5 };
        assert_eq!(answers[16], format!("errors 1 {reason} -"), "it takes no memory");
    }
}

#[test]
fn init_and_deinit() {
    assert_eq!(play("init -"), ["init 1 9 - [5 0 9 0]"]);
    assert_eq!(after(&[K], &[K, "init -"]), ["init 1 6 - [5 0 6 0]", "init 1 6 - [5 0 6 0]"]);
    assert_eq!(fresh("deinit"), "deinit 1 6 - [5 16 6 0]");
    let front = [&STARTED[..], &["arrived 0 120 0102", "set 0 2", "poll mode"]].concat();
    let zeros = "show ".to_string() + &"00".repeat(72);
    assert_eq!(
        after(&front, &["data 1", "set 0 3", "deinit", "show 1", "state", K, "poll read", "get 0"]),
        [
            "data - - 0102",
            "set 0 0 -",
            "deinit 0 0 -",
            &zeros,
            "state 0 0 0",
            "init 0 0 -",
            "poll-read 0 0 -",
            "get 0 0 2"
        ]
    );
}

#[test]
fn requests_are_judged_by_the_present_mode_and_replace_each_other() {
    assert_eq!(
        after(&[K], &["set 0 SLEEP", "set 0 STARTED", "set 0 0", "set 0 4", "state", "poll mode"]),
        [
            "set 0 0 -",
            "set 0 0 -",
            "set 1 6 - [5 3 6 0]",
            "set 1 6 - [5 3 6 0]",
            "state 1 1 2 c:2,1,0,0,0,0 o:0,0,0 o:0,0,0",
            "poll-mode 0 0 - [3 0 1 0]"
        ]
    );
    assert_eq!(fresh("set 0 SLEEP"), "set 1 6 - [5 3 6 0]");
    assert_eq!(fresh("set 1 STOPPED"), "set 1 4 - [5 3 4 0]");
    assert_eq!(fresh("set 1 99"), "set 1 4 - [5 3 4 0]");
    assert_eq!(fresh("get 1"), "get 1 4 0 [5 18 4 0]");
    let asleep = [K, "set 0 SLEEP", "poll mode"];
    assert_eq!(
        after(&asleep, &["set 0 STARTED", "set 0 SLEEP", "poll mode", "poll mode", "set 0 2"]),
        [
            "set 1 6 - [5 3 6 0]",
            "set 0 0 -",
            "poll-mode 0 0 - [3 0 3 0]",
            "poll-mode 0 0 -",
            "set 0 0 -"
        ]
    );
}

#[test]
fn writes_are_refused_in_order() {
    assert_eq!(fresh("write 2 0 20000000 -"), "write 1 2 - [5 6 2 0]");
    assert_eq!(fresh(&format!("write 0 0 20000000 {}", bytes(9))), "write 1 3 - [5 6 3 0]");
    assert_eq!(fresh(&format!("write 0 0 20000000 {}", bytes(8))), "write 1 34 -");
    assert_eq!(fresh(&format!("write 0 0 60000000 {}", bytes(9))), "write 1 34 -");
    assert_eq!(after(&[K], &["write 0 0 800 -"]), ["write 1 34 -"]);
    assert_eq!(after(&BOTH, &["write 1 0 40000000 -"]), ["write 1 3 - [5 6 3 0]"]);
    assert_eq!(after(&BOTH, &["write 3 0 0 -"]), ["write 1 2 - [5 6 2 0]"]);
    assert_eq!(
        after(&BOTH, &["write 0 65535 7ff -", "write 1 0 0 01", "write 1 0 0 01"]),
        ["write 0 0 0", "write 0 0 1", "write 2 36 -"]
    );
}

#[test]
fn a_write_lays_down_all_72_bytes_again() {
    let long = format!("write 0 65535 40000000 {}", bytes(64));
    let lines = [long.as_str(), "sent 0", "poll write", "write 0 1 9FFFFFFF ab", "show 0"];
    let shown = after(&STARTED, &lines).pop().expect("an answer");
    assert_eq!(shown, "show 9fffffff01010001ab".to_string() + &"00".repeat(63));
}

#[test]
fn gone_objects_stay_occupied_until_a_poll() {
    let front = [&STARTED[..], &[P5, "sent 0"]].concat();
    assert_eq!(after(&front, &["sent 0", P5]), ["sent 1 38 -", "write 2 36 -"]);
    assert_eq!(
        after(&front, &["busoff 0", "sent 0", "poll write"]),
        ["busoff 0 0 -", "sent 1 38 -", "poll-write 0 0 - [1 0 7 0]"]
    );
    assert_eq!(
        after(&front, &["set 0 2", "poll mode", "poll write"]),
        ["set 0 0 -", "poll-mode 0 0 - [1 0 7 0] [3 0 2 0]", "poll-write 0 0 -"]
    );
    assert_eq!(
        after(&front, &["busoff 0", "poll busoff", "poll write"]),
        ["busoff 0 0 -", "poll-busoff 0 0 - [1 0 7 0] [4 0 0 0]", "poll-write 0 0 -"]
    );
}

#[test]
fn a_frame_that_had_left_is_confirmed_by_the_first_poll_and_by_no_other() {
    let front = [&STARTED[..], &[P5, "sent 0", "set 0 2"]].concat();
    assert_eq!(
        after(&front, &["poll write", "poll mode", "poll busoff"]),
        ["poll-write 0 0 - [1 0 7 0]", "poll-mode 0 0 - [3 0 2 0]", "poll-busoff 0 0 -"]
    );
    // A refused poll closes nothing.
    assert_eq!(
        after(&front, &["sheet 143", "poll mode", "sheet 144", "poll mode", "poll write"]),
        ["poll-mode 1 32 -", "poll-mode 0 0 - [1 0 7 0] [3 0 2 0]", "poll-write 0 0 -"]
    );
}

#[test]
fn a_bus_off_takes_what_had_not_left_before_it() {
    let front = [&BOTH[..], &["write 0 5 0 -", "sent 0", "busoff 0", "write 2 6 0 -"]].concat();
    assert_eq!(
        after(&front, &["sent 2", "set 0 2", "poll mode", "poll busoff", "poll write"]),
        [
            "sent 1 37 -",
            "set 0 0 -",
            "poll-mode 0 0 -",
            "poll-busoff 0 0 - [1 0 5 0] [7 2 6 0] [4 0 0 0]",
            "poll-write 0 0 -"
        ]
    );
}

#[test]
fn sent_and_bus_off_are_refused_in_order() {
    assert_eq!(fresh("sent 1"), "sent 1 2 -");
    assert_eq!(fresh("sent 2"), "sent 1 2 -");
    assert_eq!(fresh("sent 0"), "sent 1 38 -");
    let marked = [&STARTED[..], &[P5, "busoff 0"]].concat();
    assert_eq!(after(&marked, &["sent 0"]), ["sent 1 37 -"]);
    assert_eq!(after(&marked, &["busoff 0"]), ["busoff 1 37 -"]);
    assert_eq!(after(&marked, &["busoff 1"]), ["busoff 1 4 -"]);
    assert_eq!(after(&[K], &["busoff 0"]), ["busoff 1 35 -"]);
}

#[test]
fn arrivals_are_refused_in_order() {
    assert_eq!(fresh("arrived 1 20000000 -"), "arrived 1 4 -");
    assert_eq!(after(&[K], &["arrived 0 20000000 -"]), ["arrived 1 35 -"]);
    let marked = [&STARTED[..], &["busoff 0"]].concat();
    assert_eq!(after(&marked, &["arrived 0 20000000 -"]), ["arrived 1 37 -"]);
    assert_eq!(fresh(&format!("arrived 0 20000000 {}", bytes(9))), "arrived 1 34 -");
    assert_eq!(fresh(&format!("arrived 0 120 {}", bytes(9))), "arrived 1 40 -");
    assert_eq!(fresh(&format!("arrived 0 40000120 {}", bytes(9))), "arrived 1 40 -");
    assert_eq!(fresh(&format!("arrived 0 40000120 {}", bytes(12))), "arrived 0 0 unwanted");
}

#[test]
fn arrivals_take_the_lowest_empty_object_that_fits() {
    let twelve = format!("arrived 0 40000001 {}", bytes(12));
    assert_eq!(
        after(
            &BOTH,
            &[
                &twelve,
                &twelve,
                "arrived 0 1 aa",
                "arrived 0 2 -",
                "arrived 1 80000000 -",
                "arrived 1 0 -",
                "arrived 0 80000000 -",
                "poll read",
            ]
        ),
        [
            "arrived 0 0 stored:4",
            "arrived 0 0 lost [6 4 1 0]",
            "arrived 0 0 stored:3",
            "arrived 0 0 lost [6 3 1 0]",
            "arrived 0 0 stored:5",
            "arrived 0 0 unwanted",
            "arrived 0 0 unwanted",
            "poll-read 0 0 - [2 3 1 1] [2 4 1073741825 12] [2 5 2147483648 0]"
        ]
    );
}

#[test]
fn frames_survive_a_stop_and_reading_changes_no_byte() {
    let front = [&BOTH[..], &["arrived 0 1 aabb", "set 0 2", "poll mode"]].concat();
    let shown = "show 0000000102020000aabb".to_string() + &"00".repeat(62);
    assert_eq!(
        after(&front, &["poll read", "show 3", "data 3"]),
        ["poll-read 0 0 - [2 3 1 2]", &shown, "data - - aabb"]
    );
}

#[test]
fn polls_go_controller_by_controller() {
    let writes = ["write 2 2 0 -", "write 1 1 0 -", "write 0 0 0 -"];
    let front = [&BOTH[..], &writes].concat();
    assert_eq!(
        after(&front, &["set 0 2", "set 1 2", "poll mode"]).pop().expect("an answer"),
        "poll-mode 0 0 - [7 0 0 0] [7 2 2 0] [3 0 2 0] [7 1 1 0] [3 1 2 0]"
    );
    assert_eq!(
        after(&front, &["busoff 1", "busoff 0", "poll busoff"]).pop().expect("an answer"),
        "poll-busoff 0 0 - [7 0 0 0] [7 2 2 0] [4 0 0 0] [7 1 1 0] [4 1 0 0]"
    );
    let some = [&front[..], &["sent 2", "sent 1"]].concat();
    assert_eq!(
        after(&some, &["set 0 2", "set 1 2", "poll mode"]).pop().expect("an answer"),
        "poll-mode 0 0 - [7 0 0 0] [1 2 2 0] [3 0 2 0] [1 1 1 0] [3 1 2 0]"
    );
    assert_eq!(
        after(&some, &["busoff 0", "poll busoff", "poll write"])[1..],
        [
            "poll-busoff 0 0 - [7 0 0 0] [1 2 2 0] [4 0 0 0]",
            // Of the other controller.
            "poll-write 0 0 - [1 1 1 0]"
        ]
    );
    assert_eq!(
        after(&front, &["sent 2", "sent 0", "sent 1", "poll write"]).pop().expect("an answer"),
        "poll-write 0 0 - [1 0 0 0] [1 1 1 0] [1 2 2 0]"
    );
}

#[test]
fn a_mode_poll_does_not_overtake_a_bus_off() {
    let front = [&BOTH[..], &["write 0 5 0 -", "busoff 0", "set 0 2", "set 1 2"]].concat();
    assert_eq!(
        after(&front, &["poll mode", "state", "poll busoff", "poll mode", "state"]),
        [
            "poll-mode 0 0 - [3 1 2 0]",
            "state 1 2 6 c:1,2,1,0,0,0 c:2,0,0,0,0,0 o:1,0,0 o:0,0,0 o:0,0,0 o:0,0,0 o:0,0,0 o:0,0,0",
            "poll-busoff 0 0 - [7 0 5 0] [4 0 0 0]",
            "poll-mode 0 0 -",
            "state 1 2 6 c:2,0,0,1,0,0 c:2,0,0,0,0,0 o:0,0,0 o:0,0,0 o:0,0,0 o:0,0,0 o:0,0,0 o:0,0,0"
        ]
    );
}

#[test]
fn the_bench_is_tight_at_36_records() {
    let mut init = "init 4348420001042000".to_string();
    for object in 0..32 {
        init += &format!("{:02x}0008000000000000000000", object % 4);
    }
    let mut lines = vec![init];
    lines.extend((0..4).map(|controller| format!("set {controller} 1")));
    lines.push("poll mode".to_string());
    lines.extend((0..32).map(|object| format!("write {object} {object} 0 -")));
    let off = (0..4).map(|controller| format!("busoff {controller}"));
    let off: Vec<String> = off.chain(["poll busoff".to_string()]).collect();
    // However many of the frames had left.
    for (gone, start, end) in [
        (0, "[7 0 0 0] [7 4 4 0] [7 8 8 0]", "[7 31 31 0] [4 3 0 0]"),
        (6, "[1 0 0 0] [1 4 4 0] [7 8 8 0]", "[7 31 31 0] [4 3 0 0]"),
        (32, "[1 0 0 0] [1 4 4 0] [1 8 8 0]", "[1 31 31 0] [4 3 0 0]"),
    ] {
        let sent: Vec<String> = (0..gone).map(|object| format!("sent {object}")).collect();
        let night = [&lines[..], &sent, &off].concat();
        let answer = play(&night.join("\n")).pop().expect("an answer");
        assert_eq!(answer.matches('[').count(), 36);
        assert_eq!(answer.matches("[1 ").count(), gone);
        assert_eq!(answer.matches("[7 ").count(), 32 - gone);
        assert!(answer.starts_with(&format!("poll-busoff 0 0 - {start}")), "{answer}");
        assert!(answer.ends_with(end), "{answer}");
    }
}

#[test]
fn data_and_show() {
    let front = [&STARTED[..], &[P5]].concat();
    assert_eq!(
        after(&front, &["data 0", "data 32", "memory 2303", "data 0", "memory 2305", "data 0"]),
        ["data - - 010203040506070809cccccc", "data - - -", "data - - -", "data - - -"]
    );
    let shown = after(&front, &["memory 0", "show 0", "show 31", "show 32", "show 4294967295"]);
    assert!(shown[0].starts_with("show 400001230c090007010203"));
    assert_eq!(shown[0].len(), 5 + 144);
    assert_eq!(shown[2..], ["show -", "show -"]);
}

#[test]
fn padding_for_every_fd_length() {
    let wires = [0, 1, 2, 3, 4, 5, 6, 7, 8, 12, 16, 20, 24, 32, 48, 64];
    for length in 0..=64 {
        let dlc = wires.iter().position(|&wire| wire >= length).expect("a wire length");
        let write = format!("write 0 258 40000000 {}", bytes(length));
        let shown = after(&STARTED, &[&write, "show 0"]).pop().expect("an answer");
        let data: String = (1..=length).map(|number| format!("{number:02x}")).collect();
        let padding = "cc".repeat(wires[dlc] - length);
        let zeros = "00".repeat(64 - wires[dlc]);
        let head = format!("40000000{:02x}{dlc:02x}0102", wires[dlc]);
        assert_eq!(shown, format!("show {head}{data}{padding}{zeros}"));
    }
}

/// Two controllers. Pool 9: objects 0, 2 and 4 on controller 1; pool 31: objects
/// 1 and 3 on controller 0, payload 8; object 5 receives anything standard on 1.
const POOLS: &str = "init 4348420002020600\
                     010040AA0000000900000000\
                     000008BB0000001F00000000\
                     010040AA0000000900000000\
                     000008BB0000001F00000000\
                     010040AA0000000900000000\
                     010140000000000000000000";

/// POOLS with both controllers STARTED.
const POOLS_STARTED: [&str; 4] = [POOLS, "set 0 1", "set 1 1", "poll mode"];

#[test]
fn a_write_takes_the_lowest_free_member_of_its_pool() {
    let front = [&POOLS_STARTED[..], &["write 0 1 0 -", "write 0 2 0 -"]].concat();
    assert_eq!(
        after(
            &front,
            &[
                "write 0 3 0 -",
                "write 0 4 0 -",
                "sent 2",
                "write 0 5 0 -",
                "poll write",
                "write 0 6 0 -",
                "write 0 7 0 -",
                "write 1 8 0 -",
                "state",
            ]
        ),
        [
            "write 0 0 4",
            "write 2 36 -",
            "sent 0 0 -",
            // A gone member is not free.
            "write 2 36 -",
            "poll-write 0 0 - [1 2 2 0]",
            "write 0 0 2",
            "write 2 36 -",
            "write 0 0 1",
            "state 1 2 6 c:1,0,0,0,0,0 c:1,0,0,0,0,0 o:1,0,0 o:1,0,0 o:1,0,0 o:0,0,0 o:1,0,0 o:0,0,0",
        ]
    );
}

#[test]
fn the_lowest_object_names_the_pool_free_or_not() {
    assert_eq!(
        after(
            &POOLS_STARTED,
            &["write 0 1 0 -", "write 0 2 0 -", "write 2 3 0 -", "sent 0", "poll write"]
        ),
        [
            "write 0 0 0",
            "write 0 0 2",
            "write 1 2 - [5 6 2 0]",
            "sent 0 0 -",
            "poll-write 0 0 - [1 0 1 0]"
        ]
    );
    // Free or occupied, alone in being free or not: another member is 2, before all that follows.
    for front in [vec![], vec!["write 0 1 0 -"], vec!["write 0 1 0 -"; 3]] {
        let front = [&POOLS_STARTED[..], &front[..]].concat();
        for object in [2, 3, 4, 5, 6] {
            for rest in ["0 -".to_string(), format!("0 {}", bytes(65)), "20000000 -".to_string()] {
                let line = format!("write {object} 0 {rest}");
                assert_eq!(after(&front, &[&line]), ["write 1 2 - [5 6 2 0]"], "{line}");
            }
        }
    }
    let stopped = format!("write 4 0 40000000 {}", bytes(65));
    assert_eq!(after(&[POOLS], &[&stopped]), ["write 1 2 - [5 6 2 0]"]);
}

#[test]
fn the_other_reasons_come_before_a_full_pool() {
    let full = [&POOLS_STARTED[..], &["write 1 1 0 -", "write 1 2 0 -"]].concat();
    let nine = format!("write 1 0 0 {}", bytes(9));
    assert_eq!(
        after(&full, &["write 1 0 40000000 -", &nine, "write 1 0 800 -", "write 1 0 7FF -"]),
        ["write 1 3 - [5 6 3 0]", "write 1 3 - [5 6 3 0]", "write 1 34 -", "write 2 36 -"]
    );
    let stopped = [&full[..], &["set 0 2", "poll mode"]].concat();
    assert_eq!(after(&stopped, &["write 1 0 0 -"]), ["write 1 35 -"]);
    assert_eq!(
        after(&stopped, &["set 0 1", "poll mode", "write 1 0 0 -"])[2],
        "write 0 0 1",
        "a stop frees every member"
    );
}

#[test]
fn bytes_and_notices_belong_to_the_member() {
    let front = [&POOLS_STARTED[..], &["write 0 1 0 -"]].concat();
    let line = format!("write 0 258 40000000 {}", bytes(9));
    let shown = format!("show 400000000c090102{}aaaaaa{}", bytes(9), "00".repeat(52));
    let zeros = "show ".to_string() + &"00".repeat(72);
    assert_eq!(
        after(&front, &[&line, "show 2", "show 4", "sent 2", "sent 4", "poll write", "sent 2"]),
        [
            "write 0 0 2",
            &shown,
            &zeros,
            "sent 0 0 -",
            "sent 1 38 -",
            "poll-write 0 0 - [1 2 258 0]",
            "sent 1 38 -"
        ]
    );
    assert_eq!(
        after(&front, &["write 0 2 0 -", "write 1 3 0 -", "busoff 1", "poll busoff"])[3],
        "poll-busoff 0 0 - [7 0 1 0] [7 2 2 0] [4 1 0 0]"
    );
    assert_eq!(
        after(&front, &["write 0 2 0 -", "write 0 3 0 -", "sent 2", "set 1 2", "poll mode"])[4],
        "poll-mode 0 0 - [7 0 1 0] [1 2 2 0] [7 4 3 0] [3 1 2 0]"
    );
}

#[test]
fn in_version_1_each_object_is_its_own_pool() {
    let writes = ["write 0 1 0 -", "write 0 2 0 -", "write 2 3 0 -", "write 2 4 0 -"];
    assert_eq!(
        after(&BOTH, &writes),
        ["write 0 0 0", "write 2 36 -", "write 0 0 2", "write 2 36 -"]
    );
    // The same bytes as version 2 have objects 0 to 2 in pool 0, and these do not agree.
    let two = TWO.replacen("43484200010", "43484200020", 1);
    assert_ne!(two, TWO);
    assert_eq!(play(&two), ["init 1 9 - [5 0 9 0]"]);
    // Nor does version 1 take a pool.
    let one = POOLS.replacen("43484200020", "43484200010", 1);
    assert_eq!(play(&one), ["init 1 9 - [5 0 9 0]"]);
}

/// What Init answers to a configuration of two controllers in words, with these
/// words for its sending objects.
fn init_of(objects: &[&str]) -> String {
    let lines: Vec<String> = objects.iter().map(|words| format!("object send {words}\n")).collect();
    play(&format!("controllers 2\n{}init", lines.concat())).pop().expect("an answer")
}

#[test]
fn members_that_disagree_are_9() {
    let member = "controller 1 payload 8 padding 55 pool 7";
    for (other, good) in [
        (member, true),
        ("controller 0 payload 8 padding 55 pool 7", false),
        ("controller 1 payload 64 padding 55 pool 7", false),
        ("controller 1 payload 8 padding 54 pool 7", false),
        ("controller 0 payload 64 padding 54 pool 6", true),
        ("controller 0 payload 64 padding 54", true),
        ("controller 1 payload 8 padding 55 pool 31", true),
        ("controller 1 payload 8 padding 55 pool 32", false),
        ("controller 1 payload 8 padding 55 pool 255", false),
    ] {
        let answer = if good { "init 0 0 -" } else { "init 1 9 - [5 0 9 0]" };
        assert_eq!(init_of(&[member, other]), answer, "{other}");
        assert_eq!(init_of(&[other, member]), answer, "{other}");
    }
}

#[test]
fn an_object_that_says_no_pool_has_its_own_number_beside_others_that_do() {
    let (bare, other) = ("controller 0 payload 8 padding 55", "controller 0 payload 8 padding 54");
    let in_1 = format!("{bare} pool 1");
    // Object 1 is in pool 1, said or not.
    assert_eq!(init_of(&[&in_1, bare]), "init 0 0 -");
    assert_eq!(init_of(&[&in_1, other]), "init 1 9 - [5 0 9 0]");
    assert_eq!(init_of(&[bare, other]), "init 0 0 -");
    assert_eq!(init_of(&[other, bare, &in_1]), "init 0 0 -");
    let script = format!(
        "controllers 1\nobject send {bare}\nobject send {bare}\nobject send {in_1}\ninit\n\
         set 0 1\npoll mode\nwrite 0 0 0 -\nwrite 0 0 0 -\nwrite 1 0 0 -\nwrite 1 0 0 -\n\
         write 1 0 0 -\nwrite 2 0 0 -"
    );
    assert_eq!(
        play(&script)[3..],
        [
            "write 0 0 0",
            "write 2 36 -",
            "write 0 0 1",
            "write 0 0 2",
            "write 2 36 -",
            "write 1 2 - [5 6 2 0]"
        ]
    );
}

#[test]
fn a_pool_of_all_objects() {
    let mut init = "init 4348420002012000".to_string();
    init += &"000008000000001f00000000".repeat(32);
    let mut lines = vec![init, "set 0 1".to_string(), "poll mode".to_string()];
    lines.extend((0..33).map(|handle| format!("write 0 {handle} 0 -")));
    let answers = play(&lines.join("\n"));
    assert_eq!(answers[0], "init 0 0 -");
    for member in 0..32 {
        assert_eq!(answers[3 + member], format!("write 0 0 {member}"));
    }
    assert_eq!(answers[35], "write 2 36 -");
}

#[test]
fn who_sends_next() {
    let writes = ["write 0 1 40000300 -", "write 0 2 92345678 -", "write 0 3 48D -"];
    let front = [&POOLS_STARTED[..], &writes].concat();
    // Base 48D twice, the standard one first; 300 before both.
    assert_eq!(
        after(&front, &["next 1", "next 0", "next 2", "next 4294967295", "sent 0", "next 1"]),
        ["next 0 0 0", "next 0 0 none", "next 1 4 -", "next 1 4 -", "sent 0 0 -", "next 0 0 4"]
    );
    let sent = [&front[..], &["sent 0", "sent 4"]].concat();
    assert_eq!(
        after(&sent, &["next 1", "sent 2", "next 1", "poll write", "next 1"]),
        [
            "next 0 0 2",
            "sent 0 0 -",
            "next 0 0 none",
            "poll-write 0 0 - [1 0 1 0] [1 2 2 0] [1 4 3 0]",
            "next 0 0 none"
        ]
    );
    assert_eq!(
        after(&front, &["busoff 1", "next 1", "poll busoff", "next 1"]),
        [
            "busoff 0 0 -",
            "next 0 0 none",
            "poll-busoff 0 0 - [7 0 1 0] [7 2 2 0] [7 4 3 0] [4 1 0 0]",
            "next 0 0 none"
        ]
    );
}

#[test]
fn who_sends_next_takes_memory_and_no_sheet_and_changes_nothing() {
    let front = [&STARTED[..], &[P5]].concat();
    assert_eq!(
        after(
            &front,
            &["sheet 0", "next 0", "memory 2303", "next 9", "memory 2305", "next 0", "state"]
        ),
        ["next 0 0 0", "next 1 33 -", "next 1 33 -", "state 1 1 2 c:1,0,0,0,0,0 o:1,0,0 o:0,0,0"]
    );
    assert_eq!(play("memory 0\nnext 0\nmemory 2304\nnext 0"), ["next 1 33 -", "next 1 5 -"]);
}

#[test]
fn the_writer_gives_the_configuration_back() {
    let bytes = |init: &str| init.trim_start_matches("init ").to_lowercase();
    let pools = bytes(POOLS);
    assert_eq!(
        after(&[POOLS], &["config 2 80", "config 2 4096", "config 1 80", "config 2 79"]),
        [
            format!("config 0 0 {pools}"),
            format!("config 0 0 {pools}"),
            "config 1 9 -".to_string(),
            "config 1 32 -".to_string()
        ]
    );
    let two = bytes(TWO).replacen("43484200010", "43484200020", 1);
    let two = two.replacen("010008bb00000000", "010008bb00000001", 1);
    let two = two.replacen("0000400000000000", "0000400000000002", 1);
    assert_eq!(
        after(&[TWO], &["config 1 80", "config 2 80", "config 1 79", "config 3 79", "state"]),
        [
            format!("config 0 0 {}", bytes(TWO)),
            format!("config 0 0 {two}"),
            "config 1 32 -".to_string(),
            "config 1 9 -".to_string(),
            "state 1 2 6 c:2,0,0,0,0,0 c:2,0,0,0,0,0 o:0,0,0 o:0,0,0 o:0,0,0 o:0,0,0 o:0,0,0 o:0,0,0"
                .to_string()
        ]
    );
    assert_eq!(
        after(&[&format!("init {two}")], &["config 1 80"])[0],
        format!("config 0 0 {}", bytes(TWO))
    );
}

#[test]
fn the_writer_has_nothing_to_say_before_init_and_takes_neither_sheet_nor_memory() {
    assert_eq!(
        play("config 1 4096\nconfig 2 0\nconfig 0 0\ncontrollers 1\nconfig 2 8"),
        ["config 1 9 -", "config 1 9 -", "config 1 9 -", "config 1 9 -"]
    );
    let none = "init 4348420001040000";
    assert_eq!(
        after(&[none, "sheet 0", "memory 0"], &["config 1 8", "config 2 8", "config 2 7"]),
        ["config 0 0 4348420001040000", "config 0 0 4348420002040000", "config 1 32 -"]
    );
    let front = [&STARTED[..], &[P5, "set 0 STOPPED", "poll mode", "deinit"]].concat();
    assert_eq!(after(&front, &["config 1 4096"]), ["config 1 9 -"]);
    assert_eq!(
        after(&[&STARTED[..], &[P5]].concat(), &["config 1 32", "poll write", "state"]),
        [
            &format!("config 0 0 {}", K.trim_start_matches("init ").to_lowercase()),
            "poll-write 0 0 -",
            "state 1 1 2 c:1,0,0,0,0,0 o:1,0,0 o:0,0,0"
        ]
    );
}
