//! Error counts and error states, as 02 has them.

mod common;

use common::{after, fresh, play, K, P5, STARTED};

/// The state line of K with controller 0 like this.
fn state(controller: &str) -> String {
    format!("state 1 1 2 c:{controller} o:0,0,0 o:0,0,0")
}

/// The three questions about controller 0.
const ASKED: [&str; 3] = ["errorstate 0", "rxerrors 0", "txerrors 0"];

/// What the three questions answer.
fn answered(error_state: u32, receive: u32, transmit: u32) -> [String; 3] {
    [
        format!("errorstate 0 0 {error_state}"),
        format!("rxerrors 0 0 {receive}"),
        format!("txerrors 0 0 {transmit}"),
    ]
}

/// The answers to these lines after K with controller 0 STARTED.
fn started(lines: &[&str]) -> Vec<String> {
    after(&STARTED, lines)
}

#[test]
fn counts_are_zero_after_init_and_at_rest_before_it() {
    assert_eq!(after(&[K], &ASKED), answered(0, 0, 0));
    assert_eq!(started(&ASKED), answered(0, 0, 0));
    assert_eq!(started(&["state"]), [state("1,0,0,0,0,0")]);
    let front = [&STARTED[..], &["errors 0 200 300", "set 0 2", "poll mode", "deinit"]].concat();
    assert_eq!(after(&front, &["state", K, "state"])[2], state("2,0,0,0,0,0"));
}

#[test]
fn both_sides_of_each_limit() {
    for (transmit, receive, error_state) in [
        (127, 127, 0),
        (128, 127, 1),
        (127, 128, 1),
        (255, 0, 1),
        (256, 0, 2),
        (65_535, 0, 2),
        (0, 255, 1),
        (0, 256, 1),
        (0, 65_535, 1),
        (255, 65_535, 1),
        (256, 65_535, 2),
    ] {
        let event = format!("errors 0 {transmit} {receive}");
        let (told_transmit, told_receive) = (transmit.min(255), receive.min(255));
        let mut expected = vec!["errors 0 0 -".to_string()];
        if error_state == 1 {
            expected[0] += &format!(" [8 0 {told_transmit} {told_receive}]");
        }
        expected.extend(answered(error_state, told_receive, told_transmit));
        let mark = u32::from(error_state == 2);
        expected.push(state(&format!("1,0,{mark},0,{transmit},{receive}")));
        let lines = [&[event.as_str()][..], &ASKED, &["state"]].concat();
        assert_eq!(started(&lines), expected, "{event}");
    }
}

#[test]
fn numbers_above_65535_are_43_and_change_nothing() {
    let front = [&STARTED[..], &["errors 0 100 200"]].concat();
    for numbers in [
        "65536 0",
        "0 65536",
        "65536 65536",
        "4294967295 0",
        "0 4294967295",
        "65792 0",
        "0 0x10080",
    ] {
        let event = format!("errors 0 {numbers}");
        assert_eq!(
            after(&front, &[&event, "state"]),
            ["errors 1 43 -".to_string(), state("1,0,0,0,100,200")],
            "{event}"
        );
    }
}

#[test]
fn the_event_is_refused_in_order() {
    let too_large = "errors 0 65536 0";
    assert_eq!(fresh("errors 1 65536 0"), "errors 1 4 -");
    assert_eq!(fresh("errors 4294967295 0 0"), "errors 1 4 -");
    assert_eq!(fresh(too_large), "errors 1 43 -");
    assert_eq!(after(&[K], &[too_large]), ["errors 1 35 -"]);
    let marked = [&STARTED[..], &["busoff 0"]].concat();
    assert_eq!(after(&marked, &[too_large, "errors 0 0 0"]), ["errors 1 37 -", "errors 1 37 -"]);
    let polled = [&marked[..], &["poll busoff"]].concat();
    assert_eq!(after(&polled, &[too_large, "errors 0 0 0"]), ["errors 1 35 -", "errors 1 35 -"]);
    assert_eq!(play(too_large), ["errors 1 5 -"]);
    // The sheet comes first, whether there would be a record or not, and the memory never.
    for front in [&[][..], &[K], &STARTED, &marked] {
        let front = [front, &["sheet 143", "memory 0"]].concat();
        assert_eq!(after(&front, &["errors 0 0 0", "errors 9 65536 0"]), ["errors 1 32 -"; 2]);
    }
    let front = [&STARTED[..], &["memory 0"]].concat();
    assert_eq!(after(&front, &["errors 0 128 0"]), ["errors 0 0 - [8 0 128 0]"]);
}

#[test]
fn a_refused_event_marks_nothing() {
    let front = [&STARTED[..], &["sheet 143", "errors 0 300 0", "sheet 144"]].concat();
    assert_eq!(
        after(&front, &["state", "errorstate 0"]),
        [&state("1,0,0,0,0,0"), "errorstate 0 0 0"]
    );
}

#[test]
fn questions_are_checked_as_get_is() {
    for (name, service) in [("errorstate", 17), ("rxerrors", 48), ("txerrors", 49)] {
        assert_eq!(play(&format!("{name} 9")), [format!("{name} 1 5 0 [5 {service} 5 0]")]);
        for controller in ["1", "4", "4294967295"] {
            let line = format!("{name} {controller}");
            assert_eq!(fresh(&line), format!("{name} 1 4 0 [5 {service} 4 0]"));
        }
        // With a short sheet nothing else counts; the memory is not taken.
        let front = [&STARTED[..], &["errors 0 200 200", "memory 0", "sheet 143"]].concat();
        let lines = [format!("{name} 0"), format!("{name} 9")];
        let lines = [&lines[0], &lines[1], "sheet 144", &lines[0]];
        let no = format!("{name} 1 32 0");
        let yes = if name == "errorstate" { "1" } else { "200" };
        assert_eq!(after(&front, &lines), [no.clone(), no, format!("{name} 0 0 {yes}")]);
    }
}

#[test]
fn passive_is_told_once_on_each_entering() {
    let lines = [
        "errors 0 127 127",
        "errors 0 128 127",
        "errors 0 128 127",
        "errors 0 127 128",
        "errors 0 255 65535",
        "errors 0 128 0",
        "errors 0 127 0",
        "errors 0 0 127",
        "errors 0 0 300",
        "errors 0 0 0",
        "errors 0 200 65535",
    ];
    let none = "errors 0 0 -";
    assert_eq!(
        started(&lines),
        [
            none,
            "errors 0 0 - [8 0 128 127]",
            none,
            none,
            none,
            none,
            none,
            none,
            "errors 0 0 - [8 0 0 255]",
            none,
            "errors 0 0 - [8 0 200 255]"
        ]
    );
}

#[test]
fn a_bus_off_by_the_transmit_count_writes_no_record() {
    assert_eq!(started(&["errors 0 256 0"]), ["errors 0 0 -"]);
    assert_eq!(started(&["errors 0 65535 65535"]), ["errors 0 0 -"]);
    assert_eq!(
        started(&["errors 0 128 0", "errors 0 256 0"]),
        ["errors 0 0 - [8 0 128 0]", "errors 0 0 -"]
    );
}

#[test]
fn the_mark_of_the_transmit_count_is_the_off_bus_mark() {
    let front = [&STARTED[..], &[P5, "errors 0 256 7"]].concat();
    assert_eq!(
        after(
            &front,
            &[
                "sent 0",
                "busoff 0",
                "arrived 0 120 -",
                "next 0",
                "errors 0 0 0",
                "set 0 STOPPED",
                "poll mode",
                "get 0",
                "poll busoff",
                "poll mode",
                "get 0",
            ]
        ),
        [
            "sent 1 37 -",
            "busoff 1 37 -",
            "arrived 1 37 -",
            "next 0 0 none",
            "errors 1 37 -",
            "set 0 0 -",
            "poll-mode 0 0 -",
            "get 0 0 1",
            "poll-busoff 0 0 - [7 0 7 0] [4 0 0 0]",
            "poll-mode 0 0 -",
            "get 0 0 2"
        ]
    );
}

#[test]
fn the_state_is_bus_off_until_started() {
    for (off, transmit, receive) in
        [("errors 0 300 200", 300, 200), ("busoff 0", 0, 0), ("errors 0 256 0", 256, 0)]
    {
        let told = answered(2, receive, transmit.min(255));
        let counts = format!("{transmit},{receive}");
        let mut front = [&STARTED[..], &[off]].concat();
        let mut judge = |lines: &[&'static str], controller: &str| {
            front.extend(lines);
            let asked = after(&front, &[&ASKED[..], &["state"]].concat());
            assert_eq!(asked[..3], told, "{front:?}");
            assert_eq!(asked[3], state(&format!("{controller},{counts}")), "{front:?}");
        };
        judge(&[], "1,0,1,0");
        judge(&["set 0 STOPPED", "poll mode"], "1,2,1,0");
        judge(&["poll busoff"], "2,0,0,1");
        judge(&["poll busoff"], "2,0,0,1");
        judge(&["set 0 STOPPED", "poll mode"], "2,0,0,1");
        judge(&["set 0 SLEEP", "poll mode"], "3,0,0,1");
        judge(&["set 0 SLEEP", "poll mode"], "3,0,0,1");
        judge(&["set 0 STOPPED", "poll mode"], "2,0,0,1");
        judge(&["set 0 STARTED"], "2,1,0,1");
        front.push("poll mode");
        assert_eq!(after(&front, &ASKED), answered(0, 0, 0));
        assert_eq!(after(&front, &["state"]), [state("1,0,0,0,0,0")]);
        // From there it goes on as after the first start.
        assert_eq!(after(&front, &["errors 0 0 128"]), ["errors 0 0 - [8 0 0 128]"]);
    }
}

#[test]
fn a_stop_keeps_the_counts_and_a_start_does_not() {
    let front = [&STARTED[..], &["errors 0 128 65535", "set 0 2", "poll mode"]].concat();
    assert_eq!(after(&front, &ASKED), answered(1, 255, 128));
    assert_eq!(after(&front, &["state"]), [state("2,0,0,0,128,65535")]);
    let asleep = [&front[..], &["set 0 SLEEP", "poll mode"]].concat();
    assert_eq!(after(&asleep, &["state"]), [state("3,0,0,0,128,65535")]);
    let started = [&front[..], &["set 0 STARTED", "poll mode"]].concat();
    assert_eq!(after(&started, &ASKED), answered(0, 0, 0));
    assert_eq!(after(&started, &["errors 0 128 0"]), ["errors 0 0 - [8 0 128 0]"]);
}

#[test]
fn a_bus_off_event_keeps_the_counts() {
    let front = [&STARTED[..], &["errors 0 100 200", "busoff 0"]].concat();
    assert_eq!(after(&front, &["state"]), [state("1,0,1,0,100,200")]);
    assert_eq!(after(&front, &ASKED), answered(2, 200, 100));
    let polled = [&front[..], &["poll busoff"]].concat();
    assert_eq!(after(&polled, &["state"]), [state("2,0,0,1,100,200")]);
    assert_eq!(after(&polled, &ASKED), answered(2, 200, 100));
    // A DeInit takes all with it.
    assert_eq!(after(&polled, &["deinit", K, "state"])[2], state("2,0,0,0,0,0"));
}

#[test]
fn controllers_count_apart() {
    let two = "init 4348420001020000";
    let front = [two, "set 0 1", "set 1 1", "poll mode", "errors 1 256 0", "errors 0 128 1"];
    assert_eq!(after(&front[..5], &["errors 0 128 1"]), ["errors 0 0 - [8 0 128 1]"]);
    assert_eq!(
        after(&front, &["state", "errorstate 0", "errorstate 1", "poll busoff", "state"]),
        [
            "state 1 2 0 c:1,0,0,0,128,1 c:1,0,1,0,256,0",
            "errorstate 0 0 1",
            "errorstate 0 0 2",
            "poll-busoff 0 0 - [4 1 0 0]",
            "state 1 2 0 c:1,0,0,0,128,1 c:2,0,0,1,256,0"
        ]
    );
}
