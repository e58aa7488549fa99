//! The program `compare`, with the model's own program as the bench.

use std::process::{Command, Output};

const MODEL: &str = env!("CARGO_BIN_EXE_model");
const WRONG_BENCH: &str = concat!(env!("CARGO_MANIFEST_DIR"), "/tests/wrong-bench");

/// Runs `compare` and gives its status, standard output and standard error.
fn compare(arguments: &[&str]) -> (Option<i32>, String, String) {
    let Output { status, stdout, stderr } = Command::new(env!("CARGO_BIN_EXE_compare"))
        .args(arguments)
        .env("MODEL", MODEL)
        .output()
        .expect("compare can be started");
    let text = |bytes| String::from_utf8(bytes).expect("plain text");
    (status.code(), text(stdout), text(stderr))
}

#[test]
fn a_good_bench_agrees() {
    for piece in ["65536", "100"] {
        let (status, said, _) =
            compare(&[MODEL, "--seeds", "1..4", "--lines", "300", "--piece", piece]);
        assert_eq!(status, Some(0), "{said}");
        assert!(said.starts_with("compare: 6 nights, 1800 lines, "), "{said}");
        assert!(said.ends_with(&format!("the model and {MODEL} agree in every byte\n")), "{said}");
        assert_eq!(said.lines().count(), 1);
    }
}

#[test]
fn a_wrong_bench_is_found_and_the_night_shrunk() {
    let (status, said, _) = compare(&[WRONG_BENCH, "--seeds", "1..2", "--lines", "2000"]);
    assert_eq!(status, Some(1), "{said}");
    let lines: Vec<&str> = said.lines().collect();
    assert!(lines[0].starts_with("compare: seed 1, calm: output line "), "{said}");
    assert!(lines[1].starts_with("    model: ") && lines[1].ends_with(" write 2 36 -"), "{said}");
    assert!(lines[2].starts_with("    bench: ") && lines[2].ends_with(" write 2 35 -"), "{said}");
    assert_eq!(lines[3], "the whole night: nights 1 2000 calm");
    // Init, a request, the mode poll and two writes; then five answers of each, and the end.
    assert!(lines[4].ends_with(" trials: 5"), "{said}");
    let [.., model, _, _, _, _, _, _, bench, _] = lines[..] else { panic!("{said}") };
    assert_eq!((model, bench), ("    5 write 2 36 -", "    5 write 2 35 -"));
}

#[test]
fn what_cannot_be_compared_has_a_status_of_its_own() {
    for (arguments, trouble) in [
        (&["/no/such/bench"][..], "compare: /no/such/bench cannot be started ("),
        (
            &["false"],
            "compare: false died (exit status: 1), in the night of: nights 1 10000 calm\n",
        ),
        (&[], "compare: no bench is named\nusage: compare BENCH "),
        (&[MODEL, "--lines"], "compare: --lines needs a value\nusage: compare BENCH "),
    ] {
        let (status, said, complaint) = compare(arguments);
        assert_eq!((status, said.as_str()), (Some(2), ""), "{arguments:?}");
        assert!(complaint.starts_with(trouble), "{complaint}");
    }
}
