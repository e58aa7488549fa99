//! Helpers shared by the tests: playing scripts and reading the answers.
#![allow(dead_code)]

pub mod printed;

/// The paper's configuration K.
pub const K: &str = "init 4348420001010200\
                     000040CC0000000000000000\
                     0001080000000120000007FF";

/// P5's write.
pub const P5: &str = "write 0 7 40000123 010203040506070809";

/// Plays a script from a fresh bench and gives the answers without line numbers, and without the last line, which tells of the end.
pub fn play(script: &str) -> Vec<String> {
    let output = play_bytes(script.as_bytes());
    let mut lines: Vec<&str> = output.lines().collect();
    let end = lines.pop().expect("an end");
    assert!(end.starts_with("end "), "{end}");
    lines.iter().map(|line| line.split_once(' ').expect("a line number").1.to_string()).collect()
}

/// Plays a script and gives the output as it is.
pub fn play_bytes(script: &[u8]) -> String {
    let mut output = Vec::new();
    pump_model::night::play(script, &mut output).expect("no trouble in memory");
    String::from_utf8(output).expect("plain text")
}

/// Plays lines in front and then the lines of interest; gives the answers to these.
pub fn after(front: &[&str], lines: &[&str]) -> Vec<String> {
    let answers = play(&front.join("\n"));
    let all = play(&[front, lines].concat().join("\n"));
    all[answers.len()..].to_vec()
}

/// K accepted and controller 0 STARTED.
pub const STARTED: [&str; 3] = [K, "set 0 STARTED", "poll mode"];

/// The answer to one line after K with controller 0 STARTED.
pub fn fresh(line: &str) -> String {
    after(&STARTED, &[line]).pop().expect("an answer")
}

/// `count` bytes 01, 02, .. as hex digits.
pub fn bytes(count: usize) -> String {
    if count == 0 {
        return "-".to_string();
    }
    (1..=count).map(|number| format!("{number:02x}")).collect()
}
