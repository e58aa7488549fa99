//! The edges of the script format: `edges.script` and the answers to it.

mod common;

#[test]
fn edges_of_the_script_format() {
    let output = common::play_bytes(include_bytes!("edges.script"));
    let expected = include_str!("edges.words");
    for (number, (line, wanted)) in output.lines().zip(expected.lines()).enumerate() {
        assert_eq!(line, wanted, "answer {}", number + 1);
    }
    assert_eq!(output.len(), expected.len());
}
