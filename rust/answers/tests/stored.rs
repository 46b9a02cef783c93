//! The stored list is what the Rust answers now.

use std::process::Command;

#[test]
fn stored_answers_are_the_present_ones() {
    let out = Command::new(env!("CARGO_BIN_EXE_answers")).output().expect("the program runs");
    let stored = concat!(env!("CARGO_MANIFEST_DIR"), "/../../tests/stored-answers.txt");
    let stored = std::fs::read(stored).expect("the stored list");
    assert!(stored.len() < 2_000_000, "the stored list is to stay under 2 MB");
    assert!(stored == out.stdout, "make the stored list again");
}
