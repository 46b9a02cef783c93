//! The comparison as a program: what it ends with.

use std::process::{Command, Output};

fn compare(words: &[&str]) -> Output {
    Command::new(env!("CARGO_BIN_EXE_compare")).args(words).output().expect("the program runs")
}

#[test]
fn bad_usage_ends_with_2() {
    assert_eq!(compare(&[]).status.code(), Some(2));
    assert_eq!(compare(&["estimate", "many", "1"]).status.code(), Some(2));
}

/// On the multi-radius path looks are 3F and pivots 2F + S.
#[test]
fn counts_of_the_oracle() {
    let out = compare(&["oracle", "150", "9"]);
    let said = String::from_utf8_lossy(&out.stdout).to_string();
    assert!(out.status.success() && said.contains(" 0 different"), "{said}");
}

/// A comparison of nothing is no success.
#[test]
fn nothing_compared_is_a_failure() {
    assert_eq!(compare(&["oracle", "0", "1"]).status.code(), Some(1));
}
