//! Every change of the list can be applied to the published Rust as it stands.

use mutants::{changes, CHANGED, LIST};
use std::collections::HashSet;

fn read(name: &str) -> String {
    let path = format!("{}/../../{name}", env!("CARGO_MANIFEST_DIR"));
    std::fs::read_to_string(path).expect("a file of the repository")
}

#[test]
fn each_applies_and_changes_something() {
    let changes = changes(&read(LIST)).expect("a list");
    assert!(changes.len() >= 50, "{} changes", changes.len());
    for change in &changes {
        assert!(CHANGED.iter().any(|(file, _)| *file == change.file), "{}", change.name);
        let text = read(&change.file);
        assert_ne!(change.apply(&text).unwrap_or_else(|e| panic!("{e}")), text, "{}", change.name);
    }
}

#[test]
fn names_are_unlike() {
    let changes = changes(&read(LIST)).expect("a list");
    let names: HashSet<&str> = changes.iter().map(|change| change.name.as_str()).collect();
    assert_eq!(names.len(), changes.len());
}
