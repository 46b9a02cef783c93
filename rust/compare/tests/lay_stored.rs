//! The stored runs of the program `lay` are what the published code gives.

use std::fs::read;
use std::path::Path;

fn same(input: &Path, output: &Path) {
    let expected = compare::lay::printed(&read(input).expect("the input"));
    let stored = read(output).expect("the output");
    assert!(stored == expected.as_bytes(), "{} differs; expected:\n{expected}", output.display());
}

#[test]
fn bell_wall() {
    let folder = Path::new(env!("CARGO_MANIFEST_DIR")).join("../../crates/lay");
    same(&folder.join("stdin"), &folder.join("stdout"));
}

#[test]
fn cases() {
    let folder = Path::new(env!("CARGO_MANIFEST_DIR")).join("../../tests/lay-cases");
    let entries = folder.read_dir().expect("the cases").map(|e| e.expect("an entry").path());
    let inputs: Vec<_> = entries.filter(|path| path.extension().is_some_and(|e| e == "csv")).collect();
    assert!(inputs.len() >= 5, "the cases are gone");
    for input in inputs {
        same(&input, &input.with_extension("out"));
    }
}
