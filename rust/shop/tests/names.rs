//! The names of the JSON objects are those of the table in docs/COMMAND.md, every one and no other.

mod common;
use common::*;
use serde_json::Value;
use std::collections::BTreeSet;
use std::fs;

/// The names in a row of the table: what stands in backquotes, without remarks in brackets and what follows a semicolon.
fn documented(row: &str) -> BTreeSet<String> {
    let page = fs::read_to_string(concat!(env!("CARGO_MANIFEST_DIR"), "/../../docs/COMMAND.md")).unwrap();
    let line = page.lines().find(|line| line.starts_with(&format!("| {row} |"))).expect("a row");
    let names = line.split(" | ").nth(1).unwrap().split(';').next().unwrap();
    let mut plain = String::new();
    let mut depth = 0;
    for c in names.chars() {
        depth += i32::from(c == '(') - i32::from(c == ')');
        plain.push(if depth == 0 { c } else { ' ' });
    }
    plain.split('`').skip(1).step_by(2).map(str::to_string).collect()
}

fn names(object: &Value) -> BTreeSet<String> {
    object.as_object().expect("an object").keys().cloned().collect()
}

fn object(words: &[&str]) -> Value {
    serde_json::from_slice(&run(words).stdout).expect("one object")
}

#[test]
fn as_documented() {
    let here = folder("names-of-json");
    let bell = data("bell.csv");
    let listing = file(&here, "listing", said(&["lay", "--listing", &bell]));
    let faces = file(&here, "faces", "0,1,2\n");
    let season = format!("{DATA}/../season");
    let thinned = object(&["lay", "--json", "--quiet", "--thin", "30", &bell]);
    let objects = [
        ("`lay`", object(&["lay", "--json", &bell])),
        ("`left_out` of `lay`, or null", thinned["left_out"].clone()),
        ("a file that failed", object(&["lay", "--json", "no such file"])),
        ("`estimate`", object(&["estimate", "--json", &bell])),
        ("`why`", object(&["why", "--json", &bell, "0", "1", "2"])),
        ("`nearest`", object(&["nearest", "--json", &bell, "0", "0", "0"])),
        ("`season`", object(&["season", "--json", &season])),
        ("`order`", object(&["order", "--json", &faces])),
        ("`verify`", object(&["verify", "--json", &bell, &listing])),
    ];
    for (row, object) in objects {
        assert_eq!(names(&object), documented(row), "{row}");
    }
}
