//! Damaged scans: whatever the bytes are, the command ends with a status of its table, says why, and never panics.

mod common;
use common::*;
use std::fs;
use std::time::{Duration, Instant};

/// How long scans are damaged.
const TIME: Duration = Duration::from_secs(20);

/// How many files one call gets.
const FILES: usize = 250;

/// The scans that are damaged.
fn scans() -> Vec<Vec<u8>> {
    let points = wall(&mut Draw(5), 5, 6);
    let lines: String = points.iter().map(|p| p.map(|x| x.to_string()).join(" ") + "\n").collect();
    let names: String = ["x", "y", "z", "nx", "ny", "nz"].map(|name| format!("property double {name}\n")).concat();
    let ascii = format!("ply\nformat ascii 1.0\ncomment c\nelement vertex 30\n{names}end_header\n{lines}");
    let listed = "ply\nformat binary_big_endian 1.0\nelement a 2\nproperty list uchar int i\nelement vertex 1\n\
        property float x\nproperty list int float l\nproperty float y\nproperty float z\nproperty float nx\n\
        property float ny\nproperty float nz\nend_header\n";
    let listed = [listed.as_bytes(), &[1, 0, 0, 0, 1, 0], &[0; 40]].concat();
    let table = format!("//X Y Z Nx Ny Nz\n30\n{lines}");
    let cloud = fs::read(case("six-points")).unwrap();
    vec![binary_ply(&points), ascii.into_bytes(), listed, lines.into_bytes(), table.into_bytes(), cloud]
}

/// Words that mean something to a reader.
const WORDS: [&str; 14] = [
    "ply\n",
    "\r\n",
    "end_header\n",
    "element vertex 99999999999\n",
    "property list uchar int x\n",
    "nan",
    "1e39",
    "-",
    ",",
    ";",
    "#",
    "\u{feff}",
    "0.1234567",
    "4097",
];

fn damaged(scan: &[u8], draw: &mut Draw) -> Vec<u8> {
    let mut bytes = scan.to_vec();
    for _ in 0..1 + draw.below(4) {
        let at = draw.below(bytes.len() + 1);
        let end = (at + draw.below(20)).min(bytes.len());
        match draw.below(6) {
            0 => bytes.truncate(at),
            1 => drop(bytes.drain(at..end)),
            2 => drop(bytes.splice(at..at, WORDS[draw.below(WORDS.len())].bytes())),
            3 => drop(bytes.splice(at..end, WORDS[draw.below(WORDS.len())].bytes())),
            4 if at < bytes.len() => bytes[at] = draw.next() as u8,
            _ if at < bytes.len() => bytes[at] ^= 1 << draw.below(8),
            _ => {}
        }
    }
    bytes
}

#[test]
fn damaged_scans() {
    let here = folder("fuzz");
    let (scans, mut draw) = (scans(), Draw(2026));
    let start = Instant::now();
    let (mut laid, mut refused) = (0, 0);
    while start.elapsed() < TIME {
        let mut words = vec!["lay".to_string(), "--json".to_string(), "--quiet".to_string()];
        if draw.below(2) == 0 {
            words.extend(["--thin", "20"].map(String::from));
        }
        for number in 0..FILES {
            let bytes = damaged(&scans[draw.below(scans.len())], &mut draw);
            words.push(file(&here, &number.to_string(), bytes));
        }
        let output = run(&words);
        let told = String::from_utf8_lossy(&output.stderr);
        assert!(!told.contains("panicked"), "{told}");
        let lines = text(&output.stdout);
        assert_eq!(lines.lines().count(), FILES, "{told}");
        for line in lines.lines() {
            let object: serde_json::Value = serde_json::from_str(line).expect("JSON");
            match object["status"].as_u64().expect("a status") {
                0 => laid += 1,
                21..=44 if object["error"].as_str().is_some_and(|error| error.len() > 20) => refused += 1,
                _ => panic!("{line}"),
            }
        }
    }
    assert!(laid > 100 && refused > 500, "{laid} laid, {refused} refused");
    println!("{laid} laid, {refused} refused");
}
