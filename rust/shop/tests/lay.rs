//! `yarrowbleat lay` as a shop runs it: lines, tables, statuses, many files, limits and a watched folder.

mod common;
use common::*;
use serde_json::Value;
use std::ffi::OsStr;
use std::fs;
use std::io::{BufRead, BufReader, Write};
use std::os::unix::ffi::OsStrExt;
use std::process::Stdio;
use std::time::{Duration, Instant};

#[test]
fn lines() {
    let bell = data("bell.csv");
    let line = format!("{bell}: faces 54, seeds 3, reached 60 of 62 points, open edges 60, area 6.878587\n");
    let said_line = said(&["lay", &bell]);
    assert!(said_line == line, "{said_line}");
    let coverage = said(&["lay", "--coverage", &bell]);
    assert!(coverage.starts_with(said_line.trim_end()) && coverage.ends_with("\n  not reached: 60 61\n"));
    let listing = said(&["lay", &format!("{DATA}/../../crates/lay/stdin"), "--listing"]);
    assert_eq!(listing, fs::read_to_string(format!("{DATA}/../../crates/lay/stdout")).unwrap());
    let version = said(&["--version"]);
    assert_eq!(version, concat!("yarrowbleat ", env!("CARGO_PKG_VERSION"), "\n"));
}

/// Standard input, alone and beside files.
#[test]
fn standard_input() {
    let mut child = command().args(["lay", "-"]).stdin(Stdio::piped()).stdout(Stdio::piped()).spawn().unwrap();
    child.stdin.take().unwrap().write_all(&fs::read(data("meshlab-binary.ply")).unwrap()).unwrap();
    let output = child.wait_with_output().unwrap();
    assert!(text(&output.stdout).starts_with("-: faces "));
    assert!(failed(&["lay", "-", "-"]).1.contains("`-` stands twice"));
}

/// The names of JSON and of the table are those of the manual, and the counts fit together.
#[test]
fn json_and_csv() {
    let hole = data("hole.csv");
    let object: Value = serde_json::from_str(&said(&["lay", "--json", &hole])).unwrap();
    let count = |name: &str| object[name].as_u64().unwrap();
    let (faces, seeds) = (count("faces"), count("seeds"));
    assert_eq!((count("points"), faces, seeds, count("reached")), (463, 451, 3, 457));
    assert_eq!((count("looks"), count("pivots")), (3 * faces, 2 * faces + seeds));
    assert_eq!((count("open_edges"), count("shared_edges")), (faces + 2 * seeds, faces - seeds));
    assert_eq!(object["unreached"].as_array().unwrap().len(), 6);
    assert_eq!((&object["form"], &object["radius_estimated"]), (&Value::from("cloud"), &Value::from(false)));
    assert!(object["area"].as_f64().unwrap() > 0.0);
    let output = run(&["lay", "--csv", &hole, &case("too-far")]);
    assert_eq!(output.status.code(), Some(24));
    let table = text(&output.stdout);
    let rows: Vec<Vec<&str>> = table.lines().map(|line| line.split(',').collect()).collect();
    let header =
        "file,status,points,faces,seeds,looks,pivots,reached,open_edges,shared_edges,area,radius,radius_estimated";
    assert_eq!(rows[0].join(","), header);
    assert_eq!(rows[1][1..5], ["0", "463", "451", "3"]);
    assert!(rows[2][1] == "24" && rows.iter().all(|row| row.len() == 13), "{table}");
    let output = run(&["lay", "--json", &case("too-far")]);
    let object: Value = serde_json::from_slice(&output.stdout).unwrap();
    assert_eq!((object["status"].as_u64(), object["answer"].as_u64()), (Some(24), Some(4)));
}

/// Of one cloud that is refused the status is 20 and the answer's number, of several that of the first.
#[test]
fn statuses() {
    let expected = [
        ("empty", 21, "the file is empty"),
        ("radius-alone", 21, "the file has no points"),
        ("radius-zero", 25, "it is 0, and 0.001 to 1,000 is taken"),
        ("seventh-field", 30, "it has 7 fields"),
        ("too-far", 24, "coordinates are numbers from -10,000 to 10,000"),
        ("two-points", 28, "fewer than three points"),
        ("none-close", 35, "--radius gives a larger one"),
        ("in-a-line", 36, "`yarrowbleat why` says why"),
        ("no-last-line-feed", 30, "its last line has no line feed"),
    ];
    for (name, status, words) in expected {
        let (code, line) = failed(&["lay", &case(name)]);
        assert!(code == status && line.contains(words), "{name}: {code}, {line}");
    }
    let several = run(&["lay", &data("bell.csv"), &case("too-far"), &case("empty")]);
    assert_eq!(several.status.code(), Some(24));
    assert_eq!(text(&several.stdout).lines().count(), 1);
    let lines = text(&several.stderr);
    assert!(lines.lines().count() == 3 && lines.ends_with("2 of 3 files failed\n"), "{lines}");
    let (status, line) = failed(&["lay", "no such file"]);
    assert!(status == 1 && line.starts_with("no such file: No such file"), "{line}");
}

/// Words that are not understood are status 1.
#[test]
fn words() {
    let bell = data("bell.csv");
    let all: [&[&str]; 13] = [
        &[],
        &["lie", &bell],
        &["lay"],
        &["lay", "--radius"],
        &["lay", "--radius", "x", &bell],
        &["lay", "--radius", "1", "--radius", "2", &bell],
        &["lay", "--fast", &bell],
        &["lay", "--listing", "--coverage", &bell],
        &["lay", "--thin", "4097", &bell],
        &["lay", "--columns", "x,y,q", &bell],
        &["lay", "--jobs", "0", &bell],
        &["lay", "--limit", "-1", &bell],
        &["page", &bell],
    ];
    for words in all {
        assert_eq!(failed(words).0, 1, "{words:?}");
    }
}

#[test]
fn enough_reached() {
    let hole = data("hole.csv");
    assert!(run(&["lay", &hole, "--require-reached", "0.98"]).status.success());
    let output = run(&["lay", &hole, &data("bell.csv"), "--require-reached", "0.99"]);
    assert_eq!(output.status.code(), Some(10));
    assert_eq!(text(&output.stdout).lines().count(), 2);
    let first = run(&["lay", &hole, &case("too-far"), "--require-reached", "0.99"]);
    assert_eq!(first.status.code(), Some(10));
    assert!(text(&output.stderr).contains("0.987041 of its points are reached, and 0.99 were asked for"));
}

/// A name that is no UTF-8 is a name.
#[test]
fn any_name() {
    let here = folder("names");
    let path = here.join(OsStr::from_bytes(b"glocke-\xfc.csv"));
    fs::copy(data("bell.csv"), &path).unwrap();
    let output = run(&[OsStr::new("lay"), path.as_os_str()]);
    assert!(output.status.success() && output.stdout.starts_with(path.as_os_str().as_bytes()));
    let output = run(&[OsStr::new("lay"), OsStr::new("--csv"), path.as_os_str()]);
    assert!(output.status.success() && output.stdout.windows(8).any(|bytes| bytes == b"-\xfc.csv,0"));
    let folder_output = run(&["season", here.to_str().unwrap()]);
    assert!(folder_output.status.success());
    assert_eq!(failed(&[OsStr::new("lay"), OsStr::from_bytes(b"no-\xfc")]).0, 1);
}

/// A thousand files on several threads: a line for each, in order, and the same as on one.
#[test]
fn many_files() {
    let here = folder("many");
    let clouds = [data("bell.csv"), data("hole.csv"), data("three.csv")].map(|path| fs::read(path).unwrap());
    for number in 0..1000 {
        file(&here, &format!("{number:04}.csv"), &clouds[number % 3]);
    }
    file(&here, "notes.md", "no scan");
    let here = here.to_str().unwrap();
    let lines = said(&["lay", here, "--jobs", "4"]);
    for (number, line) in lines.lines().enumerate() {
        let faces = ["54", "451", "1"][number % 3];
        assert!(line.contains(&format!("/{number:04}.csv: faces {faces},")), "{line}");
    }
    assert_eq!(lines.lines().count(), 1000);
    assert!(lines == said(&["lay", here, "--jobs", "1"]));
}

/// A cloud of 4,096 points is laid, one of 4,097 refused with its count.
#[test]
fn most_points() {
    let here = folder("most");
    let wall = |count: usize| {
        let point = |i: usize| {
            format!("{}.{:02},{}.{:02},0,0,0,1\n", i % 64 / 10, i % 64 % 10 * 10, i / 64 / 10, i / 64 % 10 * 10)
        };
        file(&here, &count.to_string(), format!("0.1\n{}", (0..count).map(point).collect::<String>()))
    };
    assert!(said(&["lay", &wall(4096)]).contains(" of 4096 points"));
    let (status, line) = failed(&["lay", &wall(4097)]);
    assert!(status == 23 && line.contains("the scan has 4,097 points"), "{line}");
}

/// A file that takes too long is given up and passed over; the others come out as without a limit.
#[test]
fn limited() {
    let here = folder("limited");
    // A FIFO that nobody writes to never ends.
    let slow = here.join("slow.csv");
    assert!(std::process::Command::new("mkfifo").arg(&slow).status().unwrap().success());
    let start = Instant::now();
    let words = ["lay", &data("bell.csv"), slow.to_str().unwrap(), &data("hole.csv"), "--limit", "1"];
    let output = run(&words);
    assert!(start.elapsed() < Duration::from_secs(20));
    assert_eq!(output.status.code(), Some(11));
    assert!(text(&output.stderr).contains("slow.csv: given up after 1 seconds"));
    assert_eq!(text(&output.stdout), said(&["lay", &data("bell.csv"), &data("hole.csv")]));
    let ply = data("meshlab-binary.ply");
    let options = ["--radius", "0.31", "--crop=-9,-9,-9,9,9,0.5", "--thin", "40", "--columns", "x,y,z"];
    let plain = said(&[&["lay", "--listing", &ply][..], &options].concat());
    assert_eq!(said(&[&["lay", "--listing", &ply, "--limit", "60"][..], &options].concat()), plain);
    let (status, line) = failed(&["lay", &case("too-far"), "--limit", "60"]);
    assert!(status == 24 && line.contains("too-far.csv: refused, 4"), "{line}");
}

/// Scans that come into a watched folder are laid once they rest, and again when they change.
#[test]
fn watched() {
    let here = folder("watched");
    let mut child = command().args(["lay", "--watch", here.to_str().unwrap()]).stdout(Stdio::piped()).spawn().unwrap();
    let mut lines = BufReader::new(child.stdout.take().unwrap()).lines();
    let mut next = || lines.next().unwrap().unwrap();
    fs::copy(data("bell.csv"), here.join("a.csv")).unwrap();
    assert!(next().contains("a.csv: faces 54,"));
    fs::copy(data("three.csv"), here.join("b.csv")).unwrap();
    assert!(next().contains("b.csv: faces 1,"));
    fs::copy(data("hole.csv"), here.join("a.csv")).unwrap();
    assert!(next().contains("a.csv: faces 451,"));
    child.kill().unwrap();
    child.wait().unwrap();
}

/// With two jobs two files are worked on at once: the second one can be written before the first.
#[test]
fn at_once() {
    let here = folder("at-once");
    let fifos = ["a.csv", "b.csv"].map(|name| here.join(name));
    for fifo in &fifos {
        assert!(std::process::Command::new("mkfifo").arg(fifo).status().unwrap().success());
    }
    let mut command = command();
    let child = command.args(["lay", "--jobs", "2"]).args(&fifos).stdout(Stdio::piped()).spawn().unwrap();
    fs::OpenOptions::new()
        .write(true)
        .open(&fifos[1])
        .unwrap()
        .write_all(&fs::read(data("three.csv")).unwrap())
        .unwrap();
    fs::OpenOptions::new()
        .write(true)
        .open(&fifos[0])
        .unwrap()
        .write_all(&fs::read(data("bell.csv")).unwrap())
        .unwrap();
    let output = text(&child.wait_with_output().unwrap().stdout);
    let lines: Vec<&str> = output.lines().collect();
    assert!(lines[0].contains("a.csv: faces 54,") && lines[1].contains("b.csv: faces 1,"), "{output}");
}

/// Whoever reads the results may stop.
#[test]
fn closed_pipe() {
    let mut child = command().args(["lay", "--listing", &data("hole.csv")]).stdout(Stdio::piped()).spawn().unwrap();
    drop(child.stdout.take());
    assert!(child.wait().unwrap().success());
}
