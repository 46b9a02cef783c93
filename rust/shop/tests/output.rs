//! What is written, and what is never written over.

mod common;
use common::*;
use std::fs;
use std::os::unix::fs::{symlink, PermissionsExt};
use std::process::{Command, Stdio};

/// An output that is an input, by whatever name, is refused, by force too.
#[test]
fn inputs_stay() {
    let here = folder("inputs-stay");
    let scan = file(&here, "scan.csv", fs::read(data("bell.csv")).unwrap());
    let link = here.join("link.csv");
    symlink(&scan, &link).unwrap();
    let hard = here.join("hard.csv");
    fs::hard_link(&scan, &hard).unwrap();
    let before = fs::read(&scan).unwrap();
    for out in
        [scan.as_str(), link.to_str().unwrap(), hard.to_str().unwrap(), &format!("{}/./scan.csv", here.display())]
    {
        for command in ["stl", "page", "convert"] {
            let (status, line) = failed(&[command, &scan, "-o", out, "--force"]);
            assert!(status == 1 && line.contains("it is one of the inputs"), "{line}");
        }
    }
    let ply = file(&here, "wall.ply", binary_ply(&wall(&mut Draw(1), 10, 10)));
    let beside = here.to_str().unwrap();
    let (status, line) = failed(&["stl", &ply, "--format", "ply", "--out-dir", beside, "--force"]);
    assert!(status == 1 && line.contains("it is one of the inputs"), "{line}");
    assert_eq!(fs::read(&scan).unwrap(), before);
}

/// A file that holds something else needs force; its mode stays, and a symlink stays one.
#[test]
fn replaced_by_force() {
    let here = folder("force");
    let bell = data("bell.csv");
    let out = file(&here, "bell.stl", "something else");
    fs::set_permissions(&out, fs::Permissions::from_mode(0o640)).unwrap();
    let link = here.join("link.stl");
    symlink("bell.stl", &link).unwrap();
    let (status, line) = failed(&["stl", &bell, "-o", &out]);
    assert!(status == 1 && line.ends_with("holds something else; --force replaces it"), "{line}");
    assert_eq!(fs::read(&out).unwrap(), b"something else");
    said(&["stl", &bell, "-o", link.to_str().unwrap(), "--force"]);
    assert_eq!(fs::read(&out).unwrap().len(), 84 + 54 * 50);
    assert_eq!(fs::metadata(&out).unwrap().permissions().mode() & 0o777, 0o640);
    assert!(fs::symlink_metadata(&link).unwrap().file_type().is_symlink());
    // The same bytes again are nothing to be sorry for.
    said(&["stl", &bell, "-o", &out]);
    let dangling = here.join("dangling.stl");
    symlink("new.stl", &dangling).unwrap();
    said(&["stl", &bell, "-o", dangling.to_str().unwrap()]);
    assert_eq!(fs::read(here.join("new.stl")).unwrap().len(), 84 + 54 * 50);
    assert_eq!(fs::read_dir(&here).unwrap().count(), 4);
}

/// A device and a FIFO are written to, and `-` is standard output.
#[test]
fn no_files() {
    let here = folder("no-files");
    let bell = data("bell.csv");
    said(&["stl", &bell, "-o", "/dev/null"]);
    let output = run(&["stl", &bell, "-o", "-"]);
    assert!(output.status.success() && output.stdout.len() == 84 + 54 * 50);
    let fifo = here.join("fifo");
    assert!(Command::new("mkfifo").arg(&fifo).status().unwrap().success());
    let reader = Command::new("cat").arg(&fifo).stdout(Stdio::piped()).spawn().unwrap();
    said(&["stl", &bell, "-o", fifo.to_str().unwrap()]);
    assert_eq!(reader.wait_with_output().unwrap().stdout, output.stdout);
    assert!(fs::symlink_metadata(&fifo).is_ok());
    let (status, line) = failed(&["stl", &bell, "-o", here.to_str().unwrap()]);
    assert!(status == 1 && line.contains("it is a folder"), "{line}");
    let (status, line) = failed(&["stl", &bell, "-o", "/no such folder/x"]);
    assert!(status == 1 && line.contains("No such file"), "{line}");
}

#[test]
fn many_results() {
    let here = folder("many-results");
    let out = here.join("out");
    let words = ["stl", &data("bell.csv"), &data("hole.csv"), "--out-dir", out.to_str().unwrap()];
    said(&words);
    let mut names: Vec<_> = fs::read_dir(&out).unwrap().map(|entry| entry.unwrap().file_name()).collect();
    names.sort();
    assert_eq!(names, ["bell.stl", "hole.stl"]);
    fs::create_dir(here.join("other")).unwrap();
    let twin = file(&here.join("other"), "bell.csv", "");
    let (status, line) = failed(&["stl", &data("bell.csv"), &twin, "--out-dir", out.to_str().unwrap(), "--force"]);
    assert!(status == 1 && line.contains("its result would have the name"), "{line}");
    let (status, line) = failed(&["stl", &data("bell.csv"), &data("hole.csv"), "-o", "x"]);
    assert!(status == 1 && line.contains("--out-dir"), "{line}");
    assert_eq!(failed(&["stl", &data("bell.csv")]).0, 1);
}
