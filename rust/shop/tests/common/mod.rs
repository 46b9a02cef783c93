//! Running the command as a shop does, and files for it.

// Each test file takes what it needs.
#![allow(dead_code)]

use std::ffi::OsStr;
use std::fs;
use std::path::{Path, PathBuf};
use std::process::{Command, Output, Stdio};

pub const DATA: &str = concat!(env!("CARGO_MANIFEST_DIR"), "/../../tests/data");

pub fn data(name: &str) -> String {
    format!("{DATA}/{name}")
}

pub fn case(name: &str) -> String {
    format!("{DATA}/../lay-cases/{name}.csv")
}

pub fn command() -> Command {
    Command::new(env!("CARGO_BIN_EXE_yarrowbleat"))
}

pub fn run<S: AsRef<OsStr>>(words: &[S]) -> Output {
    command().args(words).stdin(Stdio::null()).output().expect("the command can be run")
}

pub fn text(bytes: &[u8]) -> String {
    String::from_utf8(bytes.to_vec()).expect("text")
}

/// What is printed, where all is well.
pub fn said<S: AsRef<OsStr>>(words: &[S]) -> String {
    let output = run(words);
    assert!(output.status.success(), "{}", text(&output.stderr));
    text(&output.stdout)
}

/// The status and what is told of a failure, with nothing on standard output.
pub fn failed<S: AsRef<OsStr>>(words: &[S]) -> (i32, String) {
    let output = run(words);
    assert!(output.stdout.is_empty(), "{}", text(&output.stdout));
    let told = text(&output.stderr);
    (output.status.code().expect("a status"), told.trim_start_matches("yarrowbleat: ").trim_end().to_string())
}

/// A folder of this test's own.
pub fn folder(name: &str) -> PathBuf {
    let path = Path::new(env!("CARGO_TARGET_TMPDIR")).join(name);
    let _ = fs::remove_dir_all(&path);
    fs::create_dir_all(&path).unwrap();
    path
}

pub fn file(folder: &Path, name: &str, bytes: impl AsRef<[u8]>) -> String {
    let path = folder.join(name);
    fs::write(&path, bytes).unwrap();
    path.to_str().unwrap().to_string()
}

/// Numbers that look random and are the same everywhere.
pub struct Draw(pub u64);

impl Draw {
    pub fn next(&mut self) -> u64 {
        self.0 = self.0.wrapping_mul(6_364_136_223_846_793_005).wrapping_add(1_442_695_040_888_963_407);
        self.0 >> 33
    }

    pub fn below(&mut self, limit: usize) -> usize {
        self.next() as usize % limit
    }

    /// From 0 to 1, at 31 bits.
    pub fn part(&mut self) -> f64 {
        self.next() as f64 / (1u64 << 31) as f64
    }
}

/// A wall in metres: a piece of a cylinder, with the noise of a scanner, as coordinates and normals.
pub fn wall(draw: &mut Draw, rows: usize, columns: usize) -> Vec<[f32; 6]> {
    let mut points = Vec::new();
    for at in 0..rows * columns {
        let (row, column) = ((at / columns) as f64, (at % columns) as f64);
        let mut noise = || (draw.part() - 0.5) * 0.0008;
        let angle = (column * 0.002 + noise()) / 0.4;
        let radius = 0.4 + noise() * 0.2;
        let (x, y, z) = (radius * angle.cos(), radius * angle.sin(), row * 0.002 + noise());
        points.push([x as f32, y as f32, z as f32, angle.cos() as f32, angle.sin() as f32, 0.0]);
    }
    points
}

/// A binary PLY file of such points.
pub fn binary_ply(points: &[[f32; 6]]) -> Vec<u8> {
    let names: String = ["x", "y", "z", "nx", "ny", "nz"].map(|name| format!("property float {name}\n")).concat();
    let count = points.len();
    let header = format!("ply\nformat binary_little_endian 1.0\nelement vertex {count}\n{names}end_header\n");
    let mut bytes = header.into_bytes();
    bytes.extend(points.as_flattened().iter().flat_map(|x| x.to_le_bytes()));
    bytes
}

/// The library's own answer on these values, as `lay --listing` prints it.
pub fn listing(points: &[[f32; 6]], radius: f32) -> Option<String> {
    let places: Vec<[f32; 3]> = points.iter().map(|p| [p[0], p[1], p[2]]).collect();
    let normals: Vec<[f32; 3]> = points.iter().map(|p| [p[3], p[4], p[5]]).collect();
    let patch = yarrowbleat::ball_pivoting_from_normals(&places, &normals, radius).ok()?;
    let faces = patch.faces.len();
    let mut text = "points,faces,seeds,looks,pivots\n".to_string();
    text += &format!("{},{faces},{},{},{}\nface,a,b,c\n", points.len(), patch.seeds, patch.looks, patch.pivots);
    for (number, [a, b, c]) in patch.faces.iter().enumerate() {
        text += &format!("{number},{a},{b},{c}\n");
    }
    Some(text)
}
