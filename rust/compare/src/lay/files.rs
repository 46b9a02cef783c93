//! The program `lay` on drawn files of bell walls: what it prints against the published code with its defaults.

use super::printed;
use generate::{clouds, Random};
use std::fmt::Write as _;
use std::io::Write as _;
use std::process::{Command, Stdio};

const LAY: &str = "target/bin/lay";

/// The least radius: below it the published code goes through very many cells at its default of 0.2.
const RADIUS: f64 = 0.02;

/// A wall in rings with jitter, in one of several sizes, so that each default decides something in some file: points
/// some 0.05 to 0.4 apart, where the additional radii count, and some 0.0002 apart, where the least area does. Points are
/// missing, more so towards the lip, so that the percentiles count; some were scanned twice, which makes triangles of
/// little quality.
pub fn drawn(seed: u64, number: u64) -> String {
    let random = &mut Random::new(seed, number);
    let size = random.whole(20, 220);
    let cloud = clouds::bell(random, size);
    let apart = random.pick(&[0.000_15, 0.000_25, 0.02, 0.05, 0.1, 0.15, 0.2, 0.3, 0.4, 1.0]) * random.within(0.7, 1.4);
    let (shoulder, lip) = (random.pick(&[100, 90, 60]), random.pick(&[100, 60, 25]));
    let twice = random.pick(&[0, 0, 8, 25]);
    let count = cloud.points.len() / 3;
    let mut out = format!("{:.6}\n", (apart * random.within(0.8, 2.5)).max(RADIUS));
    for (i, p) in cloud.points.chunks_exact(3).enumerate() {
        let point = [p[0], p[1], p[2]].map(|x| f64::from(x) * apart / cloud.spacing);
        if random.percent(if 3 * i < 2 * count { shoulder } else { lip }) {
            write_point(&mut out, point);
        }
        if random.percent(twice) {
            let near = apart * random.within(0.02, 0.08);
            write_point(&mut out, point.map(|x| x + random.within(-near, near)));
        }
    }
    out
}

/// A line of the file, with a normal that points away from the axis.
fn write_point(out: &mut String, [x, y, z]: [f64; 3]) {
    let away = x.hypot(y).max(RADIUS * 1e-6);
    writeln!(out, "{x:.6},{y:.6},{z:.6},{:.6},{:.6},0", x / away, y / away).expect("to a string");
}

fn lay(file: &str) -> Vec<u8> {
    let mut lay = Command::new(LAY).stdin(Stdio::piped()).stdout(Stdio::piped()).spawn().expect("target/bin/lay");
    // The program reads its whole input before it prints; it ends early where the file is too long.
    lay.stdin.take().expect("piped").write_all(file.as_bytes()).expect("it reads");
    lay.wait_with_output().expect("it ends").stdout
}

/// Prints how many files came out the same, and the first that did not; true if all did.
pub fn files(count: u64, seed: u64) -> bool {
    let (mut laid, mut first) = (0, None);
    let mut different = 0;
    for number in 0..count {
        let file = drawn(seed, number);
        let expected = printed(file.as_bytes());
        laid += u64::from(!expected.starts_with("refused"));
        if lay(&file) != expected.as_bytes() {
            different += 1;
            first.get_or_insert((number, file, expected));
        }
    }
    println!("lay: {count} files compared, {different} different, accepted {laid}");
    if let Some((number, file, expected)) = first {
        println!("first difference: case {number} of seed {seed}, file:\n{file}expected:\n{expected}");
    }
    different == 0 && laid > 0
}
