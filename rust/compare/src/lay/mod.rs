//! What the program `lay` prints, a second time: the independent reader, the published code, and the listing.

mod defaults;
mod files;

pub use defaults::defaults;
pub use files::files;

use crate::cloud::reader::read_cloud;
use expect::Found;
use generate::{clouds, Random};
use oracle::{Laid, Settings};
use std::fmt::Write;

/// The most bytes of a file, points and faces.
const BYTES: usize = 65_536;
const POINTS: usize = 512;
const FACES: usize = 5_000;

/// Steps that the published code may take.
const BUDGET: u64 = 1_000_000_000;

fn listing(points: usize, laid: &Laid) -> String {
    let t = laid.tally;
    let mut out = "points,faces,seeds,looks,pivots\n".to_string();
    writeln!(out, "{points},{},{},{},{}\nface,a,b,c", laid.faces.len(), t.seeds, t.looks, t.pivots)
        .expect("to a string");
    for (i, [a, b, c]) in laid.faces.iter().enumerate() {
        writeln!(out, "{i},{a},{b},{c}").expect("to a string");
    }
    out
}

/// The text for a file.
pub fn printed(bytes: &[u8]) -> String {
    let refused = |answer: u32, detail: usize| format!("refused,{answer},{detail}\n");
    if bytes.len() > BYTES {
        return refused(11, 0);
    }
    let (mut points, mut normals) = (vec![0.0; 3 * POINTS], vec![0.0; 3 * POINTS]);
    let read = read_cloud(bytes, &mut points, &mut normals);
    if read.answer != 0 {
        return refused(read.answer, read.detail);
    }
    points.truncate(3 * read.count);
    normals.truncate(3 * read.count);
    let work = [24 * POINTS + 64, 4 * POINTS + 64];
    let found = expect::find(&points, &normals, &Settings::at_radius(read.radius), work, BUDGET);
    match found.expect("within the limits") {
        Found::Early(refusal) => refused(refusal.answer, refusal.detail as usize),
        Found::NoTriangle { answer, .. } => refused(answer, 0),
        Found::Laid(laid) if laid.faces.len() > FACES => refused(9, 0),
        Found::Laid(laid) => listing(read.count, &laid),
    }
}

/// The cloud file of a bell's wall with about this many points: rings with jitter, and normals that point away from the axis.
pub fn bell(size: usize, seed: u64) -> String {
    let cloud = clouds::bell(&mut Random::new(seed, 0), size);
    let mut out = format!("{:.3}\n", cloud.spacing * 1.2);
    for p in cloud.points.chunks_exact(3) {
        let away = p[0].hypot(p[1]);
        writeln!(out, "{:.6},{:.6},{:.6},{:.6},{:.6},0", p[0], p[1], p[2], p[0] / away, p[1] / away)
            .expect("to a string");
    }
    out
}
