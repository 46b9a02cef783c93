//! Clouds on which a search for seeds takes long: the families, and a hunt for those on which the port is slower than the Rust.

use crate::clock;
use crate::clouds::{line, reconstruct_times, Times};
use generate::slow::{self, Slow};
use generate::Random;
use std::time::Instant;

/// A family, its points, and how many times faster than the Rust the port is to be.
const ROWS: [(&str, usize, f64); 14] = [
    ("zero", 4_096, 5.0),
    ("late", 4_096, 1.0),
    ("second", 150, 30.0),
    ("arc", 150, 10.0),
    ("arc, low", 100, 50.0),
    ("two", 100, 50.0),
    ("score", 200, 20.0),
    ("area", 200, 50.0),
    ("dust", 150, 4.0),
    ("corners", 150, 3.0),
    ("edge", 150, 20.0),
    ("pivots", 1_024, 0.9),
    ("needles", 100, 50.0),
    ("sparse", 4_093, 2.0),
];

fn times(cloud: &Slow) -> (u32, Times) {
    reconstruct_times(5, &cloud.points, &vec![0.0; cloud.points.len()], &cloud.settings)
}

/// `bench slow [NAME] [POINTS]`: the families, or one of them, at so many points.
pub fn bench() -> bool {
    let size = std::env::args().nth(3).and_then(|s| s.parse().ok());
    rows(std::env::args().nth(2), size)
}

/// A line for each family, or for one. True if each ratio is reached.
pub fn rows(only: Option<String>, size: Option<usize>) -> bool {
    let mut reached = true;
    for (name, n, reach) in ROWS {
        if only.as_ref().is_some_and(|o| o != name) {
            continue;
        }
        let cloud = slow::family(name, &mut Random::new(1, 0), size.unwrap_or(n));
        let (faces, times) = times(&cloud);
        reached &= line(name, cloud.points.len() / 3, &faces.to_string(), times, reach);
    }
    reached
}

/// A family, its points, and how many seconds the port may take. The Rust, which takes minutes to hours, is not run.
const LARGE: [(&str, usize, f64); 7] = [
    ("arc", 4_096, 3.0),
    ("arc, low", 4_096, 3.0),
    ("two", 512, 0.2),
    ("score", 4_096, 4.0),
    ("area", 4_096, 4.0),
    ("dust", 1_024, 4.0),
    ("corners", 1_024, 4.0),
];

/// `bench large`, and rows of `bench clouds`: families of many points, the port alone. True if each is quick enough.
pub fn large() -> bool {
    let mut reached = true;
    for (name, n, most) in LARGE {
        let seconds = best_of(1, name, n);
        let short = if seconds > most { "  short" } else { "" };
        println!(
            "{name:<40} {n:>6} {:>6} {:>10} {:>10.1} {:>8} below {:.0}{short}",
            "",
            "",
            seconds * 1e3,
            "",
            most * 1e3
        );
        reached &= short.is_empty();
    }
    reached
}

/// The port's time on a family in seconds, the best of so many rounds; one that takes over 10 is not taken again.
fn best_of(rounds: usize, name: &'static str, n: usize) -> f64 {
    let cloud = slow::family(name, &mut Random::new(1, 0), n);
    let normals = vec![0.0; cloud.points.len()];
    let mut lent = crate::clouds::lend(n);
    let mut best = f64::INFINITY;
    for _ in 0..rounds {
        let start = clock::now();
        std::hint::black_box(port::reconstruct(&cloud.points, &normals, &cloud.settings, &mut lent));
        best = best.min((clock::now() - start).as_secs_f64());
        if best > 10.0 {
            break;
        }
    }
    best
}

/// `bench alone NAME POINTS`: the port's time on a family, in seconds, best of three; the Rust is not run.
pub fn alone() -> bool {
    let name = std::env::args().nth(2).expect("a family");
    let size = std::env::args().nth(3).and_then(|s| s.parse().ok()).expect("a number of points");
    let name = slow::FAMILIES.iter().find(|f| **f == name).expect("a family's name");
    let best = best_of(3, name, size);
    println!("{name:<12} {size:>6} {best:>9.4} s");
    true
}

/// `bench hunt SECONDS SEED`: draws clouds for so long, and tells the least ratio where the Rust's best takes over 100 µs. True if that is not below 1.
pub fn hunt() -> bool {
    let number = |i: usize| std::env::args().nth(i).and_then(|s| s.parse::<u64>().ok());
    let (seconds, seed) = (number(2).unwrap_or(60), number(3).unwrap_or(1));
    let begin = Instant::now();
    let (mut drawn, mut slow, mut slower, mut worst) = (0, 0, 0, (f64::INFINITY, 0, ""));
    while begin.elapsed().as_secs() < seconds {
        let cloud = slow::drawn(seed, drawn);
        drawn += 1;
        let start = clock::now();
        let normals = vec![0.0; cloud.points.len()];
        let laid = oracle::reconstruct(&cloud.points, &normals, &cloud.settings, expect::BUDGET);
        if laid.is_err() || (clock::now() - start).as_micros() < 100 {
            continue;
        }
        let times = times(&cloud).1;
        if times.rust < 0.1 {
            continue;
        }
        slow += 1;
        if times.ratio() < 1.0 {
            slower += 1;
            println!("cloud {} ({}): Rust {:.3} ms, port {:.3} ms", drawn - 1, cloud.name, times.rust, times.port);
        }
        if times.ratio() < worst.0 {
            worst = (times.ratio(), drawn - 1, cloud.name);
        }
    }
    let (ratio, at, name) = worst;
    println!("{drawn} slow clouds of seed {seed}, {slow} on which the Rust takes over 100 µs, {slower} slower than the Rust; least ratio {ratio:.2}: cloud {at} ({name})");
    slower == 0
}
