//! The root against the machine's, and a triangle's quality against the Rust's. It holds what was reached: the root, each on
//! its own, takes at most 7 times the machine's time, the quality at most 2.2 times the Rust's.

use generate::Random;
use oracle::ball_pivoting::{BallPivotingConfig, BallPivotingReconstructor};
use oracle::{points_of, Point3f};
use std::hint::black_box;
use std::time::Instant;

const ROUNDS: usize = 400;
const ITEMS: usize = 4_096;

/// Nanoseconds an item of both sides, each the best of its rounds.
pub fn race(mut ours: impl FnMut(), mut theirs: impl FnMut()) -> [f64; 2] {
    let mut best = [f64::INFINITY; 2];
    for _ in 0..ROUNDS {
        let start = Instant::now();
        ours();
        let middle = Instant::now();
        theirs();
        let took = [middle - start, middle.elapsed()];
        for (best, took) in best.iter_mut().zip(took) {
            *best = best.min(took.as_nanos() as f64 / ITEMS as f64);
        }
    }
    best
}

#[inline(never)]
extern "C" fn machine_sqrt(x: f32) -> f32 {
    x.sqrt()
}

/// The roots of a stream, each on its own: their patterns are added in a register.
fn apart(numbers: &[f32], root: impl Fn(f32) -> f32) -> u32 {
    numbers.iter().fold(0, |sum: u32, x| sum.wrapping_add(root(*x).to_bits()))
}

/// The sum of the roots of a stream; it goes through memory at each call, which takes either side longer.
fn summed(numbers: &[f32], root: impl Fn(f32) -> f32) -> f32 {
    numbers.iter().fold(0.0, |sum: f32, x| sum + root(*x))
}

fn roots(random: &mut Random) -> bool {
    let numbers: Vec<f32> = (0..ITEMS).map(|_| random.sized(1e-20, 1e20)).collect();
    let added = race(
        || _ = black_box(summed(black_box(&numbers), port::sqrt)),
        || _ = black_box(summed(black_box(&numbers), |x| machine_sqrt(x))),
    );
    let own = race(
        || _ = black_box(apart(black_box(&numbers), port::sqrt)),
        || _ = black_box(apart(black_box(&numbers), |x| machine_sqrt(x))),
    );
    judge("sum of a stream's roots", added, 7.0);
    judge("a stream's roots, each on its own", own, 7.0)
}

fn qualities(random: &mut Random) -> [f64; 2] {
    let corners: Vec<[f32; 9]> = (0..ITEMS).map(|_| [0; 9].map(|_| random.unit() as f32)).collect();
    let triangles: Vec<[Point3f; 3]> = corners.iter().map(|c| points_of(c).try_into().expect("three points")).collect();
    let rust = BallPivotingReconstructor::new(BallPivotingConfig::default());
    race(
        || _ = black_box(black_box(&corners).iter().map(|c| port::quality(c).quality_score).sum::<f32>()),
        || _ = black_box(black_box(&triangles).iter().map(|t| rust.quality(t).quality_score).sum::<f32>()),
    )
}

/// Prints both times and tells whether their ratio is at most `most`.
pub fn judge(name: &str, [ours, theirs]: [f64; 2], most: f64) -> bool {
    let ratio = ours / theirs;
    println!("{name}: port {ours:.2} ns, Rust {theirs:.2} ns, ratio {ratio:.2} (to reach: at most {most})");
    ratio <= most
}

pub fn bench() -> bool {
    let random = &mut Random::new(1, 0);
    let roots = roots(random);
    judge("quality of a triangle", qualities(random), 2.2) && roots
}
