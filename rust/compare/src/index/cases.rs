//! Clouds, spots, lengths and damaged indices, drawn from a seed.

use super::reference::{self, Lent};
use generate::Random;

/// What is done to the index that belongs to the cloud before it is handed back: nothing, a bit changed at a place of
/// one kind, or another cloud's.
#[derive(Clone, Copy, Debug, PartialEq, Eq, PartialOrd, Ord)]
pub enum Damage {
    None,
    Order,
    Box,
    Zeros,
    PastEnd,
    Moved,
}

/// Everything that the four calls are given.
#[derive(Clone, Debug)]
pub struct Case {
    pub kind: &'static str,
    pub points: Vec<f32>,
    pub spots: Vec<f32>,
    pub lent: Lent,
    pub found: usize,
    pub damage: Damage,
    /// Which bit is changed, among those of its kind.
    pub bit: u64,
}

/// How many points: 1 to 9 often, some hundreds mostly, the most at times.
fn count(random: &mut Random, number: u64) -> usize {
    match number % 10 {
        0..=2 => random.whole(1, 9),
        3 => random.pick(&[16, 17, 18, 32, 33, 63, 64, 65, 127, 128, 129, 255, 256, 257]),
        4..=8 => random.whole(10, 120),
        _ if number % 400 == 399 => random.pick(&[4_095, 4_096, 4_096]),
        _ => random.whole(100, 400),
    }
}

fn zero(random: &mut Random) -> f32 {
    random.pick(&[0.0, -0.0])
}

/// The points of a cloud of one kind.
fn points(random: &mut Random, number: u64) -> (&'static str, Vec<f32>) {
    let n = count(random, number);
    let mut values = Vec::with_capacity(3 * n);
    let kind = ["lattice", "equal", "line", "zeros", "wall", "wide", "edge", "tiny"][(number / 10 % 8) as usize];
    let step = random.pick(&[1.0, 0.5, 0.1, 1.0 / 64.0, 100.0]);
    let side = random.whole(1, 6);
    let axis = random.below(3);
    for i in 0..n {
        let p: [f32; 3] = match kind {
            "lattice" => [0, 1, 2].map(|_| step * random.below(side) as f32 - step),
            "equal" => [random.pick(&[1.5, 1.5, 1.5, -2.0]), 3.0, -0.25],
            "line" => {
                let mut p = [1.0, -2.0, 0.5];
                p[axis] = step * (random.whole(0, 2 * n) as f32 - n as f32);
                p
            }
            "zeros" => [0, 1, 2].map(|_| if random.percent(70) { zero(random) } else { random.pick(&[1.0, -1.0]) }),
            "wall" => {
                let (u, v) = (random.within(-3.0, 3.0), random.within(0.0, 10.0));
                [u as f32, v as f32, ((u * 1.3).sin() * 0.4 + v * 0.05) as f32]
            }
            "wide" => [0, 1, 2].map(|_| random.within(-10_000.0, 10_000.0) as f32),
            "edge" => [0, 1, 2].map(|_| random.pick(&[10_000.0, -10_000.0, 9_999.999, 0.0, -0.0, 1e-40])),
            _ => [0, 1, 2].map(|_| random.signed(if i % 2 == 0 { 1e-30 } else { 10.0 })),
        };
        values.extend(p);
    }
    (kind, values)
}

/// A spot: on a point, near one, anywhere in the cloud, far outside, at the domain's edge.
fn spot(random: &mut Random, points: &[f32]) -> [f32; 3] {
    let near = reference::point(points, random.below(points.len() / 3));
    let limit = |x: f32| x.clamp(-10_000.0, 10_000.0);
    match random.below(6) {
        0 => near,
        1 => near.map(|x| limit(x + random.within(-0.1, 0.1) as f32)),
        2 => near.map(|x| limit(x + random.pick(&[0.0, 0.5, -0.5, 1.0 / 64.0, 0.05]))),
        3 => [0, 1, 2].map(|axis| reference::point(points, random.below(points.len() / 3))[axis]),
        4 => [0, 1, 2].map(|_| random.within(-10_000.0, 10_000.0) as f32),
        _ => [0, 1, 2].map(|_| random.pick(&[10_000.0, -10_000.0, 0.0, -0.0])),
    }
}

fn wrong(random: &mut Random) -> f32 {
    random.pick(&[f32::NAN, f32::INFINITY, f32::NEG_INFINITY, 10_000.001, -10_000.001, 1e30])
}

/// One thing made wrong, or short by one.
fn spoil(random: &mut Random, case: &mut Case) {
    let short = |length: &mut usize| *length = length.saturating_sub(1);
    match random.below(10) {
        0 => case.points.clear(),
        1 => drop(case.points.pop()),
        2 => drop(case.spots.pop()),
        3 => case.points = vec![1.0; 3 * random.pick(&[4_097, 4_098])],
        4 if !case.points.is_empty() => {
            let at = random.below(case.points.len());
            case.points[at] = wrong(random);
        }
        5 if !case.spots.is_empty() => {
            let at = random.below(case.spots.len());
            case.spots[at] = wrong(random);
        }
        6 => short(&mut case.lent.words),
        7 => short(&mut case.lent.floats),
        8 => short(&mut case.lent.index),
        _ => short(&mut case.found),
    }
}

/// Case `number` of a seed, with so many spots.
pub fn case(seed: u64, number: u64, spots: usize) -> Case {
    let random = &mut Random::new(seed, number);
    let (kind, points) = points(random, number);
    let n = points.len() / 3;
    let (words, floats) = reference::room(n);
    let spots = if number % 97 == 0 { 0 } else { spots };
    let spots: Vec<f32> = (0..spots).flat_map(|_| spot(random, &points)).collect();
    let more = random.pick(&[0, 0, 1, 5]);
    let lent = Lent { index: reference::size(n) + more, words: words + more, floats: floats + more };
    let damage = match number % 3 {
        0 => random.pick(&[Damage::Order, Damage::Box, Damage::Zeros, Damage::PastEnd, Damage::Moved]),
        _ => Damage::None,
    };
    let found = spots.len() / 3 + random.pick(&[0, 0, 3]);
    let mut case = Case { kind, points, spots, lent, found, damage, bit: random.next() };
    if number % 7 == 6 {
        spoil(random, &mut case);
        if random.percent(20) {
            spoil(random, &mut case);
        }
    }
    case
}

/// The index that the case hands to the calls that read one: its cloud's, and what the damage makes of it.
pub fn index(case: &Case, built: Option<Vec<u32>>) -> Vec<u32> {
    let mut index = built.unwrap_or_default();
    let length = case.lent.index;
    let size = index.len().min(length);
    index.resize(length, 0xa5a5_a5a5);
    let n = case.points.len() / 3;
    if size < 8 * n + 64 {
        return index;
    }
    let boxed = |index: &[u32]| index[..size].iter().rposition(|w| *w != 0).map_or(n, |at| at + 1).max(n + 1);
    let range = match case.damage {
        Damage::None => return index,
        Damage::Order => 0..n,
        Damage::Box => n..boxed(&index),
        Damage::Zeros => boxed(&index)..size,
        Damage::PastEnd if length > size => size..length,
        Damage::PastEnd => return index,
        Damage::Moved => {
            let mut points = case.points.clone();
            let at = (case.bit % points.len() as u64) as usize;
            points[at] = if points[at] > 0.0 { points[at] - 1.0 } else { points[at] + 1.0 };
            index[..size].copy_from_slice(&reference::build(&points));
            return index;
        }
    };
    let at = range.start + (case.bit / 32 % range.len() as u64) as usize;
    index[at] ^= 1 << (case.bit % 32);
    index
}
