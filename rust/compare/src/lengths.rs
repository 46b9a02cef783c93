//! How good a length is: the largest error that a search finds, beside the bound that is proved.
//!
//! Coordinates are 64ths, at most 1,000 in size. With D the exact square of the distance in 4096ths and the computed
//! length M / 2^29, the theorem says that M² differs from 2^46 · D by at most 2^25 · D. All of it is whole numbers.

use crate::report::Report;
use generate::Random;

/// 1,000 in 64ths.
const LIMIT: i64 = 64_000;

type Place = [i64; 3];

fn point(place: &Place) -> [f32; 3] {
    place.map(|v| v as f32 / 64.0)
}

fn exact_square(p: &Place, q: &Place) -> i128 {
    p.iter().zip(q).map(|(a, b)| i128::from((a - b) * (a - b))).sum()
}

/// The length in units of 2^-29, if it is a whole number of them.
fn whole(length: f32) -> Option<i128> {
    let units = f64::from(length) * f64::from(1 << 29);
    (units.is_finite() && units >= 0.0 && units.fract() == 0.0).then_some(units as i128)
}

/// How far M² is from 2^46 · D, and how far it may be: 2^25 · D.
fn error_and_bound(units: i128, square: i128) -> (i128, i128) {
    ((units * units - (square << 46)).abs(), square << 25)
}

/// Differences of all sizes, like and unlike ones.
fn random_pair(random: &mut Random) -> (Place, Place) {
    let limit = LIMIT as usize;
    let mut coordinate = || {
        let size = if random.percent(50) { limit } else { 1 << random.whole(1, 15) };
        random.whole(0, 2 * size) as i64 - size as i64
    };
    let mut place = || [coordinate(), coordinate(), coordinate()];
    (place(), place())
}

/// One difference just above a power of two and two short ones: the exact square is then just above a power of four,
/// where the square, the sums and the root each lose the most. The points lie anywhere, on any axes.
fn adverse_pair(random: &mut Random) -> (Place, Place) {
    let bits = random.whole(11, 16);
    let long = (1 << bits) + random.below(1 << (bits - 8)) as i64;
    let short = 1 << (bits / 2 + random.whole(1, 3));
    let mut apart = [long, random.below(short) as i64, random.below(short) as i64];
    apart.rotate_right(random.below(3));
    let place = apart.map(|d| random.whole(0, (2 * LIMIT - d) as usize) as i64 - LIMIT);
    let other = std::array::from_fn(|i| place[i] + apart[i]);
    if random.percent(50) {
        (place, other)
    } else {
        (other, place)
    }
}

/// The length in the machine's arithmetic.
pub fn machine(p: &[f32; 3], q: &[f32; 3]) -> f32 {
    let [x, y, z] = std::array::from_fn(|i| p[i] - q[i]);
    ((x * x + y * y) + z * z).sqrt()
}

struct Worst {
    /// The part of the bound that the error takes up.
    share: f64,
    pair: (Place, Place),
    length: f32,
}

/// `count` pairs, every second one adverse: each as the machine has it and within the bound, different points at least
/// 1/64 apart, equal ones 0.
pub fn lengths(distance: &dyn Fn(&[f32; 3], &[f32; 3]) -> f32, count: u64, seed: u64) -> Report {
    let mut report = Report::new("lengths");
    let random = &mut Random::new(seed, 0);
    let mut worst = Worst { share: 0.0, pair: ([0; 3], [0; 3]), length: 0.0 };
    for number in 0..count {
        let (p, q) = if number % 2 == 0 { random_pair(random) } else { adverse_pair(random) };
        let length = distance(&point(&p), &point(&q));
        let square = exact_square(&p, &q);
        let context = || format!("{p:?} and {q:?} in 64ths, length {length:?}");
        let (error, bound) = whole(length).map_or((1, 0), |units| error_and_bound(units, square));
        report.check("yb_distance", machine(&point(&p), &point(&q)), length, context);
        report.check("within the bound", true, error <= bound, context);
        report.check("at least 1/64", square > 0, length >= 1.0 / 64.0, context);
        report.check("of equal points", 0.0, distance(&point(&p), &point(&p)), context);
        let share = error as f64 / bound as f64;
        if share > worst.share {
            worst = Worst { share, pair: (p, q), length };
        }
    }
    let (Worst { share, length, .. }, (p, q)) = (&worst, worst.pair);
    println!("largest error: 1/{:.0} of the exact square; bound: 1/2097152", 2_097_152.0 / share);
    println!("which is {share:.6} of the bound, for {p:?} and {q:?} in 64ths and length {length:?}");
    report
}
