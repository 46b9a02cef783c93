//! Clouds, settings and lengths, and single numbers and triangles, drawn from a seed.

pub mod clouds;
mod damage;
mod fixed;
pub mod numbers;
mod pins;
mod random;
mod refused;
mod settings;
pub mod slow;

pub use random::Random;
pub use refused::refused;

use oracle::Settings;
use std::sync::OnceLock;

/// Everything that a call is given. The face slice's length is that of the faces found and `slack` words.
#[derive(Clone, Debug)]
pub struct Case {
    pub kind: &'static str,
    pub points: Vec<f32>,
    pub normals: Vec<f32>,
    pub settings: Settings,
    pub percentile: f32,
    pub words: usize,
    pub floats: usize,
    pub slack: isize,
}

impl Case {
    /// Face slice length where the faces found take `need` words.
    pub fn face_words(&self, need: usize) -> usize {
        need.saturating_add_signed(self.slack)
    }
}

/// The least lengths of the two work slices for a number of points.
pub fn work_lengths(points: usize) -> (usize, usize) {
    (24 * points + 64, 4 * points + 64)
}

fn fixed_cases() -> &'static [Case] {
    static FIXED: OnceLock<Vec<Case>> = OnceLock::new();
    FIXED.get_or_init(fixed::cases)
}

/// How many cases of each seed are the fixed ones.
pub fn fixed_count() -> u64 {
    fixed_cases().len() as u64
}

/// Case `number` of a seed, the fixed ones first.
pub fn case(seed: u64, number: u64) -> Case {
    match fixed_cases().get(number as usize) {
        Some(case) => case.clone(),
        None => drawn(seed, number),
    }
}

/// A drawn case: one in six has left the domain or stands on its edge, sometimes in several ways.
fn drawn(seed: u64, number: u64) -> Case {
    let random = &mut Random::new(seed, number);
    let cloud = clouds::cloud(random);
    let (words, floats) = work_lengths(cloud.points.len() / 3);
    let normals = cloud.points.iter().map(|_| normal(random)).collect();
    let mut case = Case {
        kind: cloud.kind,
        settings: settings::settings(random, cloud.spacing),
        percentile: settings::percentile(random),
        words: words + random.pick(&[0, 0, 1, 5, 200]),
        floats: floats + random.pick(&[0, 0, 1, 5, 200]),
        slack: slack(random),
        points: cloud.points,
        normals,
    };
    if random.percent(16) {
        for _ in 0..random.pick(&[1, 1, 1, 2, 3]) {
            damage::damage(random, &mut case);
        }
    }
    if case.settings.frontier_rule == 1 {
        case.settings.frontier_rule = rule(seed, number);
    }
    case
}

/// The frontier's rule, 2 in every third case; a draw of its own, so that the rest of a case does not depend on it.
fn rule(seed: u64, number: u64) -> u32 {
    1 + u32::from(Random::new(seed, !number).below(3) == 0)
}

/// Words past the faces found, or below 0 words that are missing.
fn slack(random: &mut Random) -> isize {
    match random.below(10) {
        0 => random.pick(&[-1, -2, -3, -4, isize::MIN]),
        1..=3 => 0,
        _ => random.pick(&[1, 2, 3, 4, 30, 100]),
    }
}

/// A component of a normal: any finite number.
fn normal(random: &mut Random) -> f32 {
    match random.below(20) {
        0 => random.pick(&[f32::MAX, -f32::MAX, -0.0, f32::from_bits(1)]),
        _ => random.within(-1.0, 1.0) as f32,
    }
}

/// What a lent slice holds before a call, so that an untouched word is told from a written one.
pub fn old_word(at: usize) -> u32 {
    0xa500_0000 | at as u32
}
