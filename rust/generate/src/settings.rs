//! Settings inside the domain, usually in a sensible relation to the cloud's spacing.

use crate::random::Random;
use oracle::Settings;

/// Often such that points on whole coordinates lie at just one or two radii.
fn radius(random: &mut Random, spacing: f64) -> f32 {
    let radius = match random.below(20) {
        0..=11 => (spacing * random.within(0.8, 3.0)) as f32,
        12..=16 => spacing as f32 * random.pick(&[0.5, 1.0, 1.0, 1.5, 2.0, 2.5]),
        _ => random.sized(0.001, 1_000.0),
    };
    radius.clamp(0.001, 1_000.0)
}

/// Up to eight further radii: unlike, nearly equal or equal ones.
fn additional(random: &mut Random, radius: f32) -> Vec<f32> {
    let count = random.pick(&[0, 0, 1, 2, 3, 3, 5, 8]);
    let mut radii = vec![radius];
    for _ in 0..count {
        let last = random.pick(&radii);
        let next = match random.below(10) {
            0..=5 => radius * random.within(0.4, 2.5) as f32,
            6 => last,
            7..=8 => last + random.within(-2e-6, 2e-6) as f32,
            _ => random.sized(0.001, 1_000.0),
        };
        radii.push(next.clamp(0.001, 1_000.0));
    }
    radii.split_off(1)
}

fn percentiles(random: &mut Random) -> Vec<f32> {
    let count = random.pick(&[0, 0, 1, 2, 4, 4, 6, 8]);
    (0..count).map(|_| percentile(random)).collect()
}

/// From 0 to 1.
pub fn percentile(random: &mut Random) -> f32 {
    match random.below(8) {
        0 => 0.0,
        1 => 1.0,
        2 => random.pick(&[-0.0, 0.5, 0.25, 0.9, f32::from_bits(0x3f7f_ffff), f32::from_bits(1)]),
        _ => random.unit() as f32,
    }
}

/// A bound: now and then zero, often the usual one, else up to `high`, seldom of any size from `least` on.
fn limit(random: &mut Random, usual: f32, high: f64, least: f32) -> f32 {
    match random.below(40) {
        0 => -0.0,
        1..=3 => 0.0,
        4..=21 => usual,
        22..=36 => random.within(0.0, high) as f32,
        _ => random.sized(least, 1_000_000.0),
    }
}

/// Quality, edges and area; in one of eight cases both thresholds are zero, so that a triangle without area passes.
fn limits(random: &mut Random, settings: &mut Settings, spacing: f64) {
    let smallest = f32::from_bits(1);
    settings.quality_threshold = limit(random, 0.1, 0.8, smallest);
    settings.max_edge_factor = limit(random, 3.0, 6.0, 1.0);
    settings.min_triangle_area = limit(random, 1e-8, 0.5 * spacing * spacing, smallest).min(1_000_000.0);
    if random.percent(12) {
        settings.quality_threshold = 0.0;
        settings.min_triangle_area = random.pick(&[0.0, -0.0]);
    }
}

/// Slots past the counts hold what must never be read.
fn spoil(random: &mut Random, slots: &mut [f32]) {
    for slot in slots {
        *slot = random.pick(&[f32::NAN, f32::INFINITY, -1.0, 0.0, 0.5, 1e9]);
    }
}

pub fn settings(random: &mut Random, spacing: f64) -> Settings {
    let radius = radius(random, spacing);
    let mut settings = Settings::at_radius(radius);
    settings.set_additional(&additional(random, radius));
    settings.set_percentiles(&percentiles(random));
    let (more, parts) = (settings.additional_count as usize, settings.percentile_count as usize);
    spoil(random, &mut settings.additional_radii[more..]);
    spoil(random, &mut settings.adaptive_percentiles[parts..]);
    settings.adaptive_radius = random.percent(85);
    limits(random, &mut settings, spacing);
    settings.use_spatial_index = random.percent(75);
    settings.spatial_cell_factor = match random.below(6) {
        0 => 0.5,
        1 => 16.0,
        2 => random.sized(0.5, 16.0),
        _ => 2.0,
    };
    settings
}
