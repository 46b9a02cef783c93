//! Steps out of the domain, and to its very edges.

use crate::clouds::LIMIT;
use crate::random::Random;
use crate::Case;

/// The next f32 further from zero.
fn beyond(x: f32) -> f32 {
    f32::from_bits(x.to_bits() + 1)
}

/// A number that is outside `low` to `high`, or on an edge of it.
fn outside(random: &mut Random, low: f32, high: f32) -> f32 {
    let below = if low == 0.0 { -f32::from_bits(1) } else { f32::from_bits(low.to_bits() - 1) };
    let odd = [f32::NAN, f32::INFINITY, f32::NEG_INFINITY, -high, f32::MAX, f32::from_bits(0xffc0_0001)];
    match random.below(5) {
        0 => below,
        1 => beyond(high),
        2 => random.pick(&[low, high]),
        _ => random.pick(&odd),
    }
}

fn bad_setting(random: &mut Random, case: &mut Case) {
    let settings = &mut case.settings;
    match random.below(10) {
        0 => settings.radius = outside(random, 0.001, 1_000.0),
        1 => settings.additional_count = random.pick(&[9, 10, u32::MAX, 1 << 31]),
        2 => settings.percentile_count = random.pick(&[9, 10, u32::MAX, 1 << 31]),
        3 => settings.quality_threshold = outside(random, 0.0, 1_000_000.0),
        4 => settings.max_edge_factor = outside(random, 0.0, 1_000_000.0),
        5 => settings.min_triangle_area = outside(random, 0.0, 1_000_000.0),
        6 => settings.spatial_cell_factor = outside(random, 0.5, 16.0),
        7 => settings.frontier_rule = random.pick(&[0, 3, 1 << 16, u32::MAX]),
        8 => {
            let slot = random.below(8);
            settings.additional_radii[slot] = outside(random, 0.001, 1_000.0);
        }
        _ => {
            let slot = random.below(8);
            settings.adaptive_percentiles[slot] = outside(random, 0.0, 1.0);
        }
    }
}

fn bad_number(random: &mut Random, slice: &mut [f32], odd: &[f32]) {
    if !slice.is_empty() {
        let at = random.below(slice.len());
        slice[at] = random.pick(odd);
    }
}

/// Lengths that are not in threes, unlike each other, zero, or of more points than are taken.
fn bad_length(random: &mut Random, case: &mut Case) {
    match random.below(7) {
        0 => case.points.clear(),
        1 => case.points.truncate(case.points.len().saturating_sub(1)),
        2 => case.points.push(0.5),
        3 => case.normals.truncate(case.normals.len().saturating_sub(random.whole(1, 3))),
        4 => case.normals.extend([1.0; 3]),
        5 => {
            case.points.push(0.5);
            case.normals.push(0.5);
        }
        _ => {
            let points = 3 * random.pick(&[4_097, 4_098, 5_000]);
            case.points.resize(points, 1.0);
            case.normals.resize(points, 1.0);
        }
    }
}

fn short_work(random: &mut Random, case: &mut Case) {
    let less = random.pick(&[1, 2, 64, 100, usize::MAX]);
    if random.percent(60) {
        case.words = case.words.saturating_sub(less);
    } else {
        case.floats = case.floats.saturating_sub(less);
    }
}

/// One step out of the domain or to its edge.
pub fn damage(random: &mut Random, case: &mut Case) {
    let over = [f32::NAN, f32::INFINITY, f32::NEG_INFINITY, beyond(LIMIT), -beyond(LIMIT), f32::MAX, LIMIT, -LIMIT];
    match random.below(12) {
        0..=1 => bad_length(random, case),
        2..=3 => bad_number(random, &mut case.points, &over),
        4 => bad_number(random, &mut case.normals, &[f32::NAN, f32::INFINITY, f32::NEG_INFINITY, f32::MAX, -f32::MAX]),
        5..=8 => bad_setting(random, case),
        9 => case.percentile = outside(random, 0.0, 1.0),
        _ => short_work(random, case),
    }
}
