//! The scope's edges of the domain, as numbers and details.

use expect::{checks, Refusal};
use oracle::Settings;

const WORK: [usize; 2] = [24 * 4_096 + 64, 4 * 4_096 + 64];

fn reconstruct(points: &[f32], normals: &[f32], settings: &Settings, work: [usize; 2]) -> [u32; 2] {
    number(checks::reconstruct(points, normals, settings, work))
}

fn number(result: Result<(), Refusal>) -> [u32; 2] {
    result.map_or_else(|r| [r.answer, r.detail], |()| [0, 0])
}

fn usual(points: &[f32]) -> [u32; 2] {
    reconstruct(points, &vec![1.0; points.len()], &Settings::at_radius(1.0), WORK)
}

#[test]
fn lengths() {
    assert_eq!(reconstruct(&[], &[1.0; 3], &Settings::at_radius(1.0), WORK), [1, 0]);
    assert_eq!(usual(&[0.0; 4]), [2, 0]);
    assert_eq!(reconstruct(&[0.0; 3], &[0.0; 6], &Settings::at_radius(1.0), WORK), [2, 0]);
    assert_eq!(usual(&[0.0; 3 * 4_096]), [0, 0]);
    assert_eq!(usual(&[0.0; 3 * 4_097]), [3, 0]);
}

#[test]
fn coordinates_and_normals() {
    let beyond = f32::from_bits(10_000f32.to_bits() + 1);
    assert_eq!(usual(&[0.0, 0.0, 10_000.0]), [0, 0]);
    assert_eq!(usual(&[0.0, 0.0, 0.0, 0.0, -beyond, 0.0]), [4, 1]);
    let normals = [0.0, f32::NAN, 0.0, 0.0, 0.0, 0.0];
    assert_eq!(reconstruct(&[0.0, 0.0, 0.0, 0.0, beyond, 0.0], &normals, &Settings::at_radius(1.0), WORK), [4, 0]);
}

#[test]
fn settings_in_their_order() {
    let with = |change: &dyn Fn(&mut Settings)| {
        let mut settings = Settings::at_radius(1.0);
        change(&mut settings);
        reconstruct(&[0.0; 3], &[0.0; 3], &settings, WORK)
    };
    assert_eq!(with(&|s| s.radius = f32::NAN), [5, 1]);
    assert_eq!(with(&|s| s.radius = 0.001), [0, 0]);
    assert_eq!(with(&|s| s.additional_count = 9), [5, 2]);
    assert_eq!(with(&|s| s.additional_radii[3] = f32::NAN), [0, 0]);
    assert_eq!(with(&|s| s.adaptive_percentiles[0] = -f32::from_bits(1)), [5, 3]);
    assert_eq!(with(&|s| s.quality_threshold = -0.0), [0, 0]);
    assert_eq!(with(&|s| (s.spatial_cell_factor, s.min_triangle_area) = (17.0, -1.0)), [5, 6]);
    assert_eq!(with(&|s| s.spatial_cell_factor = 0.499), [5, 7]);
    assert_eq!(with(&|s| (s.spatial_cell_factor, s.frontier_rule) = (17.0, 0)), [5, 7]);
    assert_eq!(with(&|s| s.frontier_rule = 0), [5, 8]);
    assert_eq!(with(&|s| s.frontier_rule = 3), [5, 8]);
    assert_eq!(with(&|s| s.frontier_rule = 2), [0, 0]);
}

#[test]
fn percentile_and_work() {
    let estimate = |percentile, work| number(checks::estimate(&[0.0; 3], percentile, work));
    assert_eq!(estimate(1.0, [88, 68]), [0, 0]);
    assert_eq!(estimate(f32::NAN, [0, 0]), [6, 0]);
    assert_eq!(estimate(0.5, [87, 68]), [7, 0]);
    assert_eq!(estimate(0.5, [88, 67]), [7, 0]);
}
