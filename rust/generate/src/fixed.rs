//! The scope's own cases, and some that no seed is sure to bring.

use crate::clouds::{bell, LIMIT};
use crate::{pins, work_lengths, Case, Random};
use oracle::Settings;

/// A case with just enough work and room for a few faces more than are found.
pub(crate) fn plain(kind: &'static str, points: Vec<f32>, settings: Settings) -> Case {
    let (words, floats) = work_lengths(points.len() / 3);
    let normals = vec![1.0; points.len()];
    Case { kind, normals, points, settings, percentile: 0.5, words, floats, slack: 7 }
}

fn equal_points(min_triangle_area: f32) -> Case {
    let mut settings = Settings::at_radius(1.0);
    settings.set_additional(&[]);
    settings.set_percentiles(&[]);
    settings.quality_threshold = 0.0;
    settings.min_triangle_area = min_triangle_area;
    plain("three equal points", vec![0.0; 9], settings)
}

/// Just `points` points of a bell, the default settings at a radius of two and a half times the spacing.
fn wall(points: usize) -> Case {
    let cloud = bell(&mut Random::new(1, points as u64), points + points / 4 + 60);
    let settings = Settings::at_radius((cloud.spacing * 2.5) as f32);
    plain("wall", cloud.points[..3 * points].to_vec(), settings)
}

/// A square of nine points so small that squared distances are subnormal or zero.
fn minute(step: f32) -> Case {
    let points = (0..9).flat_map(|i| [(i % 3) as f32 * step, (i / 3) as f32 * step, 0.0]);
    let mut settings = Settings::at_radius(0.001);
    settings.set_additional(&[]);
    settings.quality_threshold = 0.0;
    settings.min_triangle_area = 0.0;
    plain("minute", points.collect(), settings)
}

fn listing() -> Case {
    plain("listing", vec![0.0, 0.0, 0.0, 1.0, 0.0, 0.0, 0.0, 1.0, 0.0], Settings::at_radius(1.0))
}

fn near_radii() -> Case {
    let mut case = plain("near radii", vec![0.0, 0.0, 0.0, 0.5, 0.0, 0.0, 0.0, 0.5, 0.0], Settings::at_radius(0.5));
    case.settings.set_additional(&[0.500_000_7, 0.500_001_4]);
    case.settings.set_percentiles(&[]);
    case
}

pub fn cases() -> Vec<Case> {
    let listing = listing();
    let beyond = f32::from_bits(LIMIT.to_bits() + 1);
    let with_x = |x: f32| {
        let mut case = listing.clone();
        case.points[3] = x;
        case
    };
    let with_percentile = |percentile: f32| Case { percentile, ..listing.clone() };
    let mut cases = vec![
        listing.clone(),
        Case { points: vec![], ..listing.clone() },
        Case { points: vec![0.0; 4], normals: vec![1.0; 4], ..listing.clone() },
        Case { points: vec![0.0; 3 * 4_097 + 1], normals: vec![1.0; 3 * 4_097 + 1], ..listing.clone() },
        with_x(LIMIT),
        with_x(beyond),
        with_x(-LIMIT),
        with_x(-beyond),
        with_percentile(1.0),
        with_percentile(f32::NAN),
        plain("one point", vec![3.0, 4.0, 5.0], Settings::at_radius(1.0)),
        plain("two points", vec![0.0, 0.0, 0.0, 1.0, 0.0, 0.0], Settings::at_radius(1.0)),
        equal_points(0.0),
        equal_points(1e-8),
        near_radii(),
        minute(8.5e-22),
        minute(3e-23),
        minute(1e-38),
    ];
    cases.extend(pins::cases());
    cases.extend([60, 150, 199, 200, 350, 1_999, 2_000, 4_096, 4_097].map(wall));
    cases.extend([350, 4_096].map(|points| {
        let mut case = wall(points);
        case.settings.frontier_rule = 2;
        case
    }));
    cases
}
