//! Circumradius, quality and acceptance of single triangles.

use crate::clouds::AMENDED;
use crate::report::Report;
use crate::sides::{measures, published, Side};
use generate::numbers::{just_passed, limits, number, radius, triangle};
use generate::Random;
use port::Quality;

/// The measures of the triangle, or now and then numbers that no triangle has, minus zero as the area among them.
fn judged(random: &mut Random, quality: Quality) -> Quality {
    match random.below(100) {
        0..=89 => quality,
        90 => Quality { area: -0.0, ..quality },
        _ => Quality { area: number(random), edge_ratio: number(random), quality_score: number(random), ..quality },
    }
}

pub fn triangles(side: &dyn Side, count: u64, seed: u64, first: u64) -> Report {
    let mut report = Report::new("triangles");
    report.want(AMENDED);
    for case in first..first + count {
        let random = &mut Random::new(seed, case);
        let corners = triangle(random, case);
        let context = || format!("case {case} of seed {seed}, coordinates {:08x?}", corners.map(f32::to_bits));
        let quality = measures(&oracle::quality(&corners));
        report.check("circumradius", oracle::circumradius(&corners), side.circumradius(&corners), context);
        let got = side.quality(&corners);
        for (name, expected, got) in [
            ("aspect_ratio", quality.aspect_ratio, got.aspect_ratio),
            ("min_angle", quality.min_angle, got.min_angle),
            ("max_angle", quality.max_angle, got.max_angle),
            ("area", quality.area, got.area),
            ("edge_ratio", quality.edge_ratio, got.edge_ratio),
            ("quality_score", quality.quality_score, got.quality_score),
        ] {
            report.check(name, expected, got, context);
        }
        let quality = judged(random, quality);
        let drawn = (radius(random, quality.area, quality.edge_ratio), limits(random));
        let passed = just_passed(quality.area, quality.edge_ratio, quality.quality_score);
        for (radius, limits) in [drawn, passed] {
            let expected = oracle::acceptable_amended(&published(&quality), radius, &limits);
            let got = side.acceptable(quality, radius, &limits);
            report.note(if expected { "acceptable" } else { "unacceptable" });
            if expected != oracle::acceptable(&published(&quality), radius, &limits) {
                report.note(AMENDED);
            }
            let context = || format!("case {case} of seed {seed}, {quality:?} at {radius:?}, {limits:?}");
            report.check("acceptable", expected, got, context);
        }
    }
    report
}
