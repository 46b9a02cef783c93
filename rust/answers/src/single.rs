//! Answers on single numbers and triangles.

use crate::{bits, line};
use generate::numbers::{edges, just_passed, limits, number, radius, triangle};
use generate::Random;
use oracle::TriangleQuality;

const SEED: u64 = 2_026;

/// The edge patterns that `keep` keeps, then random numbers.
fn inputs(kind: u64, random: usize, keep: impl Fn(f32) -> bool) -> Vec<f32> {
    let mut from = Random::new(SEED, kind);
    let mut inputs: Vec<f32> = edges().into_iter().filter(|x| keep(*x)).collect();
    inputs.extend((0..random).map(|_| number(&mut from)).filter(|x| keep(*x)));
    inputs
}

fn measures(q: &TriangleQuality) -> [u32; 6] {
    [q.aspect_ratio, q.min_angle, q.max_angle, q.area, q.edge_ratio, q.quality_score].map(bits)
}

fn triangles(out: &mut String) {
    for case in 0..800 {
        let random = &mut Random::new(SEED, 100 + case);
        let corners = triangle(random, case);
        let places = corners.map(f32::to_bits);
        let quality = oracle::quality(&corners);
        out.push_str(&line(5, &[&places[..], &measures(&quality)].concat()));
        let drawn = (radius(random, quality.area, quality.edge_ratio), limits(random));
        let passed = just_passed(quality.area, quality.edge_ratio, quality.quality_score);
        for (radius, limits) in if case % 10 == 0 { vec![drawn, passed] } else { vec![drawn] } {
            let passes = oracle::acceptable_amended(&quality, radius, &limits);
            let given = [radius, limits.min_triangle_area, limits.quality_threshold, limits.max_edge_factor].map(bits);
            out.push_str(&line(6, &[&measures(&quality)[..], &given, &[u32::from(passes)]].concat()));
        }
        out.push_str(&line(9, &[&places[..], &[bits(oracle::circumradius(&corners))]].concat()));
    }
}

pub fn write(out: &mut String) {
    for x in inputs(1, 2_000, |_| true) {
        out.push_str(&line(1, &[x.to_bits(), bits(x.sqrt())]));
    }
    for x in inputs(2, 4_000, |x| x.is_nan() || x.abs() <= 1.0) {
        out.push_str(&line(2, &[x.to_bits(), bits(oracle::acosf::acosf(x))]));
    }
    for x in inputs(3, 500, |_| true) {
        out.push_str(&line(3, &[x.to_bits(), x as u32]));
        out.push_str(&line(4, &[x.to_bits(), x.ceil() as u32]));
    }
    triangles(out);
}
