//! Why a triangle was turned down, over the published measures: written from the scope and the request, not from the port.

use crate::checks;
use oracle::Settings;

/// The answer in four numbers; kind and measure are 0 at a refusal.
#[derive(Clone, Copy, Debug, Default, PartialEq)]
pub struct Verdict {
    pub answer: u32,
    pub detail: u32,
    pub kind: u32,
    pub measured: f32,
}

/// The kinds' names, from kind 1 on.
pub const KINDS: [&str; 5] = ["good", "no area", "small", "poor", "long"];

/// The published measures of three points of a cloud.
pub fn measures(points: &[f32], triple: [usize; 3]) -> oracle::TriangleQuality {
    oracle::quality(&std::array::from_fn(|at| points[3 * triple[at / 3] + at % 3]))
}

/// 1 to 5 as in the main call, 14, 17, and then the first test that fails.
pub fn judge(points: &[f32], normals: &[f32], settings: &Settings, triple: [usize; 3]) -> Verdict {
    let refused = |answer, detail| Verdict { answer, detail, ..Verdict::default() };
    if let Err(refusal) = checks::reconstruct(points, normals, settings, [usize::MAX; 2]) {
        return refused(refusal.answer, refusal.detail);
    }
    if triple.iter().any(|number| *number >= points.len() / 3) {
        return refused(14, 0);
    }
    let [i, j, k] = triple;
    if i == j || i == k || j == k {
        return refused(17, 0);
    }
    let q = measures(points, triple);
    let long = q.edge_ratio * q.area.sqrt();
    let tests = [
        (2, q.area, q.area == 0.0),
        (3, q.area, q.area < settings.min_triangle_area),
        (4, q.quality_score, q.quality_score < settings.quality_threshold),
        (5, long, long > settings.radius * settings.max_edge_factor),
    ];
    let (kind, measured, _) = tests.into_iter().find(|test| test.2).unwrap_or((1, q.quality_score, true));
    Verdict { kind, measured, ..Verdict::default() }
}
