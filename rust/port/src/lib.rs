//! The port's calls, through the Rust crate's raw layer, on the comparison's types.

pub use yarrowbleat::sys::{
    acos, ceil_cut, clamp, compute_circumradius as circumradius, compute_triangle_quality as quality, cut, distance,
    max, min, order_patch, read_cloud, read_stl, sqrt, write_stl, TriangleQuality as Quality,
};

use expect::verdicts::Verdict;
use expect::{Estimate, Lent, Patch};
use oracle::{Limits, Settings};
use yarrowbleat::sys;

pub fn acceptable(quality: Quality, radius: f32, limits: &Limits) -> bool {
    let (area, threshold, factor) = (limits.min_triangle_area, limits.quality_threshold, limits.max_edge_factor);
    sys::is_triangle_acceptable(quality, radius, area, threshold, factor)
}

pub fn estimate(points: &[f32], percentile: f32, words: &mut [u32], floats: &mut [f32]) -> Estimate {
    let r = sys::estimate_optimal_radius(points, percentile, words, floats);
    Estimate { answer: r.answer, detail: r.detail, radius: r.radius }
}

fn config(s: &Settings) -> sys::BallPivotingConfig {
    sys::BallPivotingConfig {
        radius: s.radius,
        additional_radii: s.additional_radii,
        additional_count: s.additional_count,
        adaptive_radius: s.adaptive_radius,
        adaptive_percentiles: s.adaptive_percentiles,
        percentile_count: s.percentile_count,
        quality_threshold: s.quality_threshold,
        max_edge_factor: s.max_edge_factor,
        min_triangle_area: s.min_triangle_area,
        use_spatial_index: s.use_spatial_index,
        spatial_cell_factor: s.spatial_cell_factor,
        frontier_rule: s.frontier_rule,
    }
}

pub fn judge(points: &[f32], normals: &[f32], settings: &Settings, triple: [usize; 3]) -> Verdict {
    let r = sys::judge_triangle(points, normals, config(settings), triple);
    Verdict { answer: r.answer, detail: r.detail, kind: r.kind, measured: r.measured }
}

pub fn reconstruct(points: &[f32], normals: &[f32], settings: &Settings, lent: &mut Lent) -> Patch {
    let r = sys::reconstruct_with_normals(
        points,
        normals,
        config(settings),
        &mut lent.faces,
        &mut lent.words,
        &mut lent.floats,
    );
    patch(r)
}

/// The same with where each face came from, and turned where asked.
pub fn reconstruct_with_origins(
    points: &[f32],
    normals: &[f32],
    settings: &Settings,
    turned: bool,
    lent: &mut Lent,
    origins: &mut [u32],
) -> Patch {
    patch(sys::reconstruct_with_origins(
        points,
        normals,
        config(settings),
        turned,
        &mut lent.faces,
        origins,
        &mut lent.words,
        &mut lent.floats,
    ))
}

fn patch(r: sys::Patch) -> Patch {
    Patch {
        answer: r.answer,
        detail: r.detail,
        faces: r.faces,
        seeds: r.seeds,
        looks: r.looks,
        pivots: r.pivots,
        radii_count: r.radii_count,
        radii: r.radii,
    }
}
