//! The published ball pivoting module, run as it stands, with what it leans on and a plain way to call it.
//!
//! `ball_pivoting.rs` is the published file but for marked lines; MARKS.md says how they are marked.

extern crate self as nalgebra;
extern crate self as threecrate_core;

// musl's own digits, as its text has them.
#[allow(clippy::excessive_precision)]
pub mod acosf;
#[allow(dead_code)]
#[rustfmt::skip]
#[allow(clippy::all)]
pub mod ball_pivoting;
mod frontier;
mod origins;
mod settings;
// nalgebra's operators take references too.
#[allow(clippy::op_ref)]
mod stand_ins;
mod tally;

pub use ball_pivoting::TriangleQuality;
pub use origins::Origin;
pub use settings::Settings;
pub use stand_ins::*;
pub use tally::{Skip, Tally, MAX_RANGE};

use ball_pivoting::{estimate_optimal_radius, BallPivotingConfig, BallPivotingReconstructor};

/// What a run of `reconstruct_with_normals` on a new reconstructor leaves.
#[derive(Clone, Debug, Default)]
pub struct Laid {
    pub faces: Vec<[usize; 3]>,
    pub radii: Vec<f32>,
    pub tally: Tally,
    /// An entry for each face.
    pub origins: Vec<Origin>,
}

/// The points of a flat slice of coordinates, three to a point.
pub fn points_of(coordinates: &[f32]) -> Vec<Point3f> {
    coordinates.chunks_exact(3).map(|c| Point3f::new(c[0], c[1], c[2])).collect()
}

/// `reconstruct_with_normals`, called once on a new reconstructor. The inner error is the published one.
pub fn reconstruct(
    points: &[f32],
    normals: &[f32],
    settings: &Settings,
    budget: u64,
) -> std::result::Result<Result<Laid>, Skip> {
    reconstruct_judged(points, normals, settings, budget).map(|(laid, _)| laid)
}

/// What was tried, whatever came of it.
#[derive(Clone, Copy, Debug)]
pub struct Tried {
    /// Whether any triple came to the quality test, or on the plain path to the cross product test.
    pub judged: bool,
    /// Whether the plain path was taken.
    pub plain: bool,
}

/// The same, and what was tried.
pub fn reconstruct_judged(
    points: &[f32],
    normals: &[f32],
    settings: &Settings,
    budget: u64,
) -> std::result::Result<(Result<Laid>, Tried), Skip> {
    let with_normal = |(position, normal): (Point3f, Point3f)| NormalPoint3f { position, normal: normal.coords };
    let cloud = PointCloud { points: points_of(points).into_iter().zip(points_of(normals)).map(with_normal).collect() };
    let mut reconstructor = BallPivotingReconstructor::new(settings.to_config());
    let (run, origins) = frontier::ruled(settings.frontier_rule, || {
        origins::noted(|| tally::run(budget, || reconstructor.reconstruct_with_normals(&cloud)))
    });
    let (mesh, tally) = run?;
    let radii = reconstructor.radii().to_vec();
    let tried = Tried { judged: tally.judged, plain: radii.is_empty() };
    let laid = mesh.map(|TriangleMesh { faces, .. }| {
        // A plain face names itself and place 0.
        let origins = if tried.plain { (0..faces.len()).map(|face| [face, 0]).collect() } else { origins };
        Laid { faces, radii, tally, origins }
    });
    Ok((laid, tried))
}

/// The same with the amended acceptance, which turns down an area of exactly zero.
pub fn reconstruct_amended(
    points: &[f32],
    normals: &[f32],
    settings: &Settings,
    budget: u64,
) -> std::result::Result<(Result<Laid>, Tried), Skip> {
    tally::amending(|| reconstruct_judged(points, normals, settings, budget))
}

/// Whether a face has a computed area of exactly zero, in its own order.
pub fn lays_no_area(points: &[f32], laid: &Laid) -> bool {
    let points = points_of(points);
    let measurer = BallPivotingReconstructor::new(BallPivotingConfig::default());
    laid.faces.iter().any(|face| measurer.quality(&face.map(|i| points[i])).area == 0.0)
}

/// `estimate_optimal_radius`.
pub fn estimate(points: &[f32], percentile: f32, budget: u64) -> std::result::Result<Result<f32>, Skip> {
    let cloud = PointCloud { points: points_of(points) };
    let (radius, _) = tally::run(budget, || estimate_optimal_radius(&cloud, percentile))?;
    Ok(radius)
}

fn triangle(c: &[f32; 9]) -> [Point3f; 3] {
    [0, 3, 6].map(|i| Point3f::new(c[i], c[i + 1], c[i + 2]))
}

/// `compute_triangle_quality` of nine coordinates.
pub fn quality(c: &[f32; 9]) -> TriangleQuality {
    BallPivotingReconstructor::new(BallPivotingConfig::default()).quality(&triangle(c))
}

/// `compute_circumradius` of nine coordinates.
pub fn circumradius(c: &[f32; 9]) -> f32 {
    BallPivotingReconstructor::circumradius(&triangle(c))
}

/// `is_triangle_acceptable` at a radius, under the three settings that it reads.
pub fn acceptable(quality: &TriangleQuality, radius: f32, limits: &Limits) -> bool {
    let config = BallPivotingConfig {
        min_triangle_area: limits.min_triangle_area,
        quality_threshold: limits.quality_threshold,
        max_edge_factor: limits.max_edge_factor,
        ..Default::default()
    };
    BallPivotingReconstructor::new(config).acceptable(quality, radius)
}

/// The same, amended.
pub fn acceptable_amended(quality: &TriangleQuality, radius: f32, limits: &Limits) -> bool {
    tally::amending(|| acceptable(quality, radius, limits))
}

/// The settings that the acceptance test reads.
#[derive(Clone, Copy, Debug)]
pub struct Limits {
    pub min_triangle_area: f32,
    pub quality_threshold: f32,
    pub max_edge_factor: f32,
}
