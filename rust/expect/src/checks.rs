//! Checks 1 to 7 of the scope, in its order.

use crate::Refusal;
use oracle::Settings;

const MAX_POINTS: usize = 4_096;

fn refuse(answer: u32, detail: usize) -> Result<(), Refusal> {
    Err(Refusal { answer, detail: detail as u32 })
}

/// A not-a-number is within nothing; minus zero is zero.
fn within(x: f32, low: f32, high: f32) -> bool {
    low <= x && x <= high
}

fn coordinate(x: &f32) -> bool {
    within(*x, -10_000.0, 10_000.0)
}

/// 1, 2 and 3; without normals the second half of 2 is left out.
fn lengths(points: &[f32], normals: Option<&[f32]>) -> Result<(), Refusal> {
    if points.is_empty() {
        return refuse(1, 0);
    }
    if points.len() % 3 != 0 || normals.is_some_and(|n| n.len() != points.len()) {
        return refuse(2, 0);
    }
    if points.len() / 3 > MAX_POINTS {
        return refuse(3, 0);
    }
    Ok(())
}

/// 4; the detail is the first point with a number outside the domain.
fn numbers(points: &[f32], normals: Option<&[f32]>) -> Result<(), Refusal> {
    let good = |i: usize| coordinate(&points[i]) && normals.is_none_or(|n| n[i].is_finite());
    match (0..points.len()).find(|i| !good(*i)) {
        Some(i) => refuse(4, i / 3),
        None => Ok(()),
    }
}

fn list(slots: &[f32; 8], count: u32, low: f32, high: f32) -> bool {
    count <= 8 && slots[..count as usize].iter().all(|x| within(*x, low, high))
}

/// 5; the detail is the first bad setting's number in the scope's list.
fn settings(s: &Settings) -> Result<(), Refusal> {
    let good = [
        within(s.radius, 0.001, 1_000.0),
        list(&s.additional_radii, s.additional_count, 0.001, 1_000.0),
        list(&s.adaptive_percentiles, s.percentile_count, 0.0, 1.0),
        within(s.quality_threshold, 0.0, 1_000_000.0),
        within(s.max_edge_factor, 0.0, 1_000_000.0),
        within(s.min_triangle_area, 0.0, 1_000_000.0),
        within(s.spatial_cell_factor, 0.5, 16.0),
        s.frontier_rule == 1 || s.frontier_rule == 2,
    ];
    match good.iter().position(|g| !g) {
        Some(i) => refuse(5, i + 1),
        None => Ok(()),
    }
}

/// 7; the lengths of the two work slices, words first.
fn work(points: usize, [words, floats]: [usize; 2]) -> Result<(), Refusal> {
    if words < 24 * points + 64 || floats < 4 * points + 64 {
        return refuse(7, 0);
    }
    Ok(())
}

pub fn reconstruct(points: &[f32], normals: &[f32], s: &Settings, lent: [usize; 2]) -> Result<(), Refusal> {
    lengths(points, Some(normals))?;
    numbers(points, Some(normals))?;
    settings(s)?;
    work(points.len() / 3, lent)
}

pub fn estimate(points: &[f32], percentile: f32, lent: [usize; 2]) -> Result<(), Refusal> {
    lengths(points, None)?;
    numbers(points, None)?;
    if !within(percentile, 0.0, 1.0) {
        return refuse(6, 0);
    }
    work(points.len() / 3, lent)
}
