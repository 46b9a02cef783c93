//! Answers of the estimate and of the reconstruction.

use crate::{bits, line};
use expect::{Lent, BUDGET};
use generate::{case, fixed_count, Case};
use oracle::Settings;

const SEED: u64 = 2_026;
const MAX_WORDS: usize = 4_096;

/// Mostly small clouds: the fixed ones of at most 400 points, and a larger one now and then.
fn cases(count: usize) -> impl Iterator<Item = Case> {
    let small = |number: u64| if number < fixed_count() || number % 40 == 0 { 1_200 } else { 90 };
    (0..)
        .map(move |number| (number, case(SEED, number)))
        .filter(move |(number, case)| case.points.len() <= small(*number))
        .map(|(_, case)| case)
        .take(count)
}

fn points(case: &Case) -> Vec<u32> {
    let mut words = vec![case.points.len() as u32];
    words.extend(case.points.iter().map(|x| x.to_bits()));
    words
}

fn settings(s: &Settings) -> Vec<u32> {
    let mut words = vec![s.radius.to_bits()];
    words.extend(s.additional_radii.map(f32::to_bits));
    words.extend([s.additional_count, u32::from(s.adaptive_radius)]);
    words.extend(s.adaptive_percentiles.map(f32::to_bits));
    words.push(s.percentile_count);
    words.extend([s.quality_threshold, s.max_edge_factor, s.min_triangle_area].map(f32::to_bits));
    words.extend([u32::from(s.use_spatial_index), s.spatial_cell_factor.to_bits(), s.frontier_rule]);
    words
}

fn estimate(case: &Case) -> Option<String> {
    let mut lent = Lent { faces: vec![], words: vec![1; case.words], floats: vec![1.0; case.floats] };
    let estimate = expect::estimate(&case.points, case.percentile, &mut lent, BUDGET).ok()?;
    let mut words = points(case);
    words.extend([case.percentile.to_bits(), case.words as u32, case.floats as u32]);
    words.extend([estimate.answer, estimate.detail, bits(estimate.radius)]);
    Some(line(7, &words))
}

/// None where the run was given up or the line would be too long.
fn reconstruct(case: &Case) -> Option<String> {
    let normals = vec![1.0; case.normals.len()];
    let work = [case.words, case.floats];
    let found = expect::find(&case.points, &normals, &case.settings, work, BUDGET).ok()?;
    let length = case.face_words(found.need());
    let mut lent = Lent { faces: vec![1; length], words: vec![1; case.words], floats: vec![1.0; case.floats] };
    let patch = found.deliver(&mut lent);
    let mut words = points(case);
    words.push(normals.len() as u32);
    words.extend(settings(&case.settings));
    words.extend([length, case.words, case.floats].map(|n| n as u32));
    words.extend([patch.answer, patch.detail, patch.faces, patch.seeds, patch.looks, patch.pivots, patch.radii_count]);
    words.extend(patch.radii[..patch.radii_count as usize].iter().map(|x| bits(*x)));
    words.extend(&lent.faces[..3 * patch.faces as usize]);
    (words.len() < MAX_WORDS).then(|| line(8, &words))
}

pub fn write(out: &mut String) {
    out.extend(cases(200).filter_map(|case| estimate(&case)));
    out.extend(cases(600).filter_map(|case| reconstruct(&case)));
}
