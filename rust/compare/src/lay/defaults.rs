//! The published defaults as words, in the order of the settings' fields; tests/defaults.c writes those that C gets.

use oracle::Settings;

/// Radii of every kind that is taken.
const RADII: [f32; 5] = [0.1, 0.001, 1.0, 2.5, 1_000.0];

fn words(s: &Settings) -> Vec<u32> {
    let mut words = vec![s.radius.to_bits()];
    words.extend(s.additional_radii.map(f32::to_bits));
    words.extend([s.additional_count, u32::from(s.adaptive_radius)]);
    words.extend(s.adaptive_percentiles.map(f32::to_bits));
    words.push(s.percentile_count);
    words.extend([s.quality_threshold, s.max_edge_factor, s.min_triangle_area].map(f32::to_bits));
    words.extend([u32::from(s.use_spatial_index), s.spatial_cell_factor.to_bits(), s.frontier_rule]);
    words
}

/// A line for each radius.
pub fn defaults() -> String {
    let line = |radius: f32| words(&Settings::at_radius(radius)).iter().map(|word| format!("{word:08x} ")).collect();
    RADII.map(|radius| -> String { line(radius) }).map(|line| line + "\n").concat()
}
