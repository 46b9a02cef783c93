//! The settings that this path reads, with lists of 8 slots and a count, as the port has them.

use crate::ball_pivoting::BallPivotingConfig;

/// Slots past a count are never read.
#[derive(Clone, Copy, Debug)]
pub struct Settings {
    pub radius: f32,
    pub additional_radii: [f32; 8],
    pub additional_count: u32,
    pub adaptive_radius: bool,
    pub adaptive_percentiles: [f32; 8],
    pub percentile_count: u32,
    pub quality_threshold: f32,
    pub max_edge_factor: f32,
    pub min_triangle_area: f32,
    pub use_spatial_index: bool,
    pub spatial_cell_factor: f32,
    /// 1: the published order of the frontier; 2: first in, first out.
    pub frontier_rule: u32,
}

impl Settings {
    /// Those of `ball_pivoting_from_normals` at this radius.
    pub fn at_radius(radius: f32) -> Self {
        let d = BallPivotingConfig::default();
        let mut settings = Self {
            radius,
            additional_radii: [0.0; 8],
            additional_count: 0,
            adaptive_radius: d.adaptive_radius,
            adaptive_percentiles: [0.0; 8],
            percentile_count: 0,
            quality_threshold: d.quality_threshold,
            max_edge_factor: d.max_edge_factor,
            min_triangle_area: d.min_triangle_area,
            use_spatial_index: d.use_spatial_index,
            spatial_cell_factor: d.spatial_cell_factor,
            frontier_rule: 1,
        };
        settings.set_additional(&d.additional_radii);
        settings.set_percentiles(&d.adaptive_percentiles);
        settings
    }

    pub fn set_additional(&mut self, radii: &[f32]) {
        self.additional_radii[..radii.len()].copy_from_slice(radii);
        self.additional_count = radii.len() as u32;
    }

    pub fn set_percentiles(&mut self, percentiles: &[f32]) {
        self.adaptive_percentiles[..percentiles.len()].copy_from_slice(percentiles);
        self.percentile_count = percentiles.len() as u32;
    }

    pub fn additional(&self) -> &[f32] {
        &self.additional_radii[..self.additional_count as usize]
    }

    pub fn percentiles(&self) -> &[f32] {
        &self.adaptive_percentiles[..self.percentile_count as usize]
    }

    /// The published configuration; what this path never reads keeps its default.
    pub fn to_config(&self) -> BallPivotingConfig {
        BallPivotingConfig {
            radius: self.radius,
            additional_radii: self.additional().to_vec(),
            adaptive_radius: self.adaptive_radius,
            adaptive_percentiles: self.percentiles().to_vec(),
            quality_threshold: self.quality_threshold,
            max_edge_factor: self.max_edge_factor,
            min_triangle_area: self.min_triangle_area,
            use_spatial_index: self.use_spatial_index,
            spatial_cell_factor: self.spatial_cell_factor,
            ..Default::default()
        }
    }
}
