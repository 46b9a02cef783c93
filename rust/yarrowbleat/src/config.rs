//! The settings under their old names.

use crate::{sys, Error};

/// The fields of the old configuration that this path reads. Both lists have at most 8 entries.
///
/// Requests add fields: `BallPivotingConfig { radius, ..Default::default() }` goes on compiling.
#[derive(Clone, Debug, PartialEq)]
pub struct BallPivotingConfig {
    /// The ball's radius, 0.001 to 1,000.
    pub radius: f32,
    /// Further radii, each 0.001 to 1,000.
    pub additional_radii: Vec<f32>,
    /// Whether the radii are tried, with those of the percentiles. Where not, the plain path is taken: it has no seeds,
    /// and a turned patch is refused.
    pub adaptive_radius: bool,
    /// Each, 0 to 1, gives one more radius: twice that percentile of the samples' mean distances to their ten nearest
    /// points.
    pub adaptive_percentiles: Vec<f32>,
    /// The least score of a face, 0 to 1,000,000; a triangle with equal edges has a score of 1.
    pub quality_threshold: f32,
    /// 0 to 1,000,000. A triangle is turned down if its edge ratio (the longest edge divided by the shortest) times the
    /// root of its area is above the radius times this factor. It is no limit on the length of an edge.
    pub max_edge_factor: f32,
    /// The least area of a face, 0 to 1,000,000. A face without area is never laid, at 0 too.
    pub min_triangle_area: f32,
    /// Whether a point's neighbours are those in the cells around it; all points where not.
    pub use_spatial_index: bool,
    /// The width of a cell, in radii, 0.5 to 16.
    pub spatial_cell_factor: f32,
    /// The order in which edges are taken from the frontier.
    pub frontier_rule: FrontierRule,
}

/// The order in which the edges that wait are pivoted over.
#[derive(Clone, Copy, Debug, Default, PartialEq, Eq)]
#[non_exhaustive]
pub enum FrontierRule {
    /// Rule 1, the old program's: that of its heap.
    #[default]
    Heap,
    /// Rule 2, first come, first pivoted: the surface spreads evenly from its seed.
    Queue,
}

impl FrontierRule {
    /// The rule's number.
    pub fn number(self) -> u32 {
        match self {
            FrontierRule::Heap => 1,
            FrontierRule::Queue => 2,
        }
    }
}

/// The rule of a number; any other number is refused as the library refuses it, setting 8.
impl TryFrom<u32> for FrontierRule {
    type Error = Error;

    fn try_from(number: u32) -> Result<Self, Error> {
        match number {
            1 => Ok(FrontierRule::Heap),
            2 => Ok(FrontierRule::Queue),
            _ => Err(Error::Setting(8)),
        }
    }
}

impl BallPivotingConfig {
    /// The defaults at this radius: those of `ball_pivoting_from_normals`.
    pub fn new(radius: f32) -> Self {
        let c = sys::default_config(radius);
        Self {
            radius: c.radius,
            additional_radii: c.additional_radii[..c.additional_count as usize].to_vec(),
            adaptive_radius: c.adaptive_radius,
            adaptive_percentiles: c.adaptive_percentiles[..c.percentile_count as usize].to_vec(),
            quality_threshold: c.quality_threshold,
            max_edge_factor: c.max_edge_factor,
            min_triangle_area: c.min_triangle_area,
            use_spatial_index: c.use_spatial_index,
            spatial_cell_factor: c.spatial_cell_factor,
            frontier_rule: FrontierRule::default(),
        }
    }
}

impl Default for BallPivotingConfig {
    fn default() -> Self {
        Self::new(0.1)
    }
}

/// A list's slots and its count; of a list over 8 the count alone says that it is too long.
fn slots(list: &[f32]) -> ([f32; 8], u32) {
    let mut slots = [0.0; 8];
    slots.iter_mut().zip(list).for_each(|(slot, x)| *slot = *x);
    (slots, list.len().min(9) as u32)
}

impl From<&BallPivotingConfig> for sys::BallPivotingConfig {
    fn from(c: &BallPivotingConfig) -> Self {
        let (additional_radii, additional_count) = slots(&c.additional_radii);
        let (adaptive_percentiles, percentile_count) = slots(&c.adaptive_percentiles);
        Self {
            radius: c.radius,
            additional_radii,
            additional_count,
            adaptive_radius: c.adaptive_radius,
            adaptive_percentiles,
            percentile_count,
            quality_threshold: c.quality_threshold,
            max_edge_factor: c.max_edge_factor,
            min_triangle_area: c.min_triangle_area,
            use_spatial_index: c.use_spatial_index,
            spatial_cell_factor: c.spatial_cell_factor,
            frontier_rule: c.frontier_rule.number(),
        }
    }
}
