//! The settings of a reconstruction: a TOML file with the names of the crate's `BallPivotingConfig`, and their bounds.

use crate::failure::Failure;
use crate::words::LayWords;
use serde::Deserialize;
use std::fmt::Write as _;
use std::path::Path;
use toml::Spanned;
use yarrowbleat::{BallPivotingConfig, FrontierRule};

/// A setting's name, its bounds in words, and what it means; in the order of the library's checks where it has one.
pub const BOUNDS: [(&str, &str, &str); 10] = [
    ("radius", "0.001 to 1,000", "the ball's radius"),
    ("additional_radii", "at most 8, each 0.001 to 1,000", "further radii"),
    ("adaptive_percentiles", "at most 8, each 0 to 1", "percentiles of the density at which radii are taken"),
    ("quality_threshold", "0 to 1,000,000", "the least score of a face"),
    ("max_edge_factor", "0 to 1,000,000", "the most that edge ratio times the root of the area may be, in radii"),
    ("min_triangle_area", "0 to 1,000,000", "the least area of a face"),
    ("spatial_cell_factor", "0.5 to 16", "the width of a cell of the index, in radii"),
    ("frontier_rule", "1 or 2", "1: the old program's order; 2: the surface spreads evenly from its seed"),
    ("adaptive_radius", "true or false", "whether radii are tried; false: the plain path"),
    ("use_spatial_index", "true or false", "whether neighbours are looked for in the cells around a point"),
];

/// The bounds of the setting that the library names by its number, from 1.
pub fn bounds(setting: usize) -> Option<(&'static str, &'static str)> {
    BOUNDS.get(setting.checked_sub(1)?).map(|(name, bounds, _)| (*name, *bounds))
}

/// The settings that a command was given, and the radius if the cloud file's own is not meant.
#[derive(Clone, Debug, PartialEq)]
pub struct Given {
    config: BallPivotingConfig,
    radius: Option<f32>,
}

/// The file, with the place of each number: its text is read as the nearest f32, not by way of a double.
#[derive(Deserialize)]
#[serde(deny_unknown_fields)]
struct Names {
    radius: Option<Spanned<f64>>,
    additional_radii: Option<Vec<Spanned<f64>>>,
    adaptive_radius: Option<bool>,
    adaptive_percentiles: Option<Vec<Spanned<f64>>>,
    quality_threshold: Option<Spanned<f64>>,
    max_edge_factor: Option<Spanned<f64>>,
    min_triangle_area: Option<Spanned<f64>>,
    use_spatial_index: Option<bool>,
    spatial_cell_factor: Option<Spanned<f64>>,
    frontier_rule: Option<u32>,
}

/// The nearest f32 to a number of the file. The place that the parser gives is somewhere in the number's text.
fn nearest(text: &str, number: &Spanned<f64>) -> f32 {
    let double = *number.get_ref();
    let other = |b: &u8| !(b.is_ascii_alphanumeric() || b"+-._".contains(b));
    let (before, after) = text.as_bytes().split_at(number.start().min(text.len()));
    let start = before.iter().rposition(other).map_or(0, |at| at + 1);
    let end = before.len() + after.iter().position(other).unwrap_or(after.len());
    let digits = text.get(start..end).unwrap_or_default().replace('_', "");
    let error = |float: f32| (f64::from(float) - double).abs();
    match digits.parse::<f32>() {
        // Only a double in the middle of two floats can have another nearest one than its text, which is as near.
        Ok(float) if error(float) <= error(double as f32) => float,
        _ => double as f32,
    }
}

impl Given {
    pub fn from(words: &LayWords) -> Result<Self, Failure> {
        let mut given = match &words.settings {
            Some(path) => Self::read(path)?,
            None => Self { config: BallPivotingConfig::default(), radius: None },
        };
        given.radius = words.radius.or(given.radius);
        Ok(given)
    }

    /// The settings of a file.
    pub fn read(path: &Path) -> Result<Self, Failure> {
        let text = std::fs::read_to_string(path).map_err(|error| Failure::new(error).at(path))?;
        Self::parse(&text).map_err(|why| Failure::new(format!("a setting is not understood: {why}")).at(path))
    }

    fn parse(text: &str) -> Result<Self, String> {
        let names: Names = toml::from_str(text).map_err(|error| error.to_string())?;
        let mut c = BallPivotingConfig::default();
        let list = |numbers: &[Spanned<f64>]| numbers.iter().map(|n| nearest(text, n)).collect::<Vec<f32>>();
        let set = |place: &mut f32, number: &Option<Spanned<f64>>| {
            *place = number.as_ref().map_or(*place, |n| nearest(text, n));
        };
        set(&mut c.quality_threshold, &names.quality_threshold);
        set(&mut c.max_edge_factor, &names.max_edge_factor);
        set(&mut c.min_triangle_area, &names.min_triangle_area);
        set(&mut c.spatial_cell_factor, &names.spatial_cell_factor);
        c.additional_radii = names.additional_radii.as_deref().map_or(c.additional_radii, list);
        c.adaptive_percentiles = names.adaptive_percentiles.as_deref().map_or(c.adaptive_percentiles, list);
        c.adaptive_radius = names.adaptive_radius.unwrap_or(c.adaptive_radius);
        c.use_spatial_index = names.use_spatial_index.unwrap_or(c.use_spatial_index);
        c.frontier_rule = match names.frontier_rule {
            None | Some(1) => FrontierRule::Heap,
            Some(2) => FrontierRule::Queue,
            Some(rule) => return Err(format!("frontier_rule is {rule}, and it is 1 or 2")),
        };
        Ok(Self { config: c, radius: names.radius.as_ref().map(|n| nearest(text, n)) })
    }

    /// The radius that was given.
    pub fn radius(&self) -> Option<f32> {
        self.radius
    }

    /// At this radius.
    pub fn at(&self, radius: f32) -> BallPivotingConfig {
        BallPivotingConfig { radius, ..self.config.clone() }
    }

    /// As a file that reads back as the same settings, each with what it means and its bounds.
    pub fn text(&self) -> String {
        let c = &self.config;
        let list = |numbers: &[f32]| format!("{numbers:?}");
        let mut text = String::new();
        for (name, bounds, meaning) in BOUNDS {
            let value = match name {
                "radius" => self.radius.map(|radius| format!("{radius:?}")),
                "additional_radii" => Some(list(&c.additional_radii)),
                "adaptive_percentiles" => Some(list(&c.adaptive_percentiles)),
                "quality_threshold" => Some(format!("{:?}", c.quality_threshold)),
                "max_edge_factor" => Some(format!("{:?}", c.max_edge_factor)),
                "min_triangle_area" => Some(format!("{:?}", c.min_triangle_area)),
                "spatial_cell_factor" => Some(format!("{:?}", c.spatial_cell_factor)),
                "frontier_rule" => Some(c.frontier_rule.number().to_string()),
                "adaptive_radius" => Some(c.adaptive_radius.to_string()),
                _ => Some(c.use_spatial_index.to_string()),
            };
            writeln!(text, "# {meaning}: {bounds}").expect("to a string");
            match value {
                Some(value) => writeln!(text, "{name} = {value}"),
                None => writeln!(text, "# {name} = 0.1"),
            }
            .expect("to a string");
        }
        text
    }
}
