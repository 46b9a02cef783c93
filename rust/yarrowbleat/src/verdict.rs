//! Why a triangle was turned down: the verdict on three points of a cloud, with the number that was measured.

use crate::{sys, BallPivotingConfig, Error};
use std::fmt;

/// What the acceptance test says of a triangle, and what it measured. No measure is a not-a-number.
#[derive(Clone, Copy, Debug, PartialEq)]
#[non_exhaustive]
pub enum Verdict {
    /// It is accepted; its score.
    Good(f32),
    /// Its area is exactly zero; that zero.
    NoArea(f32),
    /// Its area is below the least; the area.
    Small(f32),
    /// Its score is below the least; the score.
    Poor(f32),
    /// Its edges are too unlike or too long; the edge ratio times the root of the area, which may be infinite.
    Long(f32),
}

impl Verdict {
    /// What was measured.
    pub fn measured(&self) -> f32 {
        match *self {
            Verdict::Good(x) | Verdict::NoArea(x) | Verdict::Small(x) | Verdict::Poor(x) | Verdict::Long(x) => x,
        }
    }

    /// The same in words with the limit that was set: "long: 12.4, the limit is 9".
    pub fn under(self, config: &BallPivotingConfig) -> Explained {
        let limit = match self {
            Verdict::NoArea(_) => None,
            Verdict::Small(_) => Some(config.min_triangle_area),
            Verdict::Good(_) | Verdict::Poor(_) => Some(config.quality_threshold),
            Verdict::Long(_) => Some(config.radius * config.max_edge_factor),
        };
        Explained { verdict: self, limit }
    }
}

impl fmt::Display for Verdict {
    fn fmt(&self, f: &mut fmt::Formatter<'_>) -> fmt::Result {
        let kind = match self {
            Verdict::Good(_) => "good",
            Verdict::NoArea(_) => "no area",
            Verdict::Small(_) => "small",
            Verdict::Poor(_) => "poor",
            Verdict::Long(_) => "long",
        };
        write!(f, "{kind}: {}", self.measured())
    }
}

/// A verdict with the limit that it was held against.
#[derive(Clone, Copy, Debug, PartialEq)]
#[non_exhaustive]
pub struct Explained {
    verdict: Verdict,
    limit: Option<f32>,
}

impl fmt::Display for Explained {
    fn fmt(&self, f: &mut fmt::Formatter<'_>) -> fmt::Result {
        match self.limit {
            Some(limit) => write!(f, "{}, the limit is {limit}", self.verdict),
            None => self.verdict.fmt(f),
        }
    }
}

/// Why the triangle of three points was turned down, or that it was not: they are measured in the order given, at the
/// settings' main radius. The normals, one for each point, are checked and change nothing.
///
/// ```
/// # use yarrowbleat::{judge_triangle, BallPivotingConfig, Verdict};
/// let (points, normals) = ([[0.0; 3], [40.0, 0.0, 0.0], [0.0, 30.0, 0.0]], [[0.0, 0.0, 1.0]; 3]);
/// let config = BallPivotingConfig { max_edge_factor: 9.0, ..BallPivotingConfig::new(1.0) };
/// let verdict = judge_triangle(&points, &normals, &config, [0, 1, 2])?;
/// assert!(matches!(verdict, Verdict::Long(x) if x > 9.0));
/// assert!(verdict.under(&config).to_string().ends_with(", the limit is 9"));
/// # Ok::<(), yarrowbleat::Error>(())
/// ```
pub fn judge_triangle(
    points: &[[f32; 3]],
    normals: &[[f32; 3]],
    config: &BallPivotingConfig,
    triple: [usize; 3],
) -> Result<Verdict, Error> {
    let r = sys::judge_triangle(points.as_flattened(), normals.as_flattened(), config.into(), triple);
    Error::check(r.answer, r.detail as usize)?;
    Ok(match r.kind {
        1 => Verdict::Good(r.measured),
        2 => Verdict::NoArea(r.measured),
        3 => Verdict::Small(r.measured),
        4 => Verdict::Poor(r.measured),
        5 => Verdict::Long(r.measured),
        _ => return Err(Error::Unknown { answer: r.answer, detail: r.detail as usize }),
    })
}
