//! A patch laid over a scan, with everything that the commands tell of it.

use crate::failure::Failure;
use crate::limit;
use crate::scan::{self, Scan};
use crate::settings::{self, Given};
use crate::words::LayWords;
use serde::{Deserialize, Serialize};
use std::path::Path;
use yarrowbleat::{BallPivotingConfig, Error};

/// How many places a cloud file's numbers have.
pub const PLACES: usize = 6;

/// A scan, the faces over it, and how they came about.
#[derive(Clone, Debug, PartialEq, Serialize, Deserialize)]
pub struct Laid {
    pub scan: Scan,
    #[serde(with = "crate::bits")]
    pub radius: f32,
    /// True if nobody gave the radius.
    pub estimated: bool,
    pub faces: Vec<[u32; 3]>,
    /// The radii tried; none on the plain path.
    #[serde(with = "crate::bits")]
    pub radii: Vec<f32>,
    pub seeds: u32,
    pub looks: u32,
    pub pivots: u32,
    /// For each face the one it was laid from and the place of its radius.
    pub origins: Vec<[u32; 2]>,
}

/// What to lay, and how.
#[derive(Clone)]
pub struct Task {
    pub words: LayWords,
    pub given: Given,
    pub limit: Option<f64>,
    pub turned: bool,
}

impl Task {
    pub fn new(words: &LayWords, limit: Option<f64>, turned: bool) -> Result<Self, Failure> {
        Ok(Self { words: words.clone(), given: Given::from(words)?, limit, turned })
    }

    /// The patch of a file; within the limit, if there is one.
    pub fn lay(&self, path: &Path) -> Result<Laid, Failure> {
        match self.limit {
            Some(seconds) => limit::lay(path, self, seconds),
            None => self.lay_here(path),
        }
    }

    /// The patch of a file, laid by this process.
    pub fn lay_here(&self, path: &Path) -> Result<Laid, Failure> {
        let scan = self.scan(path)?;
        let (radius, estimated) = self.radius(&scan).map_err(|failure| failure.at(path))?;
        let config = self.given.at(radius);
        let laid = yarrowbleat::reconstruct_with_origins(&scan.points, &scan.normals, &config, self.turned);
        let traced = laid.map_err(|error| refused(error, &scan, &config).at(path))?;
        let patch = traced.patch;
        Ok(Laid {
            radius,
            estimated,
            faces: patch.faces,
            radii: patch.radii,
            seeds: patch.seeds,
            looks: patch.looks,
            pivots: patch.pivots,
            origins: traced.origins.iter().map(|origin| [origin.parent, origin.place]).collect(),
            scan,
        })
    }

    pub fn scan(&self, path: &Path) -> Result<Scan, Failure> {
        scan::read(path, &self.words.read.reading(self.words.quiet))
    }

    /// The radius for a scan, and whether it is an estimate.
    pub fn radius(&self, scan: &Scan) -> Result<(f32, bool), Failure> {
        match self.given.radius().or(scan.radius) {
            Some(radius) => Ok((radius, false)),
            None => Ok((estimate(scan)?, true)),
        }
    }
}

/// The library's estimate at the middle distance, to the six places of a cloud file: scan and cloud file then agree.
pub fn estimate(scan: &Scan) -> Result<f32, Failure> {
    let estimate = yarrowbleat::estimate_optimal_radius(&scan.points, 0.5).map_err(|error| {
        let default = BallPivotingConfig::default();
        let failure = refused(error, scan, &default);
        Failure { line: format!("{}; no radius can be estimated", failure.line), ..failure }
    })?;
    Ok(format!("{estimate:.PLACES$}").parse().unwrap_or(estimate))
}

/// A refusal of the library, with what was wrong and what may help.
pub fn refused(error: Error, scan: &Scan, config: &BallPivotingConfig) -> Failure {
    let remedy = match error {
        Error::Point(point) => match scan.points.get(point).zip(scan.normals.get(point)) {
            Some(([x, y, z], [a, b, c])) => format!(
                "it is at {x}, {y}, {z} with the normal {a}, {b}, {c}, and coordinates are numbers from -10,000 to \
                 10,000; --crop leaves points out"
            ),
            None => String::new(),
        },
        Error::Setting(number) => match settings::bounds(number) {
            Some(("radius", bounds)) => format!("it is {}, and {bounds} is taken", config.radius),
            Some((_, bounds)) => format!("{bounds} is taken"),
            None => String::new(),
        },
        Error::NoneClose => format!("the radius is {}; --radius gives a larger one", config.radius),
        Error::AllTurnedDown => "`yarrowbleat why` says why of three points; looser --settings may help".to_string(),
        _ => String::new(),
    };
    Failure::of(error, remedy)
}
