//! `yarrowbleat estimate`: a radius that suits each file.

use super::{field, json, named, scan_notes, tell_notes, FailedFile};
use crate::batch::Batch;
use crate::failure::Failure;
use crate::laid::refused;
use crate::scan::Reading;
use crate::words::Estimate;
use crate::{inputs, output, scan};
use serde::Serialize;
use std::path::Path;
use yarrowbleat::BallPivotingConfig;

#[derive(Serialize)]
struct Estimated {
    file: String,
    status: u8,
    points: usize,
    percentile: f32,
    radius: f32,
}

/// What is printed of a file.
fn estimated(path: &Path, points: usize, radius: f32, words: &Estimate) -> Result<Vec<u8>, Failure> {
    let percentile = words.percentile;
    if words.json {
        return json(&Estimated { file: path.display().to_string(), status: 0, points, percentile, radius });
    }
    if words.csv {
        return Ok([field(path), format!(",0,{points},{percentile},{radius}\n").into_bytes()].concat());
    }
    Ok(named(path, &format!("radius {radius}")))
}

pub fn run(words: &Estimate) -> Result<(), Failure> {
    let files = inputs::expand(&words.files)?;
    // An estimate takes distances alone.
    let reading = Reading { without_normals: true, ..words.read.reading(words.quiet) };
    let percentile = words.percentile;
    let work = |path: &Path| {
        let scan = scan::read(path, &reading)?;
        let radius = yarrowbleat::estimate_optimal_radius(&scan.points, percentile);
        let radius = radius.map_err(|error| refused(error, &scan, &BallPivotingConfig::default()).at(path))?;
        Ok((scan.points.len(), radius, scan_notes(&scan)))
    };
    if words.csv {
        output::print("file,status,points,percentile,radius\n")?;
    }
    Batch::new(&words.many, words.quiet).run(&files, work, |path, result| {
        let text = match result {
            Ok((points, radius, notes)) => {
                tell_notes(path, &notes, words.quiet);
                estimated(path, points, radius, words)?
            }
            Err(failure) if words.json => json(&FailedFile::new(path, failure))?,
            Err(failure) if words.csv => [field(path), format!(",{},,,\n", failure.status).into_bytes()].concat(),
            Err(_) => Vec::new(),
        };
        output::print(text).map(|()| None)
    })
}
