//! `yarrowbleat nearest`: the nearest scanned point to each spot.

use super::{json, scan_notes, tell_notes};
use crate::failure::Failure;
use crate::laid::refused;
use crate::output;
use crate::scan::{self, Reading, Scan};
use crate::words::Nearest;
use serde::Serialize;
use std::path::Path;
use yarrowbleat::index::Index;
use yarrowbleat::BallPivotingConfig;

#[derive(Serialize)]
struct Found {
    spot: [f32; 3],
    point: u32,
    place: [f32; 3],
    distance: f32,
}

/// The spots of a file: lines x y z, or any scan's points.
fn spots_of(path: &Path, quiet: bool) -> Result<Vec<[f32; 3]>, Failure> {
    let reading = Reading { without_normals: true, quiet, ..Reading::default() };
    Ok(scan::read(path, &reading)?.points)
}

fn spots(words: &Nearest) -> Result<Vec<[f32; 3]>, Failure> {
    if let Some(path) = &words.spots {
        return spots_of(path, words.quiet);
    }
    let (spots, rest) = words.numbers.as_chunks::<3>();
    if !rest.is_empty() {
        return Err(Failure::new(format!("{} numbers are given, and a spot has three", words.numbers.len())));
    }
    Ok(spots.to_vec())
}

fn found(scan: &Scan, spots: &[[f32; 3]]) -> Result<Vec<Found>, yarrowbleat::Error> {
    let numbers = Index::build(&scan.points)?.nearest_points(&scan.points, spots)?;
    let one = |(spot, point): (&[f32; 3], u32)| {
        let place = scan.points[point as usize];
        Found { spot: *spot, point, place, distance: yarrowbleat::distance(&place, spot) }
    };
    Ok(spots.iter().zip(numbers).map(one).collect())
}

pub fn run(words: &Nearest) -> Result<(), Failure> {
    let reading = Reading { without_normals: true, ..words.read.reading(words.quiet) };
    let scan = scan::read(&words.file, &reading)?;
    tell_notes(&words.file, &scan_notes(&scan), words.quiet);
    let spots = spots(words)?;
    let refused = |error| refused(error, &scan, &BallPivotingConfig::default()).at(&words.file);
    for found in found(&scan, &spots).map_err(refused)? {
        if words.json {
            output::print(json(&found)?)?;
            continue;
        }
        let Found { spot: [x, y, z], point, place: [a, b, c], distance } = found;
        output::print(format!("{x},{y},{z}: point {point} at {a},{b},{c}, distance {distance}\n"))?;
    }
    Ok(())
}
