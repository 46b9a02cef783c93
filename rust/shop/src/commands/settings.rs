//! `yarrowbleat settings`: a file of settings, checked or printed.

use crate::failure::Failure;
use crate::laid::refused;
use crate::output;
use crate::scan::{Form, Scan};
use crate::settings::Given;
use crate::words::{LayWords, Settings};
use yarrowbleat::Error;

/// Has the library check the settings, on three points that any settings could lay.
fn check(given: &Given) -> Result<(), Failure> {
    let points = vec![[0.0; 3], [1.0, 0.0, 0.0], [0.0, 1.0, 0.0]];
    let config = given.at(given.radius().unwrap_or(1.0));
    let (form, normals) = (Form::Cloud, points.clone());
    let scan = Scan { form, radius: None, points, normals, left_out: None, notes: Vec::new() };
    match yarrowbleat::reconstruct_with_normals(&scan.points, &scan.normals, &config) {
        Err(error @ Error::Setting(_)) => Err(refused(error, &scan, &config)),
        _ => Ok(()),
    }
}

pub fn run(words: &Settings) -> Result<(), Failure> {
    let given = Given::from(&LayWords { settings: words.file.clone(), ..LayWords::default() })?;
    check(&given).map_err(|failure| match &words.file {
        Some(path) => failure.at(path),
        None => failure,
    })?;
    if words.print {
        return output::print(given.text());
    }
    output::print("the settings are within their bounds\n")
}
