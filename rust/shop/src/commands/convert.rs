//! `yarrowbleat convert`: a cloud file of a scan, and what its six places can't keep is refused.

use super::{scan_notes, tell_notes};
use crate::batch::Batch;
use crate::failure::Failure;
use crate::inputs;
use crate::laid::{estimate, PLACES};
use crate::results::Results;
use crate::scan::{self, Reading, Scan};
use crate::words::{Convert, OutWords};
use std::path::{Path, PathBuf};

const NAMES: [&str; 6] = ["x", "y", "z", "nx", "ny", "nz"];

/// A number as a cloud file can have it: up to five digits, and the nearest six places with no zeros at their end.
fn decimal(value: f32) -> Option<String> {
    let text = format!("{value:.PLACES$}");
    let text = text.trim_end_matches('0').trim_end_matches('.');
    let digits = text.trim_start_matches('-').split('.').next()?.len();
    (value.is_finite() && digits <= 5).then(|| text.to_string())
}

/// The cloud file, how many of its numbers are read back as another f32 than the scan's, and the first of them.
struct Written {
    text: String,
    changed: usize,
    first: String,
}

impl Written {
    fn new() -> Self {
        Self { text: String::new(), changed: 0, first: String::new() }
    }

    fn add(&mut self, value: f32, name: impl Fn() -> String, end: char) -> Result<(), Failure> {
        let no_place = || Failure::new(format!("{}, {value}, has no place in a cloud file: up to five digits", name()));
        let shown = decimal(value).ok_or_else(no_place)?;
        if shown.parse() != Ok(value) {
            self.changed += 1;
            if self.first.is_empty() {
                self.first = format!("{}, {value}, becomes {shown}", name());
            }
        }
        self.text.push_str(&shown);
        self.text.push(end);
        Ok(())
    }
}

fn cloud_file(radius: f32, scan: &Scan) -> Result<Written, Failure> {
    let mut written = Written::new();
    written.add(radius, || "the radius".to_string(), '\n')?;
    for (number, (p, n)) in scan.points.iter().zip(&scan.normals).enumerate() {
        for (at, value) in p.iter().chain(n).enumerate() {
            let end = if at == 5 { '\n' } else { ',' };
            written.add(*value, || format!("point {number}'s {}", NAMES[at]), end)?;
        }
    }
    Ok(written)
}

/// The text of a file's cloud, and what is to be told of it.
fn converted(path: &Path, reading: &Reading, words: &Convert) -> Result<(String, Vec<String>), Failure> {
    let scan = scan::read(path, reading)?;
    let mut notes = scan_notes(&scan);
    let failed = |failure: Failure| failure.at(path);
    let radius = match words.radius.or(scan.radius) {
        Some(radius) => radius,
        None => {
            let radius = estimate(&scan).map_err(failed)?;
            notes.push(format!("radius {radius}, an estimate; --radius gives another"));
            radius
        }
    };
    let written = cloud_file(radius, &scan).map_err(failed)?;
    if written.changed == 0 {
        return Ok((written.text, notes));
    }
    let all = 6 * scan.points.len() + 1;
    let lost = format!("{} of {all} numbers can't be kept in six places: {}", written.changed, written.first);
    if !words.rounded {
        let words = "so faces might differ; lay the scan itself, which is exact, or round it by --rounded";
        return Err(failed(Failure::new(format!("{lost}; {words}"))));
    }
    notes.push(format!("{lost}; the faces may differ from those of the scan"));
    Ok((written.text, notes))
}

pub fn run(words: &Convert) -> Result<(), Failure> {
    let reading = Reading { mend: true, ..words.read.reading(words.quiet) };
    let files = inputs::expand(&words.files)?;
    // One result with no place goes to standard output.
    let mut out: OutWords = words.out.clone();
    if out.output.is_none() && out.out_dir.is_none() && files.len() == 1 {
        out.output = Some(PathBuf::from("-"));
    }
    let results = Results::new(&out, &files, "csv")?;
    let work = |path: &Path| {
        let (text, notes) = converted(path, &reading, words)?;
        results.write(path, text.as_bytes())?;
        Ok(notes)
    };
    Batch::new(&words.many, words.quiet).run(&files, work, |path, notes| {
        tell_notes(path, &notes.unwrap_or_default(), words.quiet);
        Ok(None)
    })
}
