//! `yarrowbleat lay`: a line, a listing, a JSON object or a row of a table for each file.

use super::{field, json, named, notes, tell_notes, FailedFile};
use crate::batch::Batch;
use crate::failure::{Failure, NOT_REACHED};
use crate::figures::{self, Figures};
use crate::laid::{Laid, Task};
use crate::scan::{Form, LeftOut};
use crate::words::Lay;
use crate::{inputs, output, watch};
use serde::Serialize;
use std::fmt::Write as _;
use std::path::{Path, PathBuf};

/// What JSON says of a file that was laid.
#[derive(Serialize)]
struct LaidFile<'a> {
    file: String,
    status: u8,
    form: Form,
    #[serde(flatten)]
    figures: &'a Figures,
    unreached: Vec<u32>,
    left_out: &'a Option<LeftOut>,
    notes: Vec<String>,
}

const HEADER: &str =
    "file,status,points,faces,seeds,looks,pivots,reached,open_edges,shared_edges,area,radius,radius_estimated\n";

/// A patch with its figures, and whether enough was reached.
struct Done {
    laid: Laid,
    figures: Figures,
    status: u8,
}

fn work(path: &Path, task: &Task, least: Option<f64>) -> Result<Done, Failure> {
    let laid = task.lay(path)?;
    let figures = figures::of(&laid);
    let part = figures.reached as f64 / figures.points as f64;
    let status = if least.is_some_and(|least| part < least) { NOT_REACHED } else { 0 };
    Ok(Done { laid, figures, status })
}

/// As the program `lay` prints it.
pub fn listing(laid: &Laid) -> String {
    let mut text = "points,faces,seeds,looks,pivots\n".to_string();
    let counts = [laid.scan.points.len() as u32, laid.faces.len() as u32, laid.seeds, laid.looks, laid.pivots];
    writeln!(text, "{}\nface,a,b,c", counts.map(|count| count.to_string()).join(",")).expect("to a string");
    for (number, [a, b, c]) in laid.faces.iter().enumerate() {
        writeln!(text, "{number},{a},{b},{c}").expect("to a string");
    }
    text
}

/// The faces, the seeds and how much of the wall they reach.
fn line(figures: &Figures) -> String {
    let Figures { faces, seeds, reached, points, open_edges, area, radius, .. } = figures;
    let estimate = if figures.radius_estimated { format!(", radius {radius} (an estimate)") } else { String::new() };
    let reach = format!("reached {reached} of {points} points, open edges {open_edges}, area {area:.6}");
    format!("faces {faces}, seeds {seeds}, {reach}{estimate}")
}

fn row(path: &Path, done: &Done) -> Vec<u8> {
    let f = &done.figures;
    let counts = format!(",{},{},{},{},{},{}", done.status, f.points, f.faces, f.seeds, f.looks, f.pivots);
    let reach = format!(",{},{},{},{}", f.reached, f.open_edges, f.shared_edges, f.area);
    let radius = format!(",{},{}\n", f.radius, f.radius_estimated);
    [field(path), counts.into_bytes(), reach.into_bytes(), radius.into_bytes()].concat()
}

fn result(path: &Path, done: &Done, words: &Lay, several: bool) -> Result<Vec<u8>, Failure> {
    let laid = &done.laid;
    if words.json {
        let (unreached, notes) = (figures::unreached(laid), notes(laid));
        let (file, status, form) = (path.display().to_string(), done.status, laid.scan.form);
        return json(&LaidFile {
            file,
            status,
            form,
            figures: &done.figures,
            unreached,
            left_out: &laid.scan.left_out,
            notes,
        });
    }
    if words.csv {
        return Ok(row(path, done));
    }
    if words.listing {
        let name = if several { [b"file,", &field(path)[..], b"\n"].concat() } else { Vec::new() };
        return Ok([name, listing(laid).into_bytes()].concat());
    }
    let mut text = named(path, &line(&done.figures));
    if words.coverage {
        let missing: String = figures::unreached(laid).iter().map(|point| format!(" {point}")).collect();
        text.extend(format!("  not reached:{missing}\n").into_bytes());
    }
    Ok(text)
}

/// What is printed of a file that failed, where a table or JSON has it.
fn failed(path: &Path, failure: &Failure, words: &Lay) -> Result<Vec<u8>, Failure> {
    if words.json {
        return json(&FailedFile::new(path, failure));
    }
    if words.csv {
        let rest = format!(",{}{}\n", failure.status, ",".repeat(HEADER.matches(',').count() - 1));
        return Ok([field(path), rest.into_bytes()].concat());
    }
    Ok(Vec::new())
}

/// Lays these files and prints what is asked for; fewer points reached than asked for is a failure of the file.
fn lay(files: &[PathBuf], task: &Task, words: &Lay, several: bool) -> Result<(), Failure> {
    let batch = Batch::new(&words.many, words.lay.quiet);
    let least = words.require_reached;
    batch.run(
        files,
        |path| work(path, task, least),
        |path, done| {
            let done = match done {
                Ok(done) => done,
                Err(failure) => return output::print(failed(path, failure, words)?).map(|()| None),
            };
            tell_notes(path, &notes(&done.laid), words.lay.quiet);
            output::print(result(path, &done, words, several)?)?;
            Ok((done.status == NOT_REACHED).then(|| too_little(path, &done.figures, least)))
        },
    )
}

fn too_little(path: &Path, figures: &Figures, least: Option<f64>) -> Failure {
    let part = figures.reached as f64 / figures.points as f64;
    let words = format!("{part:.6} of its points are reached, and {} were asked for", least.unwrap_or_default());
    Failure::with_status(NOT_REACHED, words).at(path)
}

pub fn run(words: &Lay) -> Result<(), Failure> {
    let task = Task::new(&words.lay, words.limit.limit, false)?;
    if words.csv {
        output::print(HEADER)?;
    }
    if let Some(folder) = &words.watch {
        return watch::watch(folder, |files| lay(files, &task, words, true));
    }
    let files = inputs::expand(&words.files)?;
    lay(&files, &task, words, files.len() > 1)
}
