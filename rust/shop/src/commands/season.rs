//! `yarrowbleat season`: exact figures over folders of scans.

use super::{json, notes, tell_notes};
use crate::batch::Batch;
use crate::failure::Failure;
use crate::laid::Task;
use crate::words::Season;
use crate::{figures, inputs, output};
use serde::Serialize;
use std::path::{Path, PathBuf};
use yarrowbleat::tally::{Figures, Fraction, SeasonPatch, Tally};

/// A fraction in lowest terms, and the nearest decimal.
#[derive(Serialize)]
struct Exact {
    numerator: u64,
    denominator: u64,
    decimal: f64,
}

impl Exact {
    fn of(fraction: Fraction) -> Self {
        let Fraction { numerator, denominator } = fraction;
        Self { numerator, denominator, decimal: numerator as f64 / denominator as f64 }
    }
}

#[derive(Serialize)]
struct Covered {
    file: String,
    coverage: Exact,
}

#[derive(Serialize)]
struct Summary {
    patches: u64,
    failed: usize,
    faces_mean: Exact,
    faces_variance: Exact,
    coverage: Exact,
    best: Covered,
    worst: Covered,
}

fn shown(fraction: Fraction) -> String {
    format!("{fraction} ({:.6})", Exact::of(fraction).decimal)
}

fn text(f: &Figures, name: impl Fn(SeasonPatch) -> String) -> String {
    format!(
        "patches: {}\nfaces: mean {}, variance {}\ncovered: {}\nbest: {}, {}\nworst: {}, {}\n",
        f.patches,
        shown(f.mean),
        shown(f.variance),
        shown(f.coverage),
        name(f.best),
        shown(f.best_coverage),
        name(f.worst),
        shown(f.worst_coverage)
    )
}

/// The tally of the files that were laid, how many failed, and the first failure.
struct Sums {
    tally: Tally,
    failed: usize,
    result: Result<(), Failure>,
}

fn sums(words: &Season, files: &[PathBuf]) -> Result<Sums, Failure> {
    let task = Task::new(&words.lay, words.limit.limit, false)?;
    let work = |path: &Path| task.lay(path).map(|laid| (figures::of(&laid), notes(&laid)));
    let (mut tally, mut failed, mut numbers) = (Tally::new(), 0, 0..);
    let result = Batch::new(&words.many, words.lay.quiet).run(files, work, |path, done| {
        let number = numbers.next().expect("a number for each file");
        let Ok((f, notes)) = done else {
            failed += 1;
            return Ok(None);
        };
        tell_notes(path, &notes, words.lay.quiet);
        let (scanned, covered, faces) = (f.points as u32, f.reached as u32, f.faces as u32);
        let entered = tally.add(SeasonPatch { number, scanned, covered, faces });
        entered.map(|()| None).map_err(|error| Failure::of(error, ""))
    });
    Ok(Sums { tally, failed, result })
}

pub fn run(words: &Season) -> Result<(), Failure> {
    let files = inputs::expand(&words.files)?;
    let sums = sums(words, &files)?;
    let name = |patch: SeasonPatch| files[patch.number as usize].display().to_string();
    let f = match sums.tally.figures() {
        Ok(figures) => figures,
        Err(error) => return sums.result.and(Err(Failure::of(error, "no file was laid"))),
    };
    let covered = |patch, coverage| Covered { file: name(patch), coverage: Exact::of(coverage) };
    let text = if words.json {
        json(&Summary {
            patches: f.patches,
            failed: sums.failed,
            faces_mean: Exact::of(f.mean),
            faces_variance: Exact::of(f.variance),
            coverage: Exact::of(f.coverage),
            best: covered(f.best, f.best_coverage),
            worst: covered(f.worst, f.worst_coverage),
        })?
    } else {
        text(&f, name).into_bytes()
    };
    output::print(text)?;
    sums.result
}
