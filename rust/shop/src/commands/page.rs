//! `yarrowbleat page`: a page for each file.

use super::{notes, tell_notes};
use crate::batch::Batch;
use crate::failure::Failure;
use crate::laid::{Laid, Task};
use crate::page::{page, PageInput};
use crate::results::Results;
use crate::words::Page;
use crate::{figures, inputs};
use std::path::Path;

fn text(path: &Path, laid: &Laid) -> String {
    let (figures, unreached) = (figures::of(laid), figures::unreached(laid));
    let mut notes = notes(laid);
    if laid.estimated {
        notes.push(format!("the radius, {}, is an estimate", laid.radius));
    }
    page(&PageInput {
        name: &path.display().to_string(),
        points: &laid.scan.points,
        faces: &laid.faces,
        radii: &laid.radii,
        seeds: laid.seeds,
        unreached: &unreached,
        open_edges: figures.open_edges,
        area: figures.area,
        notes: &notes,
    })
}

pub fn run(words: &Page) -> Result<(), Failure> {
    let task = Task::new(&words.lay, words.limit.limit, false)?;
    let files = inputs::expand(&words.files)?;
    let results = Results::new(&words.out, &files, "html")?;
    let work = |path: &Path| {
        let laid = task.lay(path)?;
        results.write(path, text(path, &laid).as_bytes())?;
        Ok(notes(&laid))
    };
    Batch::new(&words.many, words.lay.quiet).run(&files, work, |path, notes| {
        tell_notes(path, &notes.unwrap_or_default(), words.lay.quiet);
        Ok(None)
    })
}
