//! `yarrowbleat stl`: faces for viewers.

use super::{notes, tell_notes};
use crate::batch::Batch;
use crate::failure::Failure;
use crate::laid::Task;
use crate::results::Results;
use crate::words::{Format, Stl};
use crate::{inputs, mesh, output, watch};
use std::path::{Path, PathBuf};

/// The kind of file: as it was said, or by the name of the one result.
fn format(words: &Stl) -> Format {
    let ending = words.out.output.as_ref().and_then(|path| path.extension()).map(|e| e.to_ascii_lowercase());
    let by_name = match ending.as_deref().and_then(|ending| ending.to_str()) {
        Some("ply") => Format::Ply,
        Some("obj") => Format::Obj,
        _ => Format::Stl,
    };
    words.format.unwrap_or(by_name)
}

fn ending(format: Format) -> &'static str {
    match format {
        Format::Stl => "stl",
        Format::Ply => "ply",
        Format::Obj => "obj",
    }
}

fn write(files: &[PathBuf], task: &Task, words: &Stl) -> Result<(), Failure> {
    let format = format(words);
    let results = Results::new(&words.out, files, ending(format))?;
    let work = |path: &Path| {
        let laid = task.lay(path)?;
        let faces = if words.by_normals { mesh::by_normals(&laid) } else { laid.faces.clone() };
        let bytes = mesh::write(&laid, &faces, format).map_err(|failure| failure.at(path))?;
        results.write(path, &bytes)?;
        Ok(notes(&laid))
    };
    Batch::new(&words.many, words.lay.quiet).run(files, work, |path, notes| {
        tell_notes(path, &notes.unwrap_or_default(), words.lay.quiet);
        Ok(None)
    })
}

pub fn run(words: &Stl) -> Result<(), Failure> {
    let task = Task::new(&words.lay, words.limit.limit, words.turned)?;
    if let Some(folder) = &words.watch {
        let results = words.out.out_dir.as_ref().and_then(|results| results.canonicalize().ok());
        if results.is_some() && results == folder.canonicalize().ok() {
            return Err(Failure::new("--out-dir is the watched folder: results would be taken for scans").at(folder));
        }
        return watch::watch(folder, |files| write(files, &task, words));
    }
    let files = inputs::expand(&words.files)?;
    if let (Some(path), true) = (&words.out.output, format(words) != Format::Obj) {
        output::not_to_a_terminal(path)?;
    }
    write(&files, &task, words)
}
