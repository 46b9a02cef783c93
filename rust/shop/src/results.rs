//! Results that are files: one under a name of its own, or many in a folder, each under its input's name.

use crate::failure::Failure;
use crate::output;
use crate::words::OutWords;
use std::collections::HashMap;
use std::path::{Path, PathBuf};

/// Where the results of these inputs go.
pub struct Results<'a> {
    out: &'a OutWords,
    inputs: Vec<&'a Path>,
    ending: &'a str,
}

impl<'a> Results<'a> {
    /// Refuses two inputs whose results would have one name, before anything is written.
    pub fn new(out: &'a OutWords, files: &'a [PathBuf], ending: &'a str) -> Result<Self, Failure> {
        out.check(files.len())?;
        let results = Self { out, inputs: files.iter().map(PathBuf::as_path).collect(), ending };
        let mut names: HashMap<PathBuf, &Path> = HashMap::new();
        for input in &results.inputs {
            if let Some(other) = names.insert(results.place(input), input) {
                let words = format!("its result would have the name of that of {}", other.display());
                return Err(Failure::new(words).at(input));
            }
        }
        if let Some(folder) = &out.out_dir {
            std::fs::create_dir_all(folder).map_err(|error| Failure::new(error).at(folder))?;
        }
        Ok(results)
    }

    fn place(&self, input: &Path) -> PathBuf {
        match (&self.out.output, &self.out.out_dir) {
            (Some(file), _) => file.clone(),
            (None, Some(folder)) => {
                let name = if input == Path::new("-") { Path::new("standard-input") } else { input };
                let mut name = name.file_stem().unwrap_or_default().to_owned();
                name.push(".");
                name.push(self.ending);
                folder.join(name)
            }
            (None, None) => PathBuf::from("-"),
        }
    }

    pub fn write(&self, input: &Path, bytes: &[u8]) -> Result<(), Failure> {
        output::write(&self.place(input), bytes, &self.inputs, self.out.force)
    }
}
