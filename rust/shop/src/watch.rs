//! A folder that is looked at again and again: each scan that comes into it, or changes there, is taken once it rests.

use crate::batch::tell;
use crate::failure::Failure;
use crate::inputs;
use std::collections::HashMap;
use std::path::{Path, PathBuf};
use std::time::{Duration, SystemTime};

/// Between two looks. Looking works on every file system, also where a server writes the files.
const PAUSE: Duration = Duration::from_millis(500);

type Stamp = (u64, Option<SystemTime>);

fn stamp(path: &Path) -> Option<Stamp> {
    std::fs::metadata(path).ok().map(|about| (about.len(), about.modified().ok()))
}

/// The files that rest since the last look and were not taken in this state, with what was seen of all.
struct Looks {
    seen: HashMap<PathBuf, Stamp>,
    taken: HashMap<PathBuf, Stamp>,
}

impl Looks {
    fn rested(&mut self, files: Vec<PathBuf>) -> Vec<PathBuf> {
        let mut rested = Vec::new();
        for path in files {
            let Some(now) = stamp(&path) else { continue };
            let before = self.seen.insert(path.clone(), now);
            if before == Some(now) && self.taken.get(&path) != Some(&now) {
                self.taken.insert(path.clone(), now);
                rested.push(path);
            }
        }
        rested
    }
}

/// Hands each scan to `take`, whose failures are told; ends only when the process is ended.
pub fn watch(folder: &Path, mut take: impl FnMut(&[PathBuf]) -> Result<(), Failure>) -> Result<(), Failure> {
    let mut looks = Looks { seen: HashMap::new(), taken: HashMap::new() };
    loop {
        let rested = looks.rested(inputs::in_folder(folder)?);
        for path in &rested {
            if let Err(failure) = take(std::slice::from_ref(path)) {
                tell(&failure.line);
            }
        }
        std::thread::sleep(PAUSE);
    }
}
