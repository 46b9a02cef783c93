//! The files that a command was given: as they stand, and for a folder the scans in it.

use crate::failure::Failure;
use std::path::{Path, PathBuf};

/// The endings of scans in a folder; a file that is named is read whatever its name is.
const ENDINGS: [&str; 6] = ["csv", "ply", "xyz", "txt", "asc", "pts"];

/// True if a file of this name in a folder is taken for a scan.
pub fn is_scan(path: &Path) -> bool {
    let ending = path.extension().map(|ending| ending.to_string_lossy().to_ascii_lowercase());
    ending.is_some_and(|ending| ENDINGS.contains(&ending.as_str()))
}

/// The scans in a folder, by the bytes of their names.
pub fn in_folder(folder: &Path) -> Result<Vec<PathBuf>, Failure> {
    let failed = |error: std::io::Error| Failure::new(error).at(folder);
    let mut files = Vec::new();
    for entry in std::fs::read_dir(folder).map_err(failed)? {
        let path = entry.map_err(failed)?.path();
        if is_scan(&path) && path.is_file() {
            files.push(path);
        }
    }
    files.sort();
    Ok(files)
}

/// All files that are meant, in order.
pub fn expand(named: &[PathBuf]) -> Result<Vec<PathBuf>, Failure> {
    let mut files = Vec::new();
    for path in named {
        if !path.is_dir() {
            files.push(path.clone());
            continue;
        }
        let inside = in_folder(path)?;
        if inside.is_empty() {
            let words = format!("the folder has no scans: no file ends in .{}", ENDINGS.join(", ."));
            return Err(Failure::new(words).at(path));
        }
        files.extend(inside);
    }
    if files.iter().filter(|path| *path == Path::new("-")).count() > 1 {
        return Err(Failure::new("standard input can be read once; `-` stands twice"));
    }
    Ok(files)
}
