//! The copy of rust/ in which the Rust is changed and built, below target/, so that the repository stays as it is.

use mutants::CHOICE;
use std::fs;
use std::io;
use std::path::{Path, PathBuf};
use std::process::Command;

/// The copy's root: `rust` is a copy, what it reads of the repository is linked.
pub const TREE: &str = "target/mutants";

fn copy(from: &Path, to: &Path) -> io::Result<()> {
    fs::create_dir_all(to)?;
    for entry in fs::read_dir(from)? {
        let entry = entry?;
        let to = to.join(entry.file_name());
        if entry.file_type()?.is_dir() {
            copy(&entry.path(), &to)?;
        } else if !fs::read(&to).is_ok_and(|old| fs::read(entry.path()).is_ok_and(|new| old == new)) {
            // A file that is as before keeps its time, so that Cargo builds only what has changed.
            fs::copy(entry.path(), &to)?;
        }
    }
    Ok(())
}

fn link(root: &Path, name: &str) -> io::Result<()> {
    let to = root.join(TREE).join(name);
    if !to.exists() {
        fs::create_dir_all(to.parent().expect("below the tree"))?;
        std::os::unix::fs::symlink(root.join(name), to)?;
    }
    Ok(())
}

/// Makes the copy, or brings it up to date.
pub fn make(root: &Path) -> io::Result<()> {
    copy(&root.join("rust"), &root.join(TREE).join("rust"))?;
    ["crates", "tests", "c", "target/staticlib"].iter().try_for_each(|name| link(root, name))
}

/// Builds the comparisons with these texts in place of the files.
pub fn build(root: &Path, texts: &[(String, String)]) -> Result<(), String> {
    let tree = root.join(TREE);
    let library = "rust/oracle/src/lib.rs";
    let lines = fs::read_to_string(root.join(library)).map_err(|e| e.to_string())? + CHOICE;
    fs::write(tree.join(library), lines).map_err(|e| e.to_string())?;
    for (file, text) in texts {
        fs::write(tree.join(file), text).map_err(|e| e.to_string())?;
    }
    // The copy has no Rattle source to build the library from: it is linked to the one that is there.
    let out = Command::new("cargo")
        .env("YARROWBLEAT_ARCHIVE", root.join("target/staticlib/libexports.a"))
        .arg("--config")
        .arg(tree.join("rust/.cargo/config.toml"))
        .args(["build", "--release", "--offline", "--quiet", "--jobs=1"])
        .args(["-p", "compare", "-p", "answers", "--manifest-path"])
        .arg(tree.join("rust/Cargo.toml"))
        .output()
        .map_err(|e| e.to_string())?;
    out.status.success().then_some(()).ok_or_else(|| String::from_utf8_lossy(&out.stderr).into_owned())
}

/// A program of the copy.
pub fn program(root: &Path, name: &str) -> PathBuf {
    root.join(TREE).join("target/rust/release").join(name)
}
