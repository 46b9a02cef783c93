//! Where results go: whole files or none, and nothing that anybody would miss is written over.

use crate::failure::Failure;
use std::fs::{self, File, Metadata};
use std::io::{ErrorKind, IsTerminal, Read, Write};
use std::os::unix::fs::{FileTypeExt, MetadataExt};
use std::path::{Path, PathBuf};

fn failed(path: &Path, error: std::io::Error) -> Failure {
    Failure::new(error).at(path)
}

/// To standard output; whoever reads there may stop.
pub fn print(bytes: impl AsRef<[u8]>) -> Result<(), Failure> {
    let mut out = std::io::stdout().lock();
    match out.write_all(bytes.as_ref()).and_then(|()| out.flush()) {
        Err(error) if error.kind() != ErrorKind::BrokenPipe => Err(Failure::new(format!("standard output: {error}"))),
        Err(_) => std::process::exit(0),
        Ok(()) => Ok(()),
    }
}

/// True if both are one file, by whatever names.
fn same_file(one: &Metadata, other: &Path) -> bool {
    fs::metadata(other).is_ok_and(|other| (one.dev(), one.ino()) == (other.dev(), other.ino()))
}

/// The place that a symlink names in the end, which need not be there yet.
fn target(path: &Path) -> PathBuf {
    match fs::canonicalize(path) {
        Ok(real) => real,
        Err(_) => match fs::read_link(path) {
            Ok(link) => path.parent().unwrap_or(Path::new("")).join(link),
            Err(_) => path.to_path_buf(),
        },
    }
}

/// True if the file holds exactly these bytes.
fn holds(path: &Path, bytes: &[u8]) -> bool {
    let mut held = Vec::new();
    let most = bytes.len() as u64 + 1;
    File::open(path).and_then(|file| file.take(most).read_to_end(&mut held)).is_ok() && held == bytes
}

/// Beside its place first, so that nothing stands there half-written; mode and owner of a file that is replaced stay.
fn replace(path: &Path, bytes: &[u8], before: Option<&Metadata>) -> std::io::Result<()> {
    let mut beside = path.as_os_str().to_owned();
    beside.push(format!(".{}.part", std::process::id()));
    let beside = PathBuf::from(beside);
    let write = || {
        fs::write(&beside, bytes)?;
        if let Some(before) = before {
            // Only the superuser may give a file away; the mode comes after, since a new owner clears parts of it.
            let _ = std::os::unix::fs::chown(&beside, Some(before.uid()), Some(before.gid()));
            fs::set_permissions(&beside, before.permissions())?;
        }
        fs::rename(&beside, path)
    };
    write().inspect_err(|_| {
        let _ = fs::remove_file(&beside);
    })
}

/// Writes a result to its place. `-` is standard output. One of the inputs is never written over, and another file that
/// is there and holds something else only by force.
pub fn write(path: &Path, bytes: &[u8], inputs: &[&Path], force: bool) -> Result<(), Failure> {
    if path == Path::new("-") {
        return print(bytes);
    }
    let place = target(path);
    let Ok(before) = fs::metadata(&place) else {
        return replace(&place, bytes, None).map_err(|error| failed(path, error));
    };
    if inputs.iter().any(|input| same_file(&before, input)) {
        return Err(Failure::new("it is one of the inputs, which are never written over; name another file").at(path));
    }
    let kind = before.file_type();
    if kind.is_char_device() || kind.is_block_device() || kind.is_fifo() {
        let opened = fs::OpenOptions::new().write(true).open(&place);
        return opened.and_then(|mut file| file.write_all(bytes)).map_err(|error| failed(path, error));
    }
    if kind.is_dir() {
        return Err(Failure::new("it is a folder; --out-dir takes folders").at(path));
    }
    if holds(&place, bytes) {
        return Ok(());
    }
    if !force {
        return Err(Failure::new("it is there already and holds something else; --force replaces it").at(path));
    }
    replace(&place, bytes, Some(&before)).map_err(|error| failed(path, error))
}

/// Refuses to fill a terminal with bytes that are no text.
pub fn not_to_a_terminal(path: &Path) -> Result<(), Failure> {
    if path == Path::new("-") && std::io::stdout().is_terminal() {
        return Err(Failure::new("the file is binary and standard output is a terminal; -o FILE names a place"));
    }
    Ok(())
}
