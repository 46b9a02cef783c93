//! The subcommands, a module each.

mod convert;
mod estimate;
mod lay;
mod nearest;
mod order;
mod page;
mod season;
mod settings;
mod stl;
mod verify;
mod why;

use crate::batch::tell;
use crate::failure::Failure;
use crate::laid::{Laid, Task};
use crate::scan::Scan;
use crate::words::Command;
use crate::{limit, manual, output};
use std::path::Path;

/// Does what the words say.
pub fn run(command: Command) -> Result<(), Failure> {
    match command {
        Command::Lay(words) => lay::run(&words),
        Command::Stl(words) => stl::run(&words),
        Command::Page(words) => page::run(&words),
        Command::Convert(words) => convert::run(&words),
        Command::Estimate(words) => estimate::run(&words),
        Command::Why(words) => why::run(&words),
        Command::Nearest(words) => nearest::run(&words),
        Command::Season(words) => season::run(&words),
        Command::Order(words) => order::run(&words),
        Command::Settings(words) => settings::run(&words),
        Command::Verify(words) => verify::run(&words),
        Command::Completions(words) => output::print(manual::completions(words.shell)),
        Command::Man(_) => output::print(manual::page()?),
        Command::OneLaid(words) => {
            let task = Task::new(&words.lay, None, words.turned)?;
            output::print(limit::answer(&words.file, &task))
        }
    }
}

/// What a person should know of how a scan was read.
fn scan_notes(scan: &Scan) -> Vec<String> {
    let mut notes = scan.notes.clone();
    notes.extend(scan.left_out.as_ref().map(|left| left.words()));
    notes
}

fn notes(laid: &Laid) -> Vec<String> {
    scan_notes(&laid.scan)
}

/// Tells the notes of a file.
fn tell_notes(path: &Path, notes: &[String], quiet: bool) {
    for note in notes.iter().filter(|_| !quiet) {
        tell(&format!("{}: {note}", path.display()));
    }
}

/// A value as one line of JSON.
fn json(value: &impl serde::Serialize) -> Result<Vec<u8>, Failure> {
    let mut bytes =
        serde_json::to_vec(value).map_err(|error| Failure::new(format!("no JSON can be written: {error}")))?;
    bytes.push(b'\n');
    Ok(bytes)
}

/// A file's name as a field of a table: quoted where it has to be.
fn field(path: &Path) -> Vec<u8> {
    use std::os::unix::ffi::OsStrExt;
    let name = path.as_os_str().as_bytes();
    if !name.iter().any(|b| matches!(b, b',' | b'"' | b'\n' | b'\r')) {
        return name.to_vec();
    }
    let mut quoted = vec![b'"'];
    quoted.extend(name.iter().flat_map(|b| if *b == b'"' { vec![b'"'; 2] } else { vec![*b] }));
    quoted.push(b'"');
    quoted
}

/// A file's name as it is, and what is said of it.
fn named(path: &Path, words: &str) -> Vec<u8> {
    use std::os::unix::ffi::OsStrExt;
    [path.as_os_str().as_bytes(), b": ", words.as_bytes(), b"\n"].concat()
}

/// What JSON says of a file that failed.
#[derive(serde::Serialize)]
struct FailedFile<'a> {
    file: String,
    status: u8,
    answer: Option<u32>,
    error: &'a str,
}

impl<'a> FailedFile<'a> {
    fn new(path: &Path, failure: &'a Failure) -> Self {
        let (status, answer) = (failure.status, failure.answer());
        Self { file: path.display().to_string(), status, answer, error: &failure.line }
    }
}
