//! A file that takes too long is given up. A thread can't be ended from outside, so the command starts itself to lay it.

use crate::failure::{Failure, TOO_LONG};
use crate::laid::{Laid, Task};
use std::ffi::OsString;
use std::io::Read;
use std::path::Path;
use std::process::{Child, Command, Stdio};
use std::sync::mpsc;
use std::time::Duration;

/// The words for the process that lays.
fn words(path: &Path, task: &Task) -> Vec<OsString> {
    let (lay, read) = (&task.words, &task.words.read);
    let mut words: Vec<OsString> = vec!["one-laid".into()];
    let mut option = |name: &str, value: Option<OsString>| {
        if let Some(value) = value {
            words.extend([name.into(), value]);
        }
    };
    // A float's shortest text is read back as the same float.
    option("--radius", lay.radius.map(|radius| radius.to_string().into()));
    option("--settings", lay.settings.as_ref().map(|path| path.into()));
    option("--thin", read.thin.map(|count| count.to_string().into()));
    option("--columns", read.columns.as_ref().map(|columns| columns.to_string().into()));
    let crop = read.crop.map(|corners| corners.as_flattened().iter().map(f32::to_string).collect::<Vec<_>>().join(","));
    option("--crop", crop.map(Into::into));
    let flags = [(read.without_normals, "--without-normals"), (lay.quiet, "--quiet"), (task.turned, "--turned")];
    words.extend(flags.iter().filter(|(given, _)| *given).map(|(_, name)| OsString::from(name)));
    words.extend(["--".into(), path.into()]);
    words
}

fn start(path: &Path, task: &Task) -> std::io::Result<Child> {
    let mut command = Command::new(std::env::current_exe()?);
    command.args(words(path, task)).stdout(Stdio::piped());
    if path != Path::new("-") {
        command.stdin(Stdio::null());
    }
    command.spawn()
}

/// Lays a file within so many seconds.
pub fn lay(path: &Path, task: &Task, seconds: f64) -> Result<Laid, Failure> {
    let failed = |error: std::io::Error| Failure::new(format!("no process can be started: {error}")).at(path);
    let mut child = start(path, task).map_err(failed)?;
    let mut out = child.stdout.take().expect("a pipe");
    let (send, receive) = mpsc::channel();
    let reader = std::thread::spawn(move || {
        let mut bytes = Vec::new();
        let _ = out.read_to_end(&mut bytes);
        let _ = send.send(bytes);
    });
    let answer = receive.recv_timeout(Duration::from_secs_f64(seconds));
    if answer.is_err() {
        let _ = child.kill();
    }
    let status = child.wait().map_err(failed)?;
    let _ = reader.join();
    match answer {
        Ok(bytes) => serde_json::from_slice(&bytes)
            .unwrap_or_else(|_| Err(Failure::new(format!("the process that laid it ended: {status}")).at(path))),
        Err(_) => {
            let words = format!("given up after {seconds} seconds; a larger --limit or --thin may help");
            Err(Failure::with_status(TOO_LONG, words).at(path))
        }
    }
}

/// What the process prints that lays a file for another.
pub fn answer(path: &Path, task: &Task) -> Vec<u8> {
    let laid: Result<Laid, Failure> = task.lay_here(path);
    serde_json::to_vec(&laid).unwrap_or_default()
}
