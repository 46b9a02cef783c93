//! How far the work is: a bar on a terminal, and for a large file a line now and then elsewhere.

use crate::failure::grouped;
use indicatif::{ProgressBar, ProgressDrawTarget, ProgressStyle};
use std::io::{IsTerminal, Read, Write};
use std::path::Path;
use std::time::{Duration, Instant};

/// From this many files on a terminal is told how far the work is.
const MANY: usize = 20;

/// Files from this size on are told of while they are read.
const LARGE: u64 = 1 << 25;

/// How often a line is written where there is no terminal.
const EVERY: Duration = Duration::from_secs(10);

fn hidden() -> ProgressBar {
    ProgressBar::with_draw_target(None, ProgressDrawTarget::hidden())
}

fn bar(length: u64, template: &str) -> ProgressBar {
    let style = ProgressStyle::with_template(template).expect("a template of the program's own");
    ProgressBar::new(length).with_style(style)
}

/// The bar of a command over many files: files, rate and time left.
pub fn of_files(count: usize, quiet: bool) -> ProgressBar {
    if quiet || count < MANY || !std::io::stderr().is_terminal() {
        return hidden();
    }
    bar(count as u64, "{wide_bar} {pos} of {len} files, {per_sec}, {eta} left, {msg}")
}

/// A reader that tells how far a large file is read.
pub struct Told<R> {
    inner: R,
    name: String,
    length: u64,
    read: u64,
    last: Instant,
    bar: ProgressBar,
    lines: bool,
}

impl<R> Told<R> {
    pub fn new(inner: R, path: &Path, length: u64, quiet: bool) -> Self {
        let shown = length >= LARGE && !quiet;
        let terminal = std::io::stderr().is_terminal();
        let name = path.display().to_string();
        let bar = if shown && terminal {
            bar(length, "{wide_bar} {bytes} of {total_bytes}, {bytes_per_sec}, {eta} left")
        } else {
            hidden()
        };
        Self { inner, name, length, read: 0, last: Instant::now(), bar, lines: shown && !terminal }
    }
}

impl<R: Read> Read for Told<R> {
    fn read(&mut self, buffer: &mut [u8]) -> std::io::Result<usize> {
        let count = self.inner.read(buffer)?;
        self.read += count as u64;
        self.bar.set_position(self.read);
        if self.lines && self.last.elapsed() >= EVERY {
            self.last = Instant::now();
            let (read, all) = (grouped(self.read >> 20), grouped(self.length >> 20));
            let _ = writeln!(std::io::stderr(), "{}: {read} of {all} MiB read", self.name);
        }
        Ok(count)
    }
}

impl<R> Drop for Told<R> {
    fn drop(&mut self) {
        self.bar.finish_and_clear();
    }
}
