//! Many files on many cores: results come in the files' order, and a failure doesn't stop the rest.

use crate::failure::Failure;
use crate::progress;
use crate::words::ManyWords;
use indicatif::ProgressBar;
use std::collections::BTreeMap;
use std::io::Write;
use std::path::{Path, PathBuf};
use std::sync::mpsc;

/// How far the work on files may be ahead of the results, for each core: what waits takes memory.
const AHEAD: usize = 32;

/// How many files are worked on at once.
pub struct Batch {
    pub jobs: usize,
    pub quiet: bool,
}

impl Batch {
    pub fn new(many: &ManyWords, quiet: bool) -> Self {
        let cores = std::thread::available_parallelism().map_or(1, usize::from);
        Self { jobs: many.jobs.map_or(cores, usize::from), quiet }
    }

    /// Does `work` for each file, at once where there are cores, and hands the results to `done` in order.
    fn each<T: Send>(
        &self,
        files: &[PathBuf],
        work: impl Fn(&Path) -> T + Sync,
        mut done: impl FnMut(&Path, T) -> Result<(), Failure>,
    ) -> Result<(), Failure> {
        let pool = rayon::ThreadPoolBuilder::new().num_threads(self.jobs).build();
        let pool = pool.map_err(|error| Failure::new(format!("no threads can be started: {error}")))?;
        let (send, receive) = mpsc::channel();
        let work = &work;
        pool.in_place_scope_fifo(|scope| {
            let (mut started, mut ended) = (0, 0);
            let mut waiting = BTreeMap::new();
            while ended < files.len() {
                let until = files.len().min(ended + AHEAD * self.jobs);
                for (at, path) in files.iter().enumerate().take(until).skip(started) {
                    let send = send.clone();
                    scope.spawn_fifo(move |_| drop(send.send((at, work(path)))));
                }
                started = started.max(until);
                let (at, result) = receive.recv().expect("a result for each file");
                waiting.insert(at, result);
                while let Some(result) = waiting.remove(&ended) {
                    done(&files[ended], result)?;
                    ended += 1;
                }
            }
            Ok(())
        })
    }

    /// The same where work can fail: failures are told as they come, and one status stands for all. A file fails too
    /// where `done` says so of its result.
    pub fn run<T: Send>(
        &self,
        files: &[PathBuf],
        work: impl Fn(&Path) -> Result<T, Failure> + Sync,
        mut done: impl FnMut(&Path, Result<T, &Failure>) -> Result<Option<Failure>, Failure>,
    ) -> Result<(), Failure> {
        let bar = progress::of_files(files.len(), self.quiet);
        let mut failures = Failures::default();
        let result = self.each(files, work, |path, result| {
            bar.suspend(|| {
                let failure = match result {
                    Ok(value) => done(path, Ok(value))?,
                    Err(failure) => done(path, Err(&failure))?.or(Some(failure)),
                };
                failure.into_iter().for_each(|failure| failures.add(failure, files.len() > 1));
                Ok(())
            })?;
            step(&bar, failures.count);
            Ok(())
        });
        bar.finish_and_clear();
        result.and_then(|()| failures.end(files.len()))
    }
}

fn step(bar: &ProgressBar, failed: usize) {
    bar.inc(1);
    bar.set_message(format!("{failed} failed"));
}

/// What failed so far.
#[derive(Default)]
pub struct Failures {
    first: Option<Failure>,
    count: usize,
}

impl Failures {
    /// Keeps a failure, and tells it at once where more files follow.
    pub fn add(&mut self, failure: Failure, tell_now: bool) {
        if tell_now {
            tell(&failure.line);
        }
        self.count += 1;
        self.first.get_or_insert(failure);
    }

    fn end(self, all: usize) -> Result<(), Failure> {
        match self.first {
            None => Ok(()),
            Some(failure) if all == 1 => Err(failure),
            Some(failure) => Err(Failure { line: format!("{} of {all} files failed", self.count), ..failure }),
        }
    }
}

/// A line on standard error under the command's name.
pub fn tell(line: &str) {
    let _ = writeln!(std::io::stderr(), "yarrowbleat: {line}");
}
