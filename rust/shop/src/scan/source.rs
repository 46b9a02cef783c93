//! A file's bytes in order, in bounded memory, with a word now and then on how far a large one is read.

use super::malformed;
use crate::failure::Failure;
use crate::progress::Told;
use std::fs::File;
use std::io::{BufRead, BufReader, Cursor, Read};
use std::path::Path;

/// How many bytes are looked at to tell what a file is.
const HEAD: u64 = 1 << 20;

/// The longest line of a text.
const LINE: u64 = 1 << 16;

/// The bytes of a file, the first of them at hand.
pub struct Source {
    head: Vec<u8>,
    whole: bool,
    rest: BufReader<Box<dyn Read>>,
    /// How many lines were taken.
    pub line: u64,
}

impl Source {
    pub fn open(path: &Path, quiet: bool) -> Result<Self, Failure> {
        if path == Path::new("-") {
            return Self::new(Box::new(std::io::stdin()), 0);
        }
        let file = File::open(path).map_err(Failure::new)?;
        let about = file.metadata().map_err(Failure::new)?;
        if about.is_dir() {
            return Err(Failure::new("it is a folder, and a file is wanted"));
        }
        Self::new(Box::new(Told::new(file, path, about.len(), quiet)), about.len())
    }

    /// Of a file with about so many bytes.
    fn new(mut file: Box<dyn Read>, length: u64) -> Result<Self, Failure> {
        let mut head = Vec::with_capacity(length.min(HEAD) as usize + 64);
        file.by_ref().take(HEAD).read_to_end(&mut head).map_err(Failure::new)?;
        let whole = (head.len() as u64) < HEAD;
        let rest: Box<dyn Read> = Box::new(Cursor::new(head.clone()).chain(file));
        Ok(Self { head, whole, rest: BufReader::with_capacity(1 << 18, rest), line: 0 })
    }

    /// The first bytes, up to a mebibyte.
    pub fn head(&self) -> &[u8] {
        &self.head
    }

    /// True if the first bytes are all.
    pub fn is_whole(&self) -> bool {
        self.whole
    }

    /// The next line without its end, into `line`; false at the file's end.
    pub fn next_line(&mut self, line: &mut Vec<u8>) -> Result<bool, Failure> {
        line.clear();
        let taken = self.rest.by_ref().take(LINE).read_until(b'\n', line).map_err(Failure::new)?;
        if taken == 0 {
            return Ok(false);
        }
        self.line += 1;
        if line.last() == Some(&b'\n') {
            line.pop();
        } else if taken as u64 == LINE {
            return Err(malformed(format!(
                "line {} is longer than {LINE} bytes: this is no text of numbers",
                self.line
            )));
        }
        if line.last() == Some(&b'\r') {
            line.pop();
        }
        Ok(true)
    }

    /// So many bytes; false where the file ends before.
    pub fn exactly(&mut self, bytes: &mut [u8]) -> Result<bool, Failure> {
        match self.rest.read_exact(bytes) {
            Ok(()) => Ok(true),
            Err(error) if error.kind() == std::io::ErrorKind::UnexpectedEof => Ok(false),
            Err(error) => Err(Failure::new(error)),
        }
    }

    /// Passes over so many bytes; false where the file ends before.
    pub fn pass(&mut self, bytes: u64) -> Result<bool, Failure> {
        let passed = std::io::copy(&mut self.rest.by_ref().take(bytes), &mut std::io::sink()).map_err(Failure::new)?;
        Ok(passed == bytes)
    }

    /// True if nothing but blanks is left; at most a mebibyte of them.
    pub fn is_at_end(&mut self) -> Result<bool, Failure> {
        let mut left = Vec::new();
        self.rest.by_ref().take(HEAD).read_to_end(&mut left).map_err(Failure::new)?;
        Ok(left.iter().all(u8::is_ascii_whitespace))
    }
}
