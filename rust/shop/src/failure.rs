//! Why the command ends with a status other than 0, and the one table of statuses.

use serde::{Deserialize, Serialize};
use std::fmt::{self, Write as _};
use std::path::Path;
use yarrowbleat::{answer_text, Error};

/// A file can't be read or written, or the words of the command are not understood.
pub const TROUBLE: u8 = 1;
/// Fewer points were reached than `--require-reached` asks for.
pub const NOT_REACHED: u8 = 10;
/// A file took longer than `--limit` allows.
pub const TOO_LONG: u8 = 11;
/// What `verify` was given is not what is laid.
pub const DIFFERENT: u8 = 12;
/// Of a refusal: this, and the number of the answer.
pub const REFUSED: u8 = 20;
/// The last answer that this version has words for.
const LAST_ANSWER: u32 = 24;

/// The answers that the command itself gives where a file is no cloud: the library's for such files.
pub const NO_POINTS: u32 = 1;
pub const TOO_MANY: u32 = 3;
pub const BAD_POINT: u32 = 4;
pub const MALFORMED: u32 = 10;

/// Why there is no result: a status and a line.
#[derive(Clone, Debug, PartialEq, Eq, Serialize, Deserialize)]
pub struct Failure {
    pub status: u8,
    pub line: String,
}

impl Failure {
    /// Trouble with files or words.
    pub fn new(line: impl fmt::Display) -> Self {
        Self { status: TROUBLE, line: line.to_string() }
    }

    pub fn with_status(status: u8, line: impl fmt::Display) -> Self {
        Self { status, line: line.to_string() }
    }

    /// A refusal under a number of the library's list.
    pub fn refused(answer: u32, why: impl fmt::Display) -> Self {
        let status = u8::try_from(u32::from(REFUSED) + answer).unwrap_or(u8::MAX);
        Self { status, line: format!("refused, {answer}: {why}") }
    }

    /// The library's own refusal, and what may help.
    pub fn of(error: Error, remedy: impl fmt::Display) -> Self {
        let remedy = remedy.to_string();
        let parted = if remedy.is_empty() { "" } else { "; " };
        Self::refused(error.number(), format!("{error}{parted}{remedy}"))
    }

    /// The same failure, of this file.
    pub fn at(self, path: &Path) -> Self {
        Self { line: format!("{}: {}", path.display(), self.line), ..self }
    }

    /// The number of the library's answer, where it is a refusal.
    pub fn answer(&self) -> Option<u32> {
        (self.status > REFUSED).then(|| u32::from(self.status - REFUSED))
    }
}

/// Every status in words, a row each: this is the table of the help and of the manual.
pub fn statuses() -> Vec<(u8, String)> {
    let own = [
        (0, "all is well"),
        (TROUBLE, "a file can't be read or written, or the words of the command are not understood"),
        (NOT_REACHED, "fewer points were reached than --require-reached asks for"),
        (TOO_LONG, "a file took longer than --limit allows"),
        (DIFFERENT, "verify: the file is not what is laid today"),
    ];
    let refusals = (1..=LAST_ANSWER).map(|answer| {
        let status = REFUSED + u8::try_from(answer).expect("a small number");
        (status, format!("refused, {answer}: {}", answer_text(answer)))
    });
    own.into_iter().map(|(status, words)| (status, words.to_string())).chain(refusals).collect()
}

/// The table as text.
pub fn table() -> String {
    let mut text = "Status (of several files, that of the first one that failed):\n".to_string();
    for (status, words) in statuses() {
        writeln!(text, "  {status:>3}  {words}").expect("to a string");
    }
    text
}

/// A whole number as people write it: 80,000,000.
pub fn grouped(number: u64) -> String {
    let digits = number.to_string();
    let mut text = String::new();
    for (at, digit) in digits.chars().enumerate() {
        if at > 0 && (digits.len() - at).is_multiple_of(3) {
            text.push(',');
        }
        text.push(digit);
    }
    text
}
