//! What is counted while the published code runs, and the limits that stop a run which would take too long.
//!
//! A look is one pop of a frontier entry; a pivot is a look that is not skipped as processed; a seed is a seed laid. A triple
//! is judged when the search for a seed comes to its quality, or the plain path to its cross product.
//! A run that passes a limit unwinds out of the published code with a [`Skip`]; [`run`] catches it.

use std::cell::Cell;
use std::panic::{catch_unwind, resume_unwind, AssertUnwindSafe};

/// The widest neighbour range that is compared; the published code visits every cell of the box.
pub const MAX_RANGE: i32 = 32;

#[derive(Clone, Copy, Debug, Default, PartialEq, Eq)]
pub struct Tally {
    pub seeds: u32,
    pub looks: u32,
    pub pivots: u32,
    /// Whether any triple was judged.
    pub judged: bool,
}

/// Why a run was given up.
#[derive(Clone, Copy, Debug, PartialEq, Eq)]
pub enum Skip {
    /// A neighbour range above [`MAX_RANGE`].
    Range,
    /// More steps than the run was given.
    Budget,
}

thread_local! {
    static TALLY: Cell<Tally> = const { Cell::new(Tally { seeds: 0, looks: 0, pivots: 0, judged: false }) };
    static LEFT: Cell<u64> = const { Cell::new(0) };
    static AMENDED: Cell<bool> = const { Cell::new(false) };
}

fn update(change: impl FnOnce(&mut Tally)) {
    let mut tally = TALLY.get();
    change(&mut tally);
    TALLY.set(tally);
}

pub(crate) fn seed() {
    update(|t| t.seeds += 1);
}

pub(crate) fn look() {
    update(|t| t.looks += 1);
}

pub(crate) fn pivot() {
    update(|t| t.pivots += 1);
}

/// Whether an area of exactly zero is turned down.
pub(crate) fn amended() -> bool {
    AMENDED.get()
}

/// Calls the published code with the amended acceptance.
pub(crate) fn amending<T>(call: impl FnOnce() -> T) -> T {
    AMENDED.set(true);
    let value = call();
    AMENDED.set(false);
    value
}

pub(crate) fn judge() {
    update(|t| t.judged = true);
}

/// Takes `count` steps off the budget, before they are made.
pub(crate) fn steps(count: usize) {
    match LEFT.get().checked_sub(count as u64) {
        Some(left) => LEFT.set(left),
        None => resume_unwind(Box::new(Skip::Budget)),
    }
}

/// Takes the cells of a box of this range off the budget, or gives up where it is too wide.
pub(crate) fn range(range: i32) {
    if range > MAX_RANGE {
        resume_unwind(Box::new(Skip::Range));
    }
    let side = 2 * range.max(0) as usize + 1;
    steps(side * side * side);
}

/// Runs the published code with `budget` steps; gives its result and what was counted.
pub(crate) fn run<T>(budget: u64, call: impl FnOnce() -> T) -> Result<(T, Tally), Skip> {
    TALLY.set(Tally::default());
    LEFT.set(budget);
    match catch_unwind(AssertUnwindSafe(call)) {
        Ok(value) => Ok((value, TALLY.get())),
        Err(cause) => match cause.downcast::<Skip>() {
            Ok(skip) => Err(*skip),
            Err(other) => resume_unwind(other),
        },
    }
}
