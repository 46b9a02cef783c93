//! The frontier under either rule: rule 1 is the published `BinaryHeap`, rule 2 a queue, first in, first out. Beside each
//! entry stands the face that pushed it.

use crate::origins;
use std::cell::Cell;
use std::cmp::Ordering;
use std::collections::VecDeque;

thread_local! {
    static RULE: Cell<u32> = const { Cell::new(1) };
}

/// Calls the published code with frontiers under this rule.
pub(crate) fn ruled<T>(rule: u32, call: impl FnOnce() -> T) -> T {
    RULE.set(rule);
    let value = call();
    RULE.set(1);
    value
}

/// An entry, and the face that pushed it, by which nothing is ordered.
pub struct Beside<T> {
    entry: T,
    face: usize,
}

impl<T: Ord> PartialEq for Beside<T> {
    fn eq(&self, other: &Self) -> bool {
        self.entry == other.entry
    }
}

impl<T: Ord> Eq for Beside<T> {}

impl<T: Ord> PartialOrd for Beside<T> {
    fn partial_cmp(&self, other: &Self) -> Option<Ordering> {
        Some(self.cmp(other))
    }
}

impl<T: Ord> Ord for Beside<T> {
    fn cmp(&self, other: &Self) -> Ordering {
        self.entry.cmp(&other.entry)
    }
}

pub enum BinaryHeap<T> {
    Heap(std::collections::BinaryHeap<Beside<T>>),
    Queue(VecDeque<Beside<T>>),
}

impl<T: Ord> BinaryHeap<T> {
    pub fn new() -> Self {
        match RULE.get() {
            1 => Self::Heap(std::collections::BinaryHeap::new()),
            2 => Self::Queue(VecDeque::new()),
            rule => panic!("the checks let rule {rule} through"),
        }
    }

    pub fn push(&mut self, entry: T) {
        let entry = Beside { entry, face: origins::pushing() };
        match self {
            Self::Heap(entries) => entries.push(entry),
            Self::Queue(entries) => entries.push_back(entry),
        }
    }

    pub fn pop(&mut self) -> Option<T> {
        let popped = match self {
            Self::Heap(entries) => entries.pop(),
            Self::Queue(entries) => entries.pop_front(),
        };
        popped.map(|Beside { entry, face }| {
            origins::popped(face);
            entry
        })
    }
}
