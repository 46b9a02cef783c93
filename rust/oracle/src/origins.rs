//! Where each face came from, noted while the published code runs: beside each entry of the frontier stands the face that
//! pushed it, so that a face which is pivoted names the face whose entry was popped.

use std::cell::{Cell, RefCell};

/// A face's parent, itself for a seed, and the place of its radius in the list; both from 0.
pub type Origin = [usize; 2];

thread_local! {
    static LAID: RefCell<Vec<Origin>> = const { RefCell::new(Vec::new()) };
    static BEGUN: Cell<usize> = const { Cell::new(0) };
    static POPPED: Cell<usize> = const { Cell::new(0) };
}

fn lay(parent: impl FnOnce(usize) -> usize) {
    LAID.with_borrow_mut(|laid| laid.push([parent(laid.len()), BEGUN.get() - 1]));
}

/// A radius is begun, whether or not a seed is found for it.
pub(crate) fn radius() {
    BEGUN.set(BEGUN.get() + 1);
}

/// A seed is laid.
pub(crate) fn seed() {
    lay(|itself| itself);
}

/// A face is laid over the edge that was popped last.
pub(crate) fn pivot() {
    lay(|_| POPPED.get());
}

/// The face that pushes an entry: the one laid last.
pub(crate) fn pushing() -> usize {
    LAID.with_borrow(|laid| laid.len() - 1)
}

/// An entry of this face is popped.
pub(crate) fn popped(face: usize) {
    POPPED.set(face);
}

/// Calls the published code; gives its result and the faces' origins.
pub(crate) fn noted<T>(call: impl FnOnce() -> T) -> (T, Vec<Origin>) {
    LAID.take();
    BEGUN.set(0);
    let value = call();
    (value, LAID.take())
}
