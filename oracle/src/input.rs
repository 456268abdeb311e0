//! The bytes that `read_pass_file` reads, and how many trials the second refinement made.
use std::cell::{Cell, RefCell};
use std::io::{Cursor, Result};

thread_local! {
    static BYTES: RefCell<Vec<u8>> = const { RefCell::new(Vec::new()) };
    static TRIALS: Cell<usize> = const { Cell::new(0) };
}

pub fn set(bytes: &[u8]) {
    BYTES.with(|b| *b.borrow_mut() = bytes.to_vec());
}

pub fn open(_path: &str) -> Result<Cursor<Vec<u8>>> {
    Ok(Cursor::new(BYTES.with(|b| b.borrow().clone())))
}

pub fn trial() {
    TRIALS.with(|n| n.set(n.get() + 1))
}

/// The trials since the last call.
pub fn trials() -> usize {
    TRIALS.with(|n| n.replace(0))
}
