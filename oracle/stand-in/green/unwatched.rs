//! The interface of shared/watch.rs with nothing behind it, for an edit that is timed.

use crate::Size;
pub use crate::seen::{Lines, Places, Seen, Stop};

pub type Number = ();

pub fn install(_: Places) {}
pub fn reset() {}
pub fn begin(_: u64, _: u64, _: u64) {}
pub fn end() -> Seen {
    Seen::default()
}

pub(crate) fn next_tree() -> Number {}
pub(crate) fn step_done(_: impl FnOnce() -> Size) {}
pub(crate) fn cloned(_: impl FnOnce() -> Number) {}
pub(crate) fn parent_taken() {}
pub(crate) fn ancestors_searched() {}
pub(crate) fn text_written() {}
