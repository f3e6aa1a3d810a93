//! What is watched in an edit, and what an edit shows.

use std::{ops::Range, panic::Location};

/// Where a function of the Rust stands.
pub struct Lines {
    pub file: &'static str,
    pub lines: Range<u32>,
}

impl Lines {
    pub fn holds(&self, location: &Location<'_>) -> bool {
        self.lines.contains(&location.line()) && location.file().ends_with(self.file)
    }
}

/// The functions that are watched, by their names.
pub struct Places {
    pub upmap_to_ancestor: Lines,
    pub upmap_element: Lines,
    pub execute: Lines,
}

/// Why the stand-in ends an edit by unwinding.
pub enum Stop {
    /// More steps than climbs or notes can take without repeating themselves.
    Loop,
    /// The trees have outgrown the limits after a step.
    Large,
}

/// What an edit showed.
#[derive(Default)]
pub struct Seen {
    /// Parents taken in all climbs of dependents.
    pub climb_steps: u64,
    /// Changes performed.
    pub steps: u64,
    /// The report of overlapping changes was begun.
    pub reported: bool,
}
