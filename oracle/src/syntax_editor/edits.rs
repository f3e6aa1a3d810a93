//! Stands where the crate has its typed edits. Being part of the module, it may count recorded changes and number annotations.

use std::num::NonZeroU32;

use super::{SyntaxAnnotation, SyntaxEditor};

pub trait GetOrCreateWhereClause {}
pub trait Removable {}

impl SyntaxEditor {
    /// How many changes stand in the queue.
    pub fn recorded(&self) -> usize {
        self.changes.borrow().len()
    }
}

impl SyntaxAnnotation {
    /// The annotation with this number.
    pub fn numbered(number: NonZeroU32) -> Self {
        Self(number)
    }
}
