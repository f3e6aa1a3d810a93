//! Checking another editor's output.

use crate::{Refusal, raw, told};

/// A tree as lists: of each element in preorder its kind (a node's with bit 31) and its measure (children of a node, text bytes of a token), and the text.
#[derive(Clone, Copy, Debug, Default, PartialEq, Eq)]
pub struct Flat<'a> {
    pub kinds: &'a [u32],
    pub measures: &'a [u32],
    pub text: &'a [u8],
}

/// What an editor claims: that it made the new tree out of the old one, kept these elements (each by its number in both trees) and changed those (by their numbers in the
/// new tree).
#[derive(Clone, Copy, Debug, Default, PartialEq, Eq)]
pub struct Claim<'a> {
    pub old: Flat<'a>,
    pub new: Flat<'a>,
    /// Of each kept element its number in the old tree ..
    pub olds: &'a [u32],
    /// .. and in the new one.
    pub news: &'a [u32],
    pub changed: &'a [u32],
}

/// The checker with its work memory, 160 KiB.
pub struct Checker(raw::CheckerWork);

impl Default for Checker {
    fn default() -> Self {
        Self::new()
    }
}

impl Checker {
    pub fn new() -> Checker {
        Checker(raw::CheckerWork::new())
    }

    /// Whether a claim is accepted, or its refusal: 3, 4, 5 or 19.
    ///
    /// It is accepted exactly if the roots are paired; no element is paired twice; paired elements have equal kinds and, for tokens, equal text; the parents of others
    /// than the roots are a pair; paired siblings stand in the same order in both trees; and every unpaired new element is at or below a changed one, and no paired one is.
    pub fn check(&mut self, claim: &Claim<'_>) -> Result<bool, Refusal> {
        told(raw::check(claim, self.0.slices())).map(|verdict| verdict == raw::ACCEPTED)
    }
}
