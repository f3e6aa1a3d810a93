//! Stand-in for the factory's constructors; no batch calls one.

use super::SyntaxFactory;
use crate::SyntaxToken;

impl SyntaxFactory {
    pub fn whitespace(&self, _: &str) -> SyntaxToken {
        unreachable!("no batch asks for whitespace")
    }
}
