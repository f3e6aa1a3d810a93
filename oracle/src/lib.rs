//! The syntax editor of rust-analyzer, unchanged, over a stand-in for rowan, with a player of document 01's batches.

pub use ast::AstNode;
pub use rowan::{NodeOrToken, SyntaxElement, SyntaxKind, SyntaxNode, SyntaxToken};

mod ast;
mod places;
pub mod play;
mod reader;
pub mod sharing;
mod syntax_editor;

/// Stands for the crate's token kinds, which only the whitespace helpers name.
macro_rules! T {
    ($($token:tt)*) => {
        $crate::SyntaxKind(0xffff)
    };
}
pub(crate) use T;
