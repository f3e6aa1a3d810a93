//! Kinds, nodes or tokens, and sizes of trees: what does not depend on how a stand-in keeps its trees.

use std::fmt;

#[derive(Debug, Clone, Copy, PartialEq, Eq, PartialOrd, Ord, Hash)]
pub struct SyntaxKind(pub u16);

/// Kinds that the whitespace helpers of syntax_editor.rs name; no batch calls these helpers.
impl SyntaxKind {
    pub const ATTR: Self = Self(0xfff0);
    pub const GENERIC_ARG_LIST: Self = Self(0xfff1);
    pub const LIFETIME: Self = Self(0xfff2);
    pub const USE: Self = Self(0xfff3);
    pub const WHITESPACE: Self = Self(0xfff4);
}

#[derive(Debug, PartialEq, Eq, Hash)]
pub enum NodeOrToken<N, T> {
    Node(N),
    Token(T),
}

impl<N, T> NodeOrToken<N, T> {
    pub fn into_node(self) -> Option<N> {
        match self {
            NodeOrToken::Node(node) => Some(node),
            NodeOrToken::Token(_) => None,
        }
    }

    pub fn as_token(&self) -> Option<&T> {
        match self {
            NodeOrToken::Node(_) => None,
            NodeOrToken::Token(token) => Some(token),
        }
    }
}

impl<N: Clone, T: Clone> Clone for NodeOrToken<N, T> {
    fn clone(&self) -> Self {
        match self {
            NodeOrToken::Node(node) => NodeOrToken::Node(node.clone()),
            NodeOrToken::Token(token) => NodeOrToken::Token(token.clone()),
        }
    }
}

impl<N: fmt::Display, T: fmt::Display> fmt::Display for NodeOrToken<N, T> {
    fn fmt(&self, f: &mut fmt::Formatter<'_>) -> fmt::Result {
        match self {
            NodeOrToken::Node(node) => node.fmt(f),
            NodeOrToken::Token(token) => token.fmt(f),
        }
    }
}

/// How large a tree is: elements, text bytes and depth, the top counted.
#[derive(Debug, Clone, Copy, Default)]
pub struct Size {
    pub elements: usize,
    pub text: usize,
    pub depth: usize,
}

impl Size {
    /// The size of a token with so much text.
    pub(crate) fn of_token(text: usize) -> Size {
        Size { elements: 1, text, depth: 1 }
    }

    /// The size of a node over children of these sizes.
    pub(crate) fn of_node(children: impl Iterator<Item = Size>) -> Size {
        let below = children.fold(Size::default(), |sum, child| Size {
            elements: sum.elements.saturating_add(child.elements),
            text: sum.text.saturating_add(child.text),
            depth: sum.depth.max(child.depth),
        });
        Size { elements: below.elements.saturating_add(1), depth: below.depth + 1, ..below }
    }
}
