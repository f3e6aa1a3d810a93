//! A stand-in for rowan with rowan's costs, written from what is known of rowan 0.15 and not from its text.
//!
//! Green trees are shared and path-copied (green.rs), red nodes are made when they are asked for (red.rs), and two elements are equal if they have
//! one green pointer and one offset. With `--cfg watch` an edit is watched as over the numbered stand-in; without it nothing is watched and nothing
//! is paid for it. Where rowan's way is not known, the cheaper one is taken.

use std::fmt;

#[path = "../shared/element.rs"]
mod element;
mod green;
mod red;
#[path = "../shared/seen.rs"]
mod seen;
#[path = "../shared/text.rs"]
mod text;
mod thin;
#[cfg_attr(watch, path = "../shared/watch.rs")]
#[cfg_attr(not(watch), path = "unwatched.rs")]
pub mod watch;

pub use element::{NodeOrToken, Size, SyntaxKind};
pub use green::{GreenElement, GreenNode, GreenNodeData, GreenToken, GreenTokenData};
pub use text::{TextRange, TextSize};

use red::Red;

#[derive(Clone, PartialEq, Eq, Hash)]
pub struct SyntaxToken {
    red: Red,
}

#[derive(PartialEq, Eq, Hash)]
pub struct SyntaxNode {
    red: Red,
}

pub type SyntaxElement = NodeOrToken<SyntaxNode, SyntaxToken>;

#[cfg(not(watch))]
const _: () = assert!(size_of::<SyntaxElement>() == 16);

impl Clone for SyntaxNode {
    #[cfg_attr(watch, track_caller)]
    fn clone(&self) -> Self {
        watch::cloned(|| self.red.tree());
        Self { red: self.red.clone() }
    }
}

impl SyntaxToken {
    fn of(red: Red) -> SyntaxToken {
        SyntaxToken { red }
    }

    pub fn green(&self) -> &GreenTokenData {
        self.red.token()
    }

    pub fn kind(&self) -> SyntaxKind {
        self.red.kind()
    }

    pub fn index(&self) -> usize {
        self.red.index()
    }

    pub fn parent(&self) -> Option<SyntaxNode> {
        self.red.parent().cloned().map(SyntaxNode::of)
    }
}

impl SyntaxNode {
    fn of(red: Red) -> SyntaxNode {
        SyntaxNode { red }
    }

    /// A new tree. During an edit this ends a step, whose limits are judged first.
    pub fn new_root(green: GreenNode) -> SyntaxNode {
        watch::step_done(|| green.size());
        SyntaxNode::of(Red::root(green))
    }

    pub fn green(&self) -> &GreenNodeData {
        self.red.node()
    }

    /// The whole tree's green root with this node replaced: the nodes on the way up are made anew, all others are shared.
    pub fn replace_with(&self, replacement: GreenNode) -> GreenNode {
        self.red.replaced_by(replacement)
    }

    pub fn clone_subtree(&self) -> SyntaxNode {
        SyntaxNode::new_root(self.green().to_owned())
    }

    pub fn kind(&self) -> SyntaxKind {
        self.green().kind()
    }

    pub fn index(&self) -> usize {
        self.red.index()
    }

    pub fn text_range(&self) -> TextRange {
        self.red.range()
    }

    #[cfg_attr(watch, track_caller)]
    pub fn parent(&self) -> Option<SyntaxNode> {
        let parent = self.red.parent()?;
        watch::parent_taken();
        Some(SyntaxNode::of(parent.clone()))
    }

    /// The node itself, its parent, and so on up to the root.
    #[cfg_attr(watch, track_caller)]
    pub fn ancestors(&self) -> impl Iterator<Item = SyntaxNode> + use<> {
        watch::ancestors_searched();
        self.red.clone().ancestors()
    }

    pub fn tree_top(&self) -> SyntaxNode {
        SyntaxNode::of(self.red.top().clone())
    }

    pub fn children_with_tokens(&self) -> SyntaxElementChildren {
        SyntaxElementChildren { parent: self.red.clone(), next: 0, last: None }
    }

    pub fn first_child_or_token(&self) -> Option<SyntaxElement> {
        self.red.child(0).map(Red::element)
    }

    pub fn last_child_or_token(&self) -> Option<SyntaxElement> {
        self.red.child(self.green().children().len().checked_sub(1)?).map(Red::element)
    }

    /// The node itself and every node below it, in preorder.
    pub fn descendants(&self) -> impl Iterator<Item = SyntaxNode> + use<> {
        self.descendants_with_tokens().filter_map(SyntaxElement::into_node)
    }

    /// The node itself and every element below it, in preorder.
    pub fn descendants_with_tokens(&self) -> impl Iterator<Item = SyntaxElement> + use<> {
        let mut next = vec![self.red.clone()];
        std::iter::from_fn(move || {
            let element = next.pop()?.element();
            if let NodeOrToken::Node(node) = &element {
                next.extend((0..node.green().children().len()).rev().filter_map(|index| node.red.child(index)));
            }
            Some(element)
        })
    }

    /// The child of that index, for the oracle, which knows that there is one.
    pub fn child_at(&self, index: usize) -> SyntaxElement {
        self.red.child(index).expect("a child of the node").element()
    }
}

impl SyntaxElement {
    fn red(&self) -> &Red {
        match self {
            NodeOrToken::Node(node) => &node.red,
            NodeOrToken::Token(token) => &token.red,
        }
    }

    pub fn kind(&self) -> SyntaxKind {
        self.red().kind()
    }

    pub fn index(&self) -> usize {
        self.red().index()
    }

    pub fn text_range(&self) -> TextRange {
        self.red().range()
    }

    pub fn parent(&self) -> Option<SyntaxNode> {
        self.red().parent().cloned().map(SyntaxNode::of)
    }

    pub fn ancestors(&self) -> impl Iterator<Item = SyntaxNode> + use<> {
        let first = match self {
            NodeOrToken::Node(node) => Some(&node.red),
            NodeOrToken::Token(token) => token.red.parent(),
        };
        first.cloned().into_iter().flat_map(Red::ancestors)
    }

    pub fn tree_top(&self) -> SyntaxNode {
        SyntaxNode::of(self.red().top().clone())
    }

    pub fn prev_sibling_or_token(&self) -> Option<SyntaxElement> {
        self.red().sibling(self.index().checked_sub(1)?).map(Red::element)
    }

    pub fn next_sibling_or_token(&self) -> Option<SyntaxElement> {
        self.red().sibling(self.index() + 1).map(Red::element)
    }

    /// The element's number in the preorder of its tree, counted out for the printed form.
    pub fn number(&self) -> usize {
        self.red().number()
    }

    /// A node's count of children, a token's text length.
    pub fn measure(&self) -> usize {
        match self {
            NodeOrToken::Node(node) => node.green().children().len(),
            NodeOrToken::Token(token) => token.green().text().len(),
        }
    }

    /// A token's text; nothing for a node.
    pub fn own_text(&self) -> &[u8] {
        match self {
            NodeOrToken::Node(_) => &[],
            NodeOrToken::Token(token) => token.green().text(),
        }
    }
}

impl From<SyntaxNode> for SyntaxElement {
    fn from(node: SyntaxNode) -> Self {
        NodeOrToken::Node(node)
    }
}

impl From<SyntaxToken> for SyntaxElement {
    fn from(token: SyntaxToken) -> Self {
        NodeOrToken::Token(token)
    }
}

/// The children of a node, first to last: the index of the next one, and the one given last.
pub struct SyntaxElementChildren {
    parent: Red,
    next: usize,
    last: Option<Red>,
}

impl SyntaxElementChildren {
    /// As rowan's iterator: it has no way to a child but over those before it.
    #[cfg(not(straight))]
    fn advance(&mut self, n: usize) {
        for _ in 0..=n {
            self.last = match self.last.take() {
                Some(last) => last.into_next_sibling(),
                None if self.next == 0 => self.parent.child(0),
                None => return,
            };
            self.next += 1;
        }
    }

    /// As an iterator would that knows its way: rowan can gain no more than this.
    #[cfg(straight)]
    fn advance(&mut self, n: usize) {
        self.last = self.parent.child(self.next + n);
        self.next += n + 1;
    }
}

impl Iterator for SyntaxElementChildren {
    type Item = SyntaxElement;

    fn next(&mut self) -> Option<SyntaxElement> {
        self.nth(0)
    }

    fn nth(&mut self, n: usize) -> Option<SyntaxElement> {
        self.advance(n);
        self.last.clone().map(Red::element)
    }
}

impl fmt::Display for SyntaxNode {
    fn fmt(&self, f: &mut fmt::Formatter<'_>) -> fmt::Result {
        watch::text_written();
        self.red.fmt_text(f)
    }
}

impl fmt::Display for SyntaxToken {
    fn fmt(&self, f: &mut fmt::Formatter<'_>) -> fmt::Result {
        self.red.fmt_text(f)
    }
}

impl fmt::Debug for SyntaxNode {
    fn fmt(&self, f: &mut fmt::Formatter<'_>) -> fmt::Result {
        self.red.fmt_place(f)
    }
}

impl fmt::Debug for SyntaxToken {
    fn fmt(&self, f: &mut fmt::Formatter<'_>) -> fmt::Result {
        self.red.fmt_place(f)
    }
}
