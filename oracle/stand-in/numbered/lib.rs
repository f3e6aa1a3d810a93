//! A stand-in for rowan with the meaning that document 01 gives it.
//!
//! A syntax tree is the preorder list of its elements, and an element is known by its tree and its number in that list: two handles are equal
//! if both agree, whatever the elements contain. Green trees are shared values without a place. Every new root is a new tree, written out whole,
//! which rowan does not do: the green stand-in has rowan's costs.

use std::{borrow::Borrow, fmt, hash, ops::Range, rc::Rc};

#[path = "../shared/element.rs"]
mod element;
#[path = "../shared/seen.rs"]
mod seen;
#[path = "../shared/text.rs"]
mod text;
#[path = "../shared/watch.rs"]
pub mod watch;

pub use element::{NodeOrToken, Size, SyntaxKind};
pub use text::{TextRange, TextSize};

// ---------------------------------------------------------------- green trees

struct NodeData {
    kind: SyntaxKind,
    children: Vec<GreenElement>,
    size: Size,
}

struct TokenData {
    kind: SyntaxKind,
    text: Vec<u8>,
}

pub struct GreenNodeData(Rc<NodeData>);
pub struct GreenNode(GreenNodeData);
pub struct GreenTokenData(Rc<TokenData>);
pub struct GreenToken(GreenTokenData);
pub type GreenElement = NodeOrToken<GreenNode, GreenToken>;

impl GreenToken {
    pub fn new(kind: SyntaxKind, text: &[u8]) -> Self {
        Self(GreenTokenData(Rc::new(TokenData { kind, text: text.to_vec() })))
    }
}

impl GreenNode {
    pub fn new(kind: SyntaxKind, children: impl IntoIterator<Item = GreenElement>) -> Self {
        let children = children.into_iter().collect::<Vec<_>>();
        let size = Size::of_node(children.iter().map(GreenElement::size));
        Self(GreenNodeData(Rc::new(NodeData { kind, children, size })))
    }
}

impl GreenElement {
    fn size(&self) -> Size {
        match self {
            NodeOrToken::Node(node) => node.0.0.size,
            NodeOrToken::Token(token) => Size::of_token(token.0.0.text.len()),
        }
    }

    fn kind(&self) -> SyntaxKind {
        match self {
            NodeOrToken::Node(node) => node.0.0.kind,
            NodeOrToken::Token(token) => token.0.0.kind,
        }
    }

    fn children(&self) -> &[GreenElement] {
        match self {
            NodeOrToken::Node(node) => &node.0.0.children,
            NodeOrToken::Token(_) => &[],
        }
    }
}

impl GreenNodeData {
    /// This node with `range` of its children replaced.
    pub fn splice_children(&self, range: Range<usize>, replace_with: impl IntoIterator<Item = GreenElement>) -> GreenNode {
        let mut children = self.0.children.clone();
        children.splice(range, replace_with);
        GreenNode::new(self.0.kind, children)
    }
}

impl Clone for GreenNode {
    fn clone(&self) -> Self {
        self.0.to_owned()
    }
}

impl Borrow<GreenNodeData> for GreenNode {
    fn borrow(&self) -> &GreenNodeData {
        &self.0
    }
}

impl ToOwned for GreenNodeData {
    type Owned = GreenNode;

    fn to_owned(&self) -> GreenNode {
        GreenNode(GreenNodeData(Rc::clone(&self.0)))
    }
}

impl Clone for GreenToken {
    fn clone(&self) -> Self {
        self.0.to_owned()
    }
}

impl Borrow<GreenTokenData> for GreenToken {
    fn borrow(&self) -> &GreenTokenData {
        &self.0
    }
}

impl ToOwned for GreenTokenData {
    type Owned = GreenToken;

    fn to_owned(&self) -> GreenToken {
        GreenToken(GreenTokenData(Rc::clone(&self.0)))
    }
}

// ---------------------------------------------------------------- syntax trees

/// One element of a tree. Its children's numbers are a run of the tree's `children`.
struct Entry {
    green: GreenElement,
    parent: Option<usize>,
    index: usize,
    range: TextRange,
    children: Range<usize>,
}

struct Tree {
    id: watch::Number,
    entries: Vec<Entry>,
    children: Vec<usize>,
}

impl Tree {
    fn new(root: GreenNode) -> Self {
        let mut tree = Tree { id: watch::next_tree(), entries: Vec::new(), children: Vec::new() };
        tree.add(NodeOrToken::Node(root), None, 0, 0);
        tree
    }

    /// Adds an element with all below it and gives the text offset after it.
    fn add(&mut self, green: GreenElement, parent: Option<usize>, index: usize, start: usize) -> usize {
        let number = self.entries.len();
        let below = self.children.len()..self.children.len() + green.children().len();
        let end = start + green.size().text;
        let range = TextRange::new((start as u32).into(), (end as u32).into());
        self.children.resize(below.end, 0);
        self.entries.push(Entry { green: green.clone(), parent, index, range, children: below.clone() });
        let mut at = start;
        for (index, child) in green.children().iter().enumerate() {
            self.children[below.start + index] = self.entries.len();
            at = self.add(child.clone(), Some(number), index, at);
        }
        end
    }
}

/// An element's tree and number.
#[derive(Clone)]
struct Handle {
    tree: Rc<Tree>,
    number: usize,
}

impl PartialEq for Handle {
    fn eq(&self, other: &Self) -> bool {
        self.tree.id == other.tree.id && self.number == other.number
    }
}

impl Eq for Handle {}

impl hash::Hash for Handle {
    fn hash<H: hash::Hasher>(&self, state: &mut H) {
        state.write_u32(self.tree.id);
        state.write_usize(self.number);
    }
}

impl Handle {
    fn entry(&self) -> &Entry {
        &self.tree.entries[self.number]
    }

    fn at(&self, number: usize) -> SyntaxElement {
        let handle = Handle { tree: Rc::clone(&self.tree), number };
        match self.tree.entries[number].green {
            NodeOrToken::Node(_) => SyntaxElement::Node(SyntaxNode::of(handle)),
            NodeOrToken::Token(_) => SyntaxElement::Token(SyntaxToken { handle }),
        }
    }

    fn top(&self) -> SyntaxNode {
        SyntaxNode::of(Handle { tree: Rc::clone(&self.tree), number: 0 })
    }

    fn parent(&self) -> Option<SyntaxNode> {
        self.entry().parent.and_then(|number| self.at(number).into_node())
    }

    fn child(&self, index: usize) -> Option<SyntaxElement> {
        let children = &self.tree.children[self.entry().children.clone()];
        children.get(index).map(|&number| self.at(number))
    }

    fn sibling(&self, index: Option<usize>) -> Option<SyntaxElement> {
        self.parent()?.handle.child(index?)
    }

    fn fmt_text(&self, f: &mut fmt::Formatter<'_>) -> fmt::Result {
        let mut text = Vec::new();
        append_text(&self.entry().green, &mut text);
        f.write_str(&String::from_utf8_lossy(&text))
    }

    fn fmt_place(&self, f: &mut fmt::Formatter<'_>) -> fmt::Result {
        write!(f, "{:?}@{:?}", self.entry().green.kind(), self.entry().range)
    }
}

/// Appends the text of all tokens of a green tree.
fn append_text(green: &GreenElement, text: &mut Vec<u8>) {
    if let NodeOrToken::Token(token) = green {
        text.extend_from_slice(&token.0.0.text);
    }
    for child in green.children() {
        append_text(child, text);
    }
}

#[derive(Clone, PartialEq, Eq, Hash)]
pub struct SyntaxToken {
    handle: Handle,
}

#[derive(PartialEq, Eq, Hash)]
pub struct SyntaxNode {
    handle: Handle,
}

pub type SyntaxElement = NodeOrToken<SyntaxNode, SyntaxToken>;

impl Clone for SyntaxNode {
    #[track_caller]
    fn clone(&self) -> Self {
        watch::cloned(|| self.handle.tree.id);
        Self { handle: self.handle.clone() }
    }
}

impl SyntaxToken {
    pub fn green(&self) -> &GreenTokenData {
        match &self.handle.entry().green {
            NodeOrToken::Token(token) => token.borrow(),
            NodeOrToken::Node(_) => unreachable!("a token handle names a token"),
        }
    }

    pub fn kind(&self) -> SyntaxKind {
        self.handle.entry().green.kind()
    }

    pub fn index(&self) -> usize {
        self.handle.entry().index
    }

    pub fn parent(&self) -> Option<SyntaxNode> {
        self.handle.parent()
    }
}

impl SyntaxNode {
    fn of(handle: Handle) -> SyntaxNode {
        SyntaxNode { handle }
    }

    /// A new tree. During an edit this ends a step, whose limits are judged first.
    pub fn new_root(green: GreenNode) -> SyntaxNode {
        watch::step_done(|| green.0.0.size);
        SyntaxNode::of(Handle { tree: Rc::new(Tree::new(green)), number: 0 })
    }

    pub fn green(&self) -> &GreenNodeData {
        match &self.handle.entry().green {
            NodeOrToken::Node(node) => node.borrow(),
            NodeOrToken::Token(_) => unreachable!("a node handle names a node"),
        }
    }

    /// The whole tree's green root with this node replaced.
    pub fn replace_with(&self, replacement: GreenNode) -> GreenNode {
        assert_eq!(self.kind(), replacement.0.0.kind);
        match self.handle.parent() {
            None => replacement,
            Some(parent) => {
                let index = self.handle.entry().index;
                let child = std::iter::once(NodeOrToken::Node(replacement));
                parent.replace_with(parent.green().splice_children(index..index + 1, child))
            }
        }
    }

    pub fn clone_subtree(&self) -> SyntaxNode {
        SyntaxNode::new_root(self.green().to_owned())
    }

    pub fn kind(&self) -> SyntaxKind {
        self.handle.entry().green.kind()
    }

    pub fn index(&self) -> usize {
        self.handle.entry().index
    }

    pub fn text_range(&self) -> TextRange {
        self.handle.entry().range
    }

    #[track_caller]
    pub fn parent(&self) -> Option<SyntaxNode> {
        let parent = self.handle.parent();
        if parent.is_some() {
            watch::parent_taken();
        }
        parent
    }

    /// The node itself, its parent, and so on up to the root.
    #[track_caller]
    pub fn ancestors(&self) -> impl Iterator<Item = SyntaxNode> + use<> {
        watch::ancestors_searched();
        std::iter::successors(Some(SyntaxNode::of(self.handle.clone())), |node| node.handle.parent())
    }

    pub fn tree_top(&self) -> SyntaxNode {
        self.handle.top()
    }

    pub fn children_with_tokens(&self) -> SyntaxElementChildren {
        SyntaxElementChildren { parent: self.handle.clone(), next: 0 }
    }

    pub fn first_child_or_token(&self) -> Option<SyntaxElement> {
        self.handle.child(0)
    }

    pub fn last_child_or_token(&self) -> Option<SyntaxElement> {
        self.handle.child(self.handle.entry().children.len().checked_sub(1)?)
    }

    /// The node itself and every node below it, in preorder.
    pub fn descendants(&self) -> impl Iterator<Item = SyntaxNode> + use<> {
        self.descendants_with_tokens().filter_map(SyntaxElement::into_node)
    }

    /// The node itself and every element below it, in preorder.
    pub fn descendants_with_tokens(&self) -> impl Iterator<Item = SyntaxElement> + use<> {
        let handle = self.handle.clone();
        let end = handle.number + handle.entry().green.size().elements;
        (handle.number..end).map(move |number| handle.at(number))
    }

    /// The child of that index, for the oracle, which knows that there is one.
    pub fn child_at(&self, index: usize) -> SyntaxElement {
        self.handle.child(index).expect("a child of the node")
    }
}

impl SyntaxElement {
    pub fn kind(&self) -> SyntaxKind {
        self.handle().entry().green.kind()
    }

    pub fn index(&self) -> usize {
        self.handle().entry().index
    }

    pub fn text_range(&self) -> TextRange {
        self.handle().entry().range
    }

    pub fn parent(&self) -> Option<SyntaxNode> {
        self.handle().parent()
    }

    pub fn ancestors(&self) -> impl Iterator<Item = SyntaxNode> + use<> {
        let first = match self {
            NodeOrToken::Node(node) => Some(node.clone()),
            NodeOrToken::Token(token) => token.parent(),
        };
        std::iter::successors(first, |node| node.handle.parent())
    }

    pub fn tree_top(&self) -> SyntaxNode {
        self.handle().top()
    }

    pub fn prev_sibling_or_token(&self) -> Option<SyntaxElement> {
        self.handle().sibling(self.index().checked_sub(1))
    }

    pub fn next_sibling_or_token(&self) -> Option<SyntaxElement> {
        self.handle().sibling(Some(self.index() + 1))
    }

    /// The element's number in its tree.
    pub fn number(&self) -> usize {
        self.handle().number
    }

    /// A node's count of children, a token's text length.
    pub fn measure(&self) -> usize {
        match &self.handle().entry().green {
            NodeOrToken::Node(node) => node.0.0.children.len(),
            NodeOrToken::Token(token) => token.0.0.text.len(),
        }
    }

    /// A token's text; nothing for a node.
    pub fn own_text(&self) -> &[u8] {
        match &self.handle().entry().green {
            NodeOrToken::Node(_) => &[],
            NodeOrToken::Token(token) => &token.0.0.text,
        }
    }

    fn handle(&self) -> &Handle {
        match self {
            NodeOrToken::Node(node) => &node.handle,
            NodeOrToken::Token(token) => &token.handle,
        }
    }
}

impl From<SyntaxNode> for SyntaxElement {
    fn from(node: SyntaxNode) -> Self {
        NodeOrToken::Node(node)
    }
}

impl From<SyntaxToken> for SyntaxElement {
    fn from(token: SyntaxToken) -> Self {
        NodeOrToken::Token(token)
    }
}

/// The children of a node, first to last.
pub struct SyntaxElementChildren {
    parent: Handle,
    next: usize,
}

impl Iterator for SyntaxElementChildren {
    type Item = SyntaxElement;

    fn next(&mut self) -> Option<SyntaxElement> {
        self.nth(0)
    }

    fn nth(&mut self, n: usize) -> Option<SyntaxElement> {
        let child = self.parent.child(self.next + n);
        self.next += n + 1;
        child
    }
}

impl fmt::Display for SyntaxNode {
    fn fmt(&self, f: &mut fmt::Formatter<'_>) -> fmt::Result {
        watch::text_written();
        self.handle.fmt_text(f)
    }
}

impl fmt::Display for SyntaxToken {
    fn fmt(&self, f: &mut fmt::Formatter<'_>) -> fmt::Result {
        self.handle.fmt_text(f)
    }
}

impl fmt::Debug for SyntaxNode {
    fn fmt(&self, f: &mut fmt::Formatter<'_>) -> fmt::Result {
        self.handle.fmt_place(f)
    }
}

impl fmt::Debug for SyntaxToken {
    fn fmt(&self, f: &mut fmt::Formatter<'_>) -> fmt::Result {
        self.handle.fmt_place(f)
    }
}
