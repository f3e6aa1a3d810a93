//! Red nodes: where a green element stands. One is made when it is asked for and freed with its last handle; it keeps its parent, and so the root,
//! which alone keeps the green tree.

use std::{
    fmt, hash, iter,
    mem::ManuallyDrop,
    ptr::{self, NonNull},
    rc::Rc,
};

use crate::{
    GreenNode, GreenNodeData, GreenToken, GreenTokenData, SyntaxElement, SyntaxKind, SyntaxNode, SyntaxToken, TextRange,
    green::{self, GreenChild},
    watch,
};

/// A green element. One below the root is not counted here, or each red node would cost an atomic addition.
enum Green {
    Root(GreenNode, watch::Number),
    Node(ManuallyDrop<GreenNode>),
    Token(ManuallyDrop<GreenToken>),
}

impl Green {
    /// # Safety
    /// What the child belongs to must outlive what is made here.
    unsafe fn uncounted(child: &GreenChild) -> Green {
        // Safety: neither of the copies is ever dropped, and what is copied is alive as long as they are.
        unsafe {
            match child {
                GreenChild::Node { node, .. } => Green::Node(ManuallyDrop::new(ptr::read(node))),
                GreenChild::Token { token, .. } => Green::Token(ManuallyDrop::new(ptr::read(token))),
            }
        }
    }
}

/// An element of a syntax tree: `index` among its parent's children, `offset` in the tree's text.
struct Place {
    parent: Option<Red>,
    index: u32,
    offset: u32,
    green: Green,
}

#[derive(Clone)]
pub(crate) struct Red(Rc<Place>);

impl Red {
    pub(crate) fn root(green: GreenNode) -> Red {
        Red(Rc::new(Place { parent: None, index: 0, offset: 0, green: Green::Root(green, watch::next_tree()) }))
    }

    /// The green node; only a node is asked for it.
    pub(crate) fn node(&self) -> &GreenNodeData {
        match &self.0.green {
            Green::Root(node, _) => node,
            Green::Node(node) => node,
            Green::Token(_) => unreachable!("a node is asked for"),
        }
    }

    /// The green token; only a token is asked for it.
    pub(crate) fn token(&self) -> &GreenTokenData {
        match &self.0.green {
            Green::Token(token) => token,
            Green::Root(..) | Green::Node(_) => unreachable!("a token is asked for"),
        }
    }

    fn is_token(&self) -> bool {
        matches!(self.0.green, Green::Token(_))
    }

    pub(crate) fn element(self) -> SyntaxElement {
        if self.is_token() { SyntaxElement::Token(SyntaxToken::of(self)) } else { SyntaxElement::Node(SyntaxNode::of(self)) }
    }

    pub(crate) fn kind(&self) -> SyntaxKind {
        if self.is_token() { self.token().kind() } else { self.node().kind() }
    }

    pub(crate) fn index(&self) -> usize {
        self.0.index as usize
    }

    pub(crate) fn range(&self) -> TextRange {
        let len = if self.is_token() { self.token().text().len() as u32 } else { self.node().text_len() };
        TextRange::at(self.0.offset.into(), len.into())
    }

    pub(crate) fn parent(&self) -> Option<&Red> {
        self.0.parent.as_ref()
    }

    /// The nodes from this one up to the root.
    pub(crate) fn ancestors(self) -> impl Iterator<Item = SyntaxNode> {
        iter::successors(Some(self), |it| it.parent().cloned()).map(SyntaxNode::of)
    }

    pub(crate) fn top(&self) -> &Red {
        let mut top = self;
        while let Some(parent) = top.parent() {
            top = parent;
        }
        top
    }

    /// The element's number in the preorder of its tree. rowan has no such number: it is counted out.
    pub(crate) fn number(&self) -> usize {
        let Some(parent) = self.parent() else { return 0 };
        let before = parent.node().children()[..self.index()].iter().map(|it| it.size().elements);
        parent.number() + 1 + before.sum::<usize>()
    }

    pub(crate) fn tree(&self) -> watch::Number {
        match self.top().0.green {
            Green::Root(_, number) => number,
            Green::Node(_) | Green::Token(_) => unreachable!("a tree's top is its root"),
        }
    }

    pub(crate) fn child(&self, index: usize) -> Option<Red> {
        let (offset, green) = self.place_of_child(index)?;
        Some(Red(Rc::new(Place { parent: Some(self.clone()), index: index as u32, offset, green })))
    }

    fn place_of_child(&self, index: usize) -> Option<(u32, Green)> {
        let child = self.node().children().get(index)?;
        // Safety: both callers put it into a red node below this one, which keeps this one and so the whole tree.
        Some((self.0.offset + child.offset(), unsafe { Green::uncounted(child) }))
    }

    pub(crate) fn sibling(&self, index: usize) -> Option<Red> {
        self.parent()?.child(index)
    }

    /// The sibling after this one. It takes this one's allocation if no one else holds it: so rowan moves along a node's children.
    #[cfg(not(straight))]
    pub(crate) fn into_next_sibling(mut self) -> Option<Red> {
        let index = self.index() + 1;
        let Some(place) = Rc::get_mut(&mut self.0) else { return self.sibling(index) };
        (place.offset, place.green) = place.parent.as_ref()?.place_of_child(index)?;
        place.index = index as u32;
        Some(self)
    }

    /// The tree's green root with this node replaced.
    pub(crate) fn replaced_by(&self, replacement: GreenNode) -> GreenNode {
        assert_eq!(self.kind(), replacement.kind());
        match self.parent() {
            None => replacement,
            Some(parent) => parent.replaced_by(parent.node().replace_child(self.index(), replacement)),
        }
    }

    /// What equality and hash go by.
    fn key(&self) -> (NonNull<()>, u32) {
        let address = if self.is_token() { self.token().address() } else { self.node().address() };
        (address, self.0.offset)
    }

    pub(crate) fn fmt_text(&self, f: &mut fmt::Formatter<'_>) -> fmt::Result {
        let mut text = Vec::new();
        if self.is_token() {
            text.extend_from_slice(self.token().text());
        } else {
            green::append_text(self.node(), &mut text);
        }
        f.write_str(&String::from_utf8_lossy(&text))
    }

    pub(crate) fn fmt_place(&self, f: &mut fmt::Formatter<'_>) -> fmt::Result {
        write!(f, "{:?}@{:?}", self.kind(), self.range())
    }
}

impl PartialEq for Red {
    fn eq(&self, other: &Self) -> bool {
        self.key() == other.key()
    }
}

impl Eq for Red {}

impl hash::Hash for Red {
    fn hash<H: hash::Hasher>(&self, state: &mut H) {
        let (address, offset) = self.key();
        state.write_usize(address.as_ptr() as usize);
        state.write_u32(offset);
    }
}
