//! Green trees: immutable, counted, shared between syntax trees. A child knows where it starts in its parent and nothing above, so a splice makes
//! new nodes only on the way from its place to the root.

use std::{
    borrow::Borrow,
    cell::Cell,
    ops::{Deref, Range},
    ptr::NonNull,
};

use crate::{NodeOrToken, Size, SyntaxKind, thin::Thin};

pub(crate) struct NodeHead {
    text_len: u32,
    kind: SyntaxKind,
}

pub(crate) struct TokenHead {
    kind: SyntaxKind,
}

/// What a `GreenNode` is borrowed as.
pub struct GreenNodeData(Thin<NodeHead, GreenChild>);
pub struct GreenNode(GreenNodeData);

/// What a `GreenToken` is borrowed as.
pub struct GreenTokenData(Thin<TokenHead, u8>);
pub struct GreenToken(GreenTokenData);

pub type GreenElement = NodeOrToken<GreenNode, GreenToken>;

/// A child, with the offset of its text in its parent's. In rowan too the offset stands within the two cases, so that a child takes two words.
pub(crate) enum GreenChild {
    Node { offset: u32, node: GreenNode },
    Token { offset: u32, token: GreenToken },
}

const _: () = assert!(size_of::<GreenChild>() == 16);

impl GreenChild {
    fn new(offset: u32, element: GreenElement) -> Self {
        match element {
            NodeOrToken::Node(node) => GreenChild::Node { offset, node },
            NodeOrToken::Token(token) => GreenChild::Token { offset, token },
        }
    }

    pub(crate) fn offset(&self) -> u32 {
        match self {
            GreenChild::Node { offset, .. } | GreenChild::Token { offset, .. } => *offset,
        }
    }

    fn to_element(&self) -> GreenElement {
        match self {
            GreenChild::Node { node, .. } => NodeOrToken::Node(node.clone()),
            GreenChild::Token { token, .. } => NodeOrToken::Token(token.clone()),
        }
    }

    /// Counted out: rowan's nodes do not know it.
    pub(crate) fn size(&self) -> Size {
        match self {
            GreenChild::Node { node, .. } => node.size(),
            GreenChild::Token { token, .. } => Size::of_token(token.text().len()),
        }
    }
}

impl GreenElement {
    fn text_len(&self) -> u32 {
        match self {
            NodeOrToken::Node(node) => node.text_len(),
            NodeOrToken::Token(token) => token.text().len() as u32,
        }
    }
}

impl GreenToken {
    pub fn new(kind: SyntaxKind, text: &[u8]) -> Self {
        Self(GreenTokenData(Thin::new(text.iter().copied(), || TokenHead { kind })))
    }
}

impl GreenNode {
    pub fn new<I>(kind: SyntaxKind, children: I) -> Self
    where
        I: IntoIterator<Item = GreenElement>,
        I::IntoIter: ExactSizeIterator,
    {
        let end = Cell::new(0);
        let children = children.into_iter().map(|it| {
            let offset = end.get();
            end.set(offset + it.text_len());
            GreenChild::new(offset, it)
        });
        Self(GreenNodeData(Thin::new(children, || NodeHead { text_len: end.get(), kind })))
    }
}

impl GreenTokenData {
    pub(crate) fn kind(&self) -> SyntaxKind {
        self.0.head().kind
    }

    pub(crate) fn text(&self) -> &[u8] {
        self.0.items()
    }

    pub(crate) fn address(&self) -> NonNull<()> {
        self.0.address()
    }
}

impl GreenNodeData {
    pub(crate) fn kind(&self) -> SyntaxKind {
        self.0.head().kind
    }

    pub(crate) fn text_len(&self) -> u32 {
        self.0.head().text_len
    }

    pub(crate) fn children(&self) -> &[GreenChild] {
        self.0.items()
    }

    pub(crate) fn address(&self) -> NonNull<()> {
        self.0.address()
    }

    pub(crate) fn size(&self) -> Size {
        Size::of_node(self.children().iter().map(GreenChild::size))
    }

    /// This node with `range` of its children replaced. As in rowan all children are listed, the list is spliced, and a node is made of it.
    pub fn splice_children(&self, range: Range<usize>, replace_with: impl IntoIterator<Item = GreenElement>) -> GreenNode {
        let mut children = self.children().iter().map(GreenChild::to_element).collect::<Vec<_>>();
        children.splice(range, replace_with);
        GreenNode::new(self.kind(), children)
    }

    /// This node with one child replaced, without a list between.
    pub(crate) fn replace_child(&self, index: usize, by: GreenNode) -> GreenNode {
        let mut by = Some(NodeOrToken::Node(by));
        let children = self.children().iter().enumerate();
        GreenNode::new(self.kind(), children.map(|(i, it)| if i == index { by.take().expect("one child has the index") } else { it.to_element() }))
    }
}

/// Appends the text of all tokens of a green tree.
pub(crate) fn append_text(node: &GreenNodeData, text: &mut Vec<u8>) {
    for child in node.children() {
        match child {
            GreenChild::Node { node, .. } => append_text(node, text),
            GreenChild::Token { token, .. } => text.extend_from_slice(token.text()),
        }
    }
}

impl Deref for GreenNode {
    type Target = GreenNodeData;

    fn deref(&self) -> &GreenNodeData {
        &self.0
    }
}

impl Deref for GreenToken {
    type Target = GreenTokenData;

    fn deref(&self) -> &GreenTokenData {
        &self.0
    }
}

impl Clone for GreenNode {
    fn clone(&self) -> Self {
        self.0.to_owned()
    }
}

impl Borrow<GreenNodeData> for GreenNode {
    fn borrow(&self) -> &GreenNodeData {
        &self.0
    }
}

impl ToOwned for GreenNodeData {
    type Owned = GreenNode;

    fn to_owned(&self) -> GreenNode {
        GreenNode(GreenNodeData(self.0.clone()))
    }
}

impl Clone for GreenToken {
    fn clone(&self) -> Self {
        self.0.to_owned()
    }
}

impl Borrow<GreenTokenData> for GreenToken {
    fn borrow(&self) -> &GreenTokenData {
        &self.0
    }
}

impl ToOwned for GreenTokenData {
    type Owned = GreenToken;

    fn to_owned(&self) -> GreenToken {
        GreenToken(GreenTokenData(self.0.clone()))
    }
}
