//! The green trees of a batch. rowan's builder keeps equal tokens, and equal nodes of up to three children, only once, and editors build new trees
//! out of parts of old ones. A batch says nothing of that, since its elements are known by their numbers: so what is shared is a choice.

use std::collections::HashMap;

use rowan::{GreenElement, GreenNode, GreenToken};

use crate::{NodeOrToken, SyntaxKind, reader::Batch};

#[derive(Clone, Copy)]
pub enum Sharing {
    /// Every element has a green one of its own.
    Nothing,
    /// Equal small parts of a tree are one, as in a tree that rowan's builder has made.
    InTrees,
    /// Equal small parts of all trees are one.
    InBatch,
}

/// A node with more children is not shared.
const MOST_CHILDREN: usize = 3;

/// The green roots.
pub fn green_roots(batch: &Batch, sharing: Sharing) -> Vec<GreenNode> {
    let mut shared = Shared { batch, known: HashMap::new() };
    let mut roots = Vec::new();
    for &root in &batch.roots {
        roots.push(match sharing {
            Sharing::Nothing => own_node(batch, root),
            Sharing::InTrees | Sharing::InBatch => shared.element(root).0.into_node().expect("a root is a node"),
        });
        if let Sharing::InTrees = sharing {
            shared.known.clear();
        }
    }
    roots
}

fn own_node(batch: &Batch, number: usize) -> GreenNode {
    let children = batch.children(number).map(|it| match batch.elements[it].node {
        true => NodeOrToken::Node(own_node(batch, it)),
        false => NodeOrToken::Token(own_token(batch, it)),
    });
    GreenNode::new(SyntaxKind(batch.elements[number].kind), children)
}

fn own_token(batch: &Batch, number: usize) -> GreenToken {
    let token = &batch.elements[number];
    GreenToken::new(SyntaxKind(token.kind), token.text)
}

/// What makes two elements equal: `below` are the numbers in `Shared` of the children.
#[derive(PartialEq, Eq, Hash)]
struct Shape<'a> {
    node: bool,
    kind: u16,
    text: &'a [u8],
    below: Vec<usize>,
}

/// The shared elements, numbered as they come.
struct Shared<'a> {
    batch: &'a Batch<'a>,
    known: HashMap<Shape<'a>, (GreenElement, usize)>,
}

impl Shared<'_> {
    /// The green element, and its number if it is shared.
    fn element(&mut self, number: usize) -> (GreenElement, Option<usize>) {
        let element = &self.batch.elements[number];
        let (children, below): (Vec<_>, Vec<_>) = self.batch.children(number).map(|it| self.element(it)).unzip();
        // Over a child that is not shared nothing is: the node has no equal.
        let below = below.into_iter().collect::<Option<Vec<_>>>().filter(|it| it.len() <= MOST_CHILDREN);
        let shape = below.map(|below| Shape { node: element.node, kind: element.kind, text: element.text, below });
        if let Some((green, shared)) = shape.as_ref().and_then(|it| self.known.get(it)) {
            return (green.clone(), Some(*shared));
        }
        let green = match element.node {
            true => NodeOrToken::Node(GreenNode::new(SyntaxKind(element.kind), children)),
            false => NodeOrToken::Token(own_token(self.batch, number)),
        };
        let count = self.known.len();
        let shared = shape.map(|it| self.known.entry(it).or_insert((green.clone(), count)).1);
        (green, shared)
    }
}
