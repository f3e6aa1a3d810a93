//! Batches, laid out by the library's writer.

use std::{error::Error, fmt};

use crate::{Flat, Refusal, raw, told};

/// A batch as bytes.
#[derive(Clone, Debug, PartialEq, Eq)]
pub struct Batch(Vec<u8>);

impl Batch {
    pub fn bytes(&self) -> &[u8] {
        &self.0
    }

    /// The load of a starting number (docs/LOAD.md), which every editor accepts.
    pub fn load(start: u32) -> Batch {
        let mut bytes = vec![0; raw::MOST_LOAD];
        let length = raw::load(start, &mut bytes, raw::WriterWork::new().slices());
        bytes.truncate(usize::try_from(length).expect("a load has room"));
        Batch(bytes)
    }
}

/// Why a builder gives no batch.
#[derive(Clone, Copy, Debug, PartialEq, Eq)]
pub enum Unfit {
    /// The writer refused the lists: they are too long, or name what no call, mapping or note may name.
    Refused(Refusal),
    /// A node was opened and not closed, or closed and not opened.
    Unbalanced,
    /// A token stands outside every tree.
    Loose,
}

impl fmt::Display for Unfit {
    fn fmt(&self, f: &mut fmt::Formatter<'_>) -> fmt::Result {
        match self {
            Unfit::Refused(refusal) => refusal.fmt(f),
            Unfit::Unbalanced => f.write_str("nodes are not opened and closed in pairs"),
            Unfit::Loose => f.write_str("a token stands outside every tree"),
        }
    }
}

impl Error for Unfit {}

const NODE: u32 = 1 << 31;

/// Builds a batch. Trees are told in preorder by `open`, `token` and `close`, tree 0 (the one that is edited) first; `open` and `token` give the
/// element's number, by which calls, mappings and notes name it. Whether all is within its limits and well formed is judged by the writer.
#[derive(Clone, Debug, Default)]
pub struct BatchBuilder {
    trees: usize,
    kinds: Vec<u32>,
    measures: Vec<u32>,
    text: Vec<u8>,
    operations: Vec<u32>,
    counts: Vec<u32>,
    rules: Vec<u32>,
    targets: Vec<u32>,
    listed: Vec<u32>,
    inputs: Vec<u32>,
    outputs: Vec<u32>,
    noted: Vec<u32>,
    numbers: Vec<u32>,
    rule: u32,
    open: Vec<usize>,
    fault: Option<Unfit>,
}

impl BatchBuilder {
    pub fn new() -> BatchBuilder {
        BatchBuilder::default()
    }

    /// A node begins; all up to its `close` stands below it. Outside every node it is the root of a further tree.
    pub fn open(&mut self, kind: u16) -> u32 {
        let place = self.kinds.len();
        if self.open.is_empty() {
            self.trees += 1;
        }
        let number = self.element(NODE | u32::from(kind), 0);
        self.open.push(place);
        number
    }

    pub fn close(&mut self) {
        if self.open.pop().is_none() {
            self.fault.get_or_insert(Unfit::Unbalanced);
        }
    }

    pub fn token(&mut self, kind: u16, text: &[u8]) -> u32 {
        if self.open.is_empty() {
            self.fault.get_or_insert(Unfit::Loose);
        }
        self.text.extend_from_slice(text);
        self.element(u32::from(kind), text.len())
    }

    /// A further tree, told whole: the number of its root, which those of its other elements follow in preorder.
    pub fn tree(&mut self, tree: &Flat<'_>) -> u32 {
        if !self.open.is_empty() {
            self.fault.get_or_insert(Unfit::Unbalanced);
        }
        let root = word(self.kinds.len());
        self.trees += 1;
        self.kinds.extend_from_slice(tree.kinds);
        self.measures.extend_from_slice(tree.measures);
        self.text.extend_from_slice(tree.text);
        root
    }

    fn element(&mut self, kind: u32, measure: usize) -> u32 {
        if let Some(&parent) = self.open.last() {
            self.measures[parent] += 1;
        }
        self.kinds.push(kind);
        self.measures.push(word(measure));
        word(self.kinds.len() - 1)
    }

    /// The calls that follow are queued by the rule of this number, 0 for none. One above 4,095 is refused when the batch is laid out.
    pub fn rule(&mut self, number: u32) -> &mut BatchBuilder {
        self.rule = number;
        self
    }

    /// The calls that `calls` makes are queued by the rule of this number; those after them by the one before.
    pub fn by_rule<T>(&mut self, number: u32, calls: impl FnOnce(&mut BatchBuilder) -> T) -> T {
        let before = std::mem::replace(&mut self.rule, number);
        let answer = calls(self);
        self.rule = before;
        answer
    }

    /// Call 0: the listed elements become the parent's first children.
    pub fn insert_first(&mut self, parent: u32, listed: &[u32]) {
        self.call(0, parent, listed);
    }

    /// Call 1: the listed elements go in after the target.
    pub fn insert_after(&mut self, target: u32, listed: &[u32]) {
        self.call(1, target, listed);
    }

    /// Call 2.
    pub fn replace(&mut self, target: u32, by: u32) {
        self.call(2, target, &[by]);
    }

    /// Call 3.
    pub fn delete(&mut self, target: u32) {
        self.call(3, target, &[]);
    }

    /// Call 4.
    pub fn replace_with_many(&mut self, target: u32, listed: &[u32]) {
        self.call(4, target, listed);
    }

    /// Call 5: the run from `first` to `last` is replaced by the listed elements.
    pub fn replace_all(&mut self, first: u32, last: u32, listed: &[u32]) {
        self.call(5, first, &[&[last], listed].concat());
    }

    /// Call 6: the calls that follow are a further editor's. It has no rule number.
    pub fn next_editor(&mut self) {
        self.by_rule(0, |it| it.call(6, 0, &[]));
    }

    fn call(&mut self, operation: u32, target: u32, listed: &[u32]) {
        self.operations.push(operation);
        self.counts.push(word(listed.len()));
        self.rules.push(self.rule);
        self.targets.push(target);
        self.listed.extend_from_slice(listed);
    }

    /// The node `input` is mapped to the node `output`.
    pub fn map(&mut self, input: u32, output: u32) {
        self.inputs.push(input);
        self.outputs.push(output);
    }

    pub fn note(&mut self, element: u32, number: u32) {
        self.noted.push(element);
        self.numbers.push(number);
    }

    /// The lists, as the writer takes them.
    pub fn lists(&self) -> raw::Lists<'_> {
        raw::Lists {
            trees: self.trees,
            kinds: &self.kinds,
            measures: &self.measures,
            text: &self.text,
            operations: &self.operations,
            counts: &self.counts,
            rules: &self.rules,
            targets: &self.targets,
            listed: &self.listed,
            inputs: &self.inputs,
            outputs: &self.outputs,
            noted: &self.noted,
            numbers: &self.numbers,
        }
    }

    /// The batch as the library's writer lays it out, unless its trees are not told whole or the writer refuses it.
    pub fn finish(&self) -> Result<Batch, Unfit> {
        if let Some(fault) = self.fault {
            return Err(fault);
        }
        if !self.open.is_empty() {
            return Err(Unfit::Unbalanced);
        }
        let mut bytes = vec![0; raw::DRAFT];
        let length = told(raw::write(self.lists(), &mut bytes, raw::WriterWork::new().slices())).map_err(Unfit::Refused)?;
        bytes.truncate(length);
        Ok(Batch(bytes))
    }
}

/// A count as a word. What stands for one that fits no word is over every limit.
pub(crate) fn word(count: usize) -> u32 {
    u32::try_from(count).unwrap_or(u32::MAX)
}
