//! The batches that are timed. All are accepted.

use syntax_edit::{Batch, BatchBuilder};

pub struct Case {
    pub name: String,
    pub elements: usize,
    pub calls: usize,
    /// What the batch is written from; none of a load.
    pub builder: Option<BatchBuilder>,
    pub batch: Vec<u8>,
}

fn case(name: &str, elements: usize, calls: usize, builder: BatchBuilder) -> Case {
    let batch = builder.finish().unwrap_or_else(|fault| panic!("{name}: {fault}")).bytes().to_vec();
    Case { name: name.to_owned(), elements, calls, builder: Some(builder), batch }
}

/// Loads that anyone can make again (docs/LOAD.md).
pub fn loads() -> Vec<Case> {
    [0, 1, 255, u32::MAX].map(|start| Case { name: format!("load {start}"), elements: 792, calls: 96, builder: None, batch: Batch::load(start).bytes().to_vec() }).into()
}

/// A tree of about `elements` (groups of a node and seven tokens) and one of four, with `calls` of four sorts spread over it: an insertion, a
/// replacement, a deletion, a run.
fn mixed(name: &str, elements: usize, calls: usize, notes: usize) -> Case {
    let mut it = BatchBuilder::new();
    let groups = (elements - 5) / 8;
    it.open(1);
    let tokens = (0..groups).map(|_| group(&mut it)).collect::<Vec<_>>();
    it.close();
    it.open(1);
    let c = it.token(3, b"c");
    let d = it.open(4);
    it.token(3, b"d");
    it.close();
    it.close();
    for k in 0..calls {
        let t = &tokens[k * groups / calls];
        match k % 4 {
            0 => it.insert_after(t[0], &[c]),
            1 => it.replace(t[2], c),
            2 => it.delete(t[4]),
            _ => it.replace_all(t[5], t[6], &[d]),
        }
    }
    for k in 0..notes {
        it.note(tokens[k * groups / notes][k % 7], 1 + (notes - k) as u32 / 2);
    }
    case(name, 5 + 8 * groups, calls, it)
}

fn group(it: &mut BatchBuilder) -> Vec<u32> {
    it.open(2);
    let tokens = (0..7).map(|k| it.token(3, &b"lengths"[..=k])).collect();
    it.close();
    tokens
}

fn small() -> Case {
    mixed("few calls on a small tree", 24, 3, 2)
}

/// Chains of 60 nodes, one below the other; two calls at the lower end of each.
fn deep() -> Case {
    let mut it = BatchBuilder::new();
    it.open(1);
    let ends = (0..33).map(|_| chain(&mut it, 60).1).collect::<Vec<_>>();
    it.close();
    it.open(1);
    let c = it.token(3, b"c");
    it.close();
    for end in ends {
        it.insert_after(end, &[c]);
        it.delete(end);
    }
    case("deep trees: 33 chains of 60 nodes", 2 + 1 + 33 * 61, 66, it)
}

/// Nodes one below the other, a token at the end: the nodes, and the token.
fn chain(it: &mut BatchBuilder, depth: usize) -> (Vec<u32>, u32) {
    let nodes = (0..depth).map(|_| it.open(2)).collect();
    let token = it.token(3, b"end");
    (0..depth).for_each(|_| it.close());
    (nodes, token)
}

/// Each node of a chain is replaced by one that holds a mapped copy of it, so that the next one's replacement depends on it; the innermost has an
/// insertion that depends on it.
fn dependents() -> Case {
    let (chains, depth) = (10, 12);
    let mut it = BatchBuilder::new();
    it.open(1);
    // A token after each chain, or an insertion at its end would belong to the next chain, which starts there.
    let old = (0..chains).map(|_| (chain(&mut it, depth), it.token(3, b";")).0).collect::<Vec<_>>();
    it.close();
    it.open(1);
    let new = (0..chains * depth).map(|_| chain(&mut it, 3).0).collect::<Vec<_>>();
    let c = it.token(3, b"c");
    it.close();
    for (i, (nodes, token)) in old.iter().enumerate() {
        for (&node, by) in nodes.iter().zip(&new[i * depth..]) {
            it.replace(node, by[0]);
            it.map(node, by[1]);
        }
        it.insert_after(*token, &[c]);
    }
    case("chains of dependents: 10 chains of 12", 3 + chains * (depth + 2) + 4 * chains * depth, chains * (depth + 1), it)
}

/// Every insertion moves the whole tree.
fn front() -> Case {
    let mut it = BatchBuilder::new();
    let root = it.open(1);
    (0..254).for_each(|_| drop(group(&mut it)));
    it.close();
    it.open(1);
    let c = it.token(3, b"c");
    it.close();
    (0..256).for_each(|_| it.insert_first(root, &[c]));
    case("insertions at the front", 1 + 8 * 254 + 2, 256, it)
}

/// Calls at one place, each with as many elements as a call may list.
fn listing(calls: usize) -> Case {
    let mut it = BatchBuilder::new();
    it.open(1);
    let tokens = group(&mut it);
    it.close();
    it.open(1);
    let listed = (0..41 * calls).map(|_| it.token(3, b"c")).collect::<Vec<_>>();
    it.close();
    listed.chunks(41).for_each(|own| it.insert_after(tokens[3], own));
    case(&format!("calls that list 41 elements each: {calls}"), 10 + 41 * calls, calls, it)
}

/// A batch of each sort.
pub fn sorts() -> Vec<Case> {
    vec![
        small(),
        mixed("64 calls on 500 elements", 500, 64, 0),
        mixed("256 calls on 2,048 elements", 2_048, 256, 0),
        front(),
        deep(),
        dependents(),
        mixed("256 notes, 64 calls", 1_024, 64, 256),
        listing(1),
        listing(24),
    ]
}

pub fn by_elements() -> Vec<Case> {
    [128, 256, 512, 1_024, 2_048].map(|elements| mixed("mixed calls", elements, 32, 0)).into()
}

pub fn by_calls() -> Vec<Case> {
    [16, 32, 64, 128, 256].map(|calls| mixed("mixed calls", 1_024, calls, 0)).into()
}

/// Where most of the tree is not touched at all.
pub fn few_calls() -> Vec<Case> {
    [1, 2, 4, 8, 16].map(|calls| mixed("mixed calls", 2_048, calls, 0)).into()
}
