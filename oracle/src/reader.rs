//! Reads a batch, with lines 2 to 7 of document 01's refusals and 16 of document 02. The Rust has no such reader; this one follows the documents.

pub const MOST_BYTES: usize = 65_536;
const NODE: u32 = 1 << 31;
const LIMITS: [(u64, u64); 7] = [(1, 16), (0, 2_048), (0, 16_384), (0, 256), (0, 1_024), (0, 1_024), (0, 256)];
const MOST_DEPTH: usize = 64;
/// The most elements that a call may list, a run's end not counted.
const MOST_LISTED: usize = 41;
/// A call word has the operation in bits 0 to 7, the count of listed elements in bits 8 to 19 and the rule number above.
const MOST_COUNT: u32 = 0xfff;

/// An element: `index` among its parent's children, `children` of its own, and the number `end` after all below it.
pub struct Element<'a> {
    pub node: bool,
    pub kind: u16,
    pub text: &'a [u8],
    pub tree: usize,
    pub parent: Option<usize>,
    pub index: usize,
    pub children: usize,
    pub end: usize,
}

pub struct Call {
    pub operation: u8,
    pub target: usize,
    pub listed: Vec<usize>,
}

pub struct Batch<'a> {
    pub elements: Vec<Element<'a>>,
    pub roots: Vec<usize>,
    pub calls: Vec<Call>,
    pub mappings: Vec<(usize, usize)>,
    pub notes: Vec<(usize, u32)>,
}

impl Batch<'_> {
    /// The numbers of an element's children.
    pub fn children(&self, number: usize) -> impl ExactSizeIterator<Item = usize> {
        let mut next = number + 1;
        (0..self.elements[number].children).map(move |_| {
            let child = next;
            next = self.elements[child].end;
            child
        })
    }
}

/// The batch, or the number of the line that refuses it.
pub fn read(data: &[u8]) -> Result<Batch<'_>, u32> {
    let sizes = sizes(data)?;
    let [trees, e, b, c, l, m, a] = sizes;
    let words = 2 * e + 2 * c + l + 2 * m + 2 * a;
    if data.len() != 28 + 4 * words + b {
        return Err(4);
    }
    let mut words = data[28..28 + 4 * words].chunks_exact(4).map(word);
    let mut array = |n: usize| words.by_ref().take(n).collect::<Vec<u32>>();
    let (kinds, measures) = (array(e), array(e));
    let (call_words, targets, listed) = (array(c), array(c), array(l));
    let (inputs, outputs) = (array(m), array(m));
    let (note_elements, note_numbers) = (array(a), array(a));
    let (elements, roots) = spell(&kinds, &measures, &data[data.len() - b..], trees).ok_or(5u32)?;
    let calls = calls(&call_words, &targets, &listed, &elements).ok_or(6u32)?;
    if calls.iter().any(|it| it.listed.len() > MOST_LISTED + usize::from(it.operation == 5)) {
        return Err(16);
    }
    let node = |number: u32| elements.get(number as usize).filter(|it| it.node);
    for (&input, &output) in inputs.iter().zip(&outputs) {
        if node(input).is_none() || node(output).is_none_or(|it| it.parent.is_none()) {
            return Err(7);
        }
    }
    if note_elements.iter().any(|&it| it as usize >= e) || note_numbers.contains(&0) {
        return Err(7);
    }
    let numbers = |words: Vec<u32>| words.into_iter().map(|it| it as usize);
    let mappings = numbers(inputs).zip(numbers(outputs)).collect();
    let notes = numbers(note_elements).zip(note_numbers).collect();
    Ok(Batch { elements, roots, calls, mappings, notes })
}

fn word(bytes: &[u8]) -> u32 {
    u32::from_le_bytes(bytes.try_into().unwrap())
}

/// Lines 2 and 3.
fn sizes(data: &[u8]) -> Result<[usize; 7], u32> {
    if data.len() < 28 {
        return Err(2);
    }
    let mut sizes = [0; 7];
    for (i, (low, high)) in LIMITS.into_iter().enumerate() {
        let size = u64::from(word(&data[4 * i..4 * i + 4]));
        if size < low || high < size {
            return Err(3);
        }
        sizes[i] = size as usize;
    }
    Ok(sizes)
}

/// Line 5: the elements and the roots' numbers.
fn spell<'a>(kinds: &[u32], measures: &[u32], mut text: &'a [u8], trees: usize) -> Option<(Vec<Element<'a>>, Vec<usize>)> {
    let (mut elements, mut roots) = (Vec::<Element>::with_capacity(kinds.len()), Vec::new());
    // Nodes that still lack children, each with how many.
    let mut open = Vec::<(usize, u32)>::new();
    for (number, (&kind, &measure)) in kinds.iter().zip(measures).enumerate() {
        let node = kind & NODE != 0;
        if kind & !(NODE | 0xffff) != 0 || open.is_empty() && !node || open.len() >= MOST_DEPTH {
            return None;
        }
        let (parent, index) = match open.last_mut() {
            Some((above, lacking)) => {
                *lacking -= 1;
                (Some(*above), elements[*above].children - 1 - *lacking as usize)
            }
            None => {
                roots.push(number);
                (None, 0)
            }
        };
        let (children, own) = if node { (measure as usize, 0) } else { (0, measure as usize) };
        let (own, rest) = text.split_at_checked(own)?;
        text = rest;
        let tree = roots.len() - 1;
        elements.push(Element { node, kind: kind as u16, text: own, tree, parent, index, children, end: number + 1 });
        if node {
            open.push((number, measure));
        }
        while let Some((full, _)) = open.pop_if(|it| it.1 == 0) {
            elements[full].end = number + 1;
        }
    }
    (open.is_empty() && roots.len() == trees && text.is_empty()).then_some((elements, roots))
}

/// Line 6: the calls.
fn calls(words: &[u32], targets: &[u32], mut listed: &[u32], elements: &[Element<'_>]) -> Option<Vec<Call>> {
    let mut calls = Vec::new();
    for (&word, &target) in words.iter().zip(targets) {
        let (own, rest) = listed.split_at_checked((word >> 8 & MOST_COUNT) as usize)?;
        listed = rest;
        let own = own.iter().map(|&it| it as usize).collect();
        let call = Call { operation: word as u8, target: target as usize, listed: own };
        // The Rust has no rule numbers; of ours only those of operation 6 are judged.
        let numbered = word >> 20 != 0;
        if call.operation == 6 && numbered || !allowed(&call, elements) {
            return None;
        }
        calls.push(call);
    }
    listed.is_empty().then_some(calls)
}

fn allowed(call: &Call, elements: &[Element<'_>]) -> bool {
    let numbers = call.listed.iter().chain([&call.target]);
    let Some(target) = elements.get(call.target) else { return false };
    if numbers.into_iter().any(|&it| it >= elements.len()) {
        return false;
    }
    let first = call.listed.first().map(|&it| &elements[it]);
    let below_root = target.parent.is_some();
    match call.operation {
        0 => target.node,
        1 | 4 => below_root,
        2 => call.listed.len() == 1 && (below_root || first.is_some_and(|it| it.node)),
        3 => below_root && first.is_none(),
        // Siblings are numbered from left to right.
        5 => below_root && first.is_some_and(|it| it.parent == target.parent) && call.target <= call.listed[0],
        6 => call.target == 0 && first.is_none(),
        _ => false,
    }
}
