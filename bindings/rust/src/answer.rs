//! Answers, read from the result's bytes.

use std::fmt;

/// The new tree with its changed elements and notes. Its parts were measured before it was made: no iterator leaves the bytes.
#[derive(Clone, Copy, Debug)]
pub struct Answer<'a> {
    sizes: [u32; 6],
    kinds: &'a [u8],
    measures: &'a [u8],
    changed: &'a [u8],
    rules: &'a [u8],
    numbers: &'a [u8],
    noted: &'a [u8],
    text: &'a [u8],
}

/// An element of the new tree.
#[derive(Clone, Copy, Debug, PartialEq, Eq)]
pub enum Element<'a> {
    Node { kind: u16, children: u32 },
    Token { kind: u16, text: &'a [u8] },
}

impl Element<'_> {
    pub fn kind(&self) -> u16 {
        match *self {
            Element::Node { kind, .. } | Element::Token { kind, .. } => kind,
        }
    }

    /// A node's count of children, a token's count of text bytes.
    pub fn measure(&self) -> usize {
        match *self {
            Element::Node { children, .. } => children as usize,
            Element::Token { text, .. } => text.len(),
        }
    }
}

/// A note and the element that it is on.
#[derive(Clone, Copy, Debug, PartialEq, Eq)]
pub struct Note {
    pub number: u32,
    pub element: u32,
}

const NODE: u32 = 1 << 31;

fn words(bytes: &[u8]) -> impl ExactSizeIterator<Item = u32> + Clone + '_ {
    bytes.chunks_exact(4).map(|it| u32::from_le_bytes([it[0], it[1], it[2], it[3]]))
}

impl<'a> Answer<'a> {
    /// The answer that these bytes are, if they are as long as its sizes tell and the tokens share out the text.
    pub fn read(bytes: &'a [u8]) -> Option<Answer<'a>> {
        let (head, mut rest) = bytes.split_at_checked(24)?;
        let mut sizes = [0; 6];
        sizes.iter_mut().zip(words(head)).for_each(|(size, word)| *size = word);
        let mut array = |count: u32| {
            let (part, after) = rest.split_at_checked(usize::try_from(count).ok()?.checked_mul(4)?)?;
            rest = after;
            Some(part)
        };
        let [elements, text, changed, notes, ..] = sizes;
        let (kinds, measures) = (array(elements)?, array(elements)?);
        let (changed, rules) = (array(changed)?, array(changed)?);
        let (numbers, noted) = (array(notes)?, array(notes)?);
        let answer = Answer { sizes, kinds, measures, changed, rules, numbers, noted, text: rest };
        let tokens = words(kinds).zip(words(measures)).filter(|it| it.0 & NODE == 0);
        let shared = tokens.map(|it| u64::from(it.1)).sum::<u64>();
        (rest.len() == text as usize && shared == u64::from(text)).then_some(answer)
    }

    /// The elements of the new tree in preorder.
    pub fn elements(&self) -> impl Iterator<Item = Element<'a>> + use<'a> {
        let mut text = self.text;
        words(self.kinds).zip(words(self.measures)).map(move |(word, measure)| {
            let kind = (word & 0xffff) as u16;
            if word & NODE != 0 {
                return Element::Node { kind, children: measure };
            }
            let (own, rest) = text.split_at_checked(measure as usize).unwrap_or((text, &[]));
            text = rest;
            Element::Token { kind, text: own }
        })
    }

    /// The numbers of the changed elements, by text start.
    pub fn changed(&self) -> impl ExactSizeIterator<Item = u32> + use<'a> {
        words(self.changed)
    }

    /// Of each changed element the number of the rule that put it in, 0 for none; in the same order.
    pub fn rules(&self) -> impl ExactSizeIterator<Item = u32> + use<'a> {
        words(self.rules)
    }

    /// The notes, by number, queue place and text start.
    pub fn notes(&self) -> impl Iterator<Item = Note> + use<'a> {
        words(self.numbers).zip(words(self.noted)).map(|(number, element)| Note { number, element })
    }

    /// The text of the new tree.
    pub fn text(&self) -> &'a [u8] {
        self.text
    }

    /// How many changes were discarded.
    pub fn discarded(&self) -> u32 {
        self.sizes[4]
    }

    /// How many climb steps were taken.
    pub fn climb_steps(&self) -> u32 {
        self.sizes[5]
    }
}

/// Document 01's printed form.
impl fmt::Display for Answer<'_> {
    fn fmt(&self, f: &mut fmt::Formatter<'_>) -> fmt::Result {
        let [n, b, c, a, discarded, climbs] = self.sizes;
        writeln!(f, "ok {n} {b} {c} {a} {discarded} {climbs}")?;
        for element in self.elements() {
            let sort = if matches!(element, Element::Node { .. }) { 'n' } else { 't' };
            writeln!(f, "{sort} {} {}", element.kind(), element.measure())?;
        }
        f.write_str(if b == 0 { "text" } else { "text " })?;
        self.text.iter().try_for_each(|it| write!(f, "{it:02x}"))?;
        f.write_str("\n")?;
        self.changed().zip(self.rules()).try_for_each(|(element, rule)| writeln!(f, "changed {element} {rule}"))?;
        self.notes().try_for_each(|it| writeln!(f, "note {} {}", it.number, it.element))
    }
}
