//! The ten calls for C: what each is lent, and what it must leave.

use syntax_edit::{Choices, Claim, Flat, MOST_ACCOUNT, MOST_ANSWER, MOST_KEPT, raw};

use crate::{
    inputs::{self, Seeds},
    lend::{Buffer, Part, all},
};

/// All that one call is told and lent.
#[derive(Clone)]
pub struct Input {
    pub choices: Choices,
    /// Of an element to find, of trees to write, or where a load starts.
    pub number: u64,
    /// What is only read, or the memory of a series: first the slices of bytes, then those of words, each in the call's order.
    pub bytes: Vec<Part<u8>>,
    pub words: Vec<Part<u32>>,
    /// How long the result is, the writer's draft, and the other work slices.
    pub room: usize,
    pub draft: usize,
    pub work: Vec<usize>,
}

/// The same, lent.
pub struct Lent {
    bytes: Vec<Buffer<u8>>,
    words: Vec<Buffer<u32>>,
    result: Buffer<u8>,
    draft: Buffer<u8>,
    work: Vec<Buffer<u32>>,
}

/// A call for C.
pub struct Call {
    pub name: &'static str,
    /// What its answers are called, and one of them that is called otherwise.
    pub answered: &'static str,
    pub other: Option<(&'static str, i64)>,
    /// The most that it answers; the refusals that its header names; the one for a result that is too short, if there is a result.
    pub most: usize,
    pub refusals: &'static [i64],
    pub short_result: Option<i64>,
    /// The work that it needs: the writer's draft, and words.
    pub draft: usize,
    pub work: &'static [usize],
    pub good: fn(&Call, &mut Seeds) -> Input,
    make: fn(&Input, &mut Lent) -> i64,
}

const EDIT: Call = Call {
    name: "edit",
    answered: "answered",
    other: None,
    most: MOST_ANSWER,
    refusals: &[1, 2, 3, 4, 5, 6, 7, 8, 9, 10, 11, 12, 13, 16, 17, 18],
    short_result: Some(13),
    draft: 0,
    work: &raw::LENGTHS,
    good: inputs::batch,
    make: |input, lent| raw::edit(input.choices, lent.bytes[0].held(), lent.result.lent(), slices(&mut lent.work)),
};

const FIND_ELEMENT: Call = Call {
    name: "find_element",
    answered: "found",
    other: Some(("with none to find", raw::NONE)),
    most: 4_095,
    refusals: &[1, 2, 3, 4, 5, 6, 7, 8, 9, 10, 11, 12, 16, 17, 18],
    short_result: None,
    make: |input, lent| raw::find_element(input.choices, lent.bytes[0].held(), input.number, slices(&mut lent.work)),
    ..EDIT
};

const ACCOUNT: Call = Call {
    name: "account",
    most: MOST_ACCOUNT,
    refusals: &[1, 2, 3, 4, 5, 6, 7, 9, 10, 11, 12, 13, 16, 17, 18],
    make: |input, lent| raw::account(input.choices, lent.bytes[0].held(), lent.result.lent(), slices(&mut lent.work)),
    ..EDIT
};

const SHARE: Call = Call {
    name: "share",
    answered: "answered",
    other: None,
    most: 1_001 * raw::THOUSANDTH,
    make: |input, lent| raw::share(input.choices, lent.bytes[0].held(), slices(&mut lent.work)),
    ..FIND_ELEMENT
};

const KEPT: Call = Call {
    name: "kept",
    most: 8 * MOST_KEPT,
    make: |input, lent| raw::kept(input.choices, lent.bytes[0].held(), lent.result.lent(), slices(&mut lent.work)),
    ..EDIT
};

const WRITE: Call = Call {
    name: "write",
    answered: "written",
    other: None,
    most: raw::DRAFT,
    refusals: &[1, 14, 15],
    short_result: Some(15),
    draft: raw::DRAFT,
    work: &[raw::LENGTHS[0], raw::LENGTHS[1]],
    good: inputs::lists,
    make: write,
};

const LOAD: Call = Call {
    name: "load",
    most: raw::MOST_LOAD,
    refusals: &[1, 15],
    good: inputs::load,
    make: |input, lent| {
        let [table, source] = slices(&mut lent.work);
        raw::load(input.number as u32, lent.result.lent(), raw::WriterSlices { draft: lent.draft.lent(), table, source })
    },
    ..WRITE
};

const CHECK: Call = Call {
    name: "check",
    answered: "accepted",
    other: Some(("rejected", 0)),
    most: raw::ACCEPTED,
    refusals: &[1, 3, 4, 5, 19],
    short_result: None,
    draft: 0,
    work: &raw::CHECKER_LENGTHS,
    good: inputs::claim,
    make: check,
};

const SERIES_START: Call = Call {
    name: "series_start",
    answered: "accepted",
    other: None,
    most: 0,
    refusals: &[1, 3, 4, 5, 20, 21],
    short_result: None,
    draft: 0,
    work: &[raw::START_ROWS],
    good: inputs::start,
    make: |_, lent| {
        let [rows] = slices(&mut lent.work);
        raw::series_start(lent.bytes[0].held(), lent.words[0].held(), rows)
    },
};

const SERIES_FOLLOW: Call = Call {
    name: "series_follow",
    refusals: &[1, 2, 3, 4, 5, 6, 7, 8, 9, 10, 11, 12, 13, 16, 17, 18, 20, 21, 22],
    good: inputs::follow,
    make: |input, lent| {
        let [batch, tree] = &mut lent.bytes[..] else { panic!("a batch and a tree") };
        let memory = raw::Memory { tree: tree.lent(), bookmarks: lent.words[0].lent() };
        raw::series_follow(input.choices, batch.held(), memory, lent.result.lent(), slices(&mut lent.work))
    },
    ..EDIT
};

pub const CALLS: [Call; 10] = [EDIT, FIND_ELEMENT, ACCOUNT, SHARE, KEPT, WRITE, LOAD, CHECK, SERIES_START, SERIES_FOLLOW];

fn slices<const N: usize>(work: &mut [Buffer<u32>]) -> [&mut [u32]; N] {
    let mut lent = work.iter_mut().map(Buffer::lent);
    std::array::from_fn(|_| lent.next().expect("as many slices as the call takes"))
}

fn write(input: &Input, lent: &mut Lent) -> i64 {
    let [kinds, measures, operations, counts, rules, targets, listed, inputs, outputs, noted, numbers] =
        std::array::from_fn(|i| lent.words[i].held());
    let (trees, text) = (input.number as usize, lent.bytes[0].held());
    let lists = raw::Lists { trees, kinds, measures, text, operations, counts, rules, targets, listed, inputs, outputs, noted, numbers };
    let [table, source] = slices(&mut lent.work);
    raw::write(lists, lent.result.lent(), raw::WriterSlices { draft: lent.draft.lent(), table, source })
}

fn check(_: &Input, lent: &mut Lent) -> i64 {
    let flat = |tree: usize| Flat { kinds: lent.words[2 * tree].held(), measures: lent.words[2 * tree + 1].held(), text: lent.bytes[tree].held() };
    let [olds, news, changed] = std::array::from_fn(|i| lent.words[4 + i].held());
    raw::check(&Claim { old: flat(0), new: flat(1), olds, news, changed }, slices(&mut lent.work))
}

/// What a call told: its answer, and what it wrote of it, to the result and to the memory of a series.
#[derive(PartialEq, Eq)]
pub struct Told {
    pub answer: i64,
    result: Vec<u8>,
    tree: Vec<u8>,
    bookmarks: Vec<u32>,
}

impl Call {
    /// Makes the call, every buffer full of this pattern before, and holds it to what is promised.
    pub fn made(&self, input: &Input, guard: usize, pattern: u32) -> Told {
        let byte = pattern as u8;
        let mut lent = Lent {
            bytes: input.bytes.iter().map(|it| Buffer::of(it, guard, byte)).collect(),
            words: input.words.iter().map(|it| Buffer::of(it, guard, pattern)).collect(),
            result: Buffer::new(input.room, guard, byte),
            draft: Buffer::new(input.draft, guard, byte),
            work: input.work.iter().map(|&length| Buffer::new(length, guard, pattern)).collect(),
        };
        let answer = (self.make)(input, &mut lent);
        self.answers(input, answer);
        self.leaves(input, &lent, answer)
    }

    /// The answer is one that the call may give, and 17, 18 and 1 are where they must be.
    fn answers(&self, input: &Input, answer: i64) {
        let name = self.name;
        let named = self.refusals.contains(&-answer) || self.other.is_some_and(|it| it.1 == answer);
        assert!(named || (0..=self.most as i64).contains(&answer), "{name}: no answer: {answer}");
        let chooses = self.refusals.contains(&17);
        let (edge, stronger) = (chooses && input.choices.edge > 1, chooses && input.choices.stronger > 1);
        let short = input.draft < self.draft || input.work.iter().zip(self.work).any(|(length, least)| length < least);
        assert_eq!(edge, answer == -17, "{name}: a wrong edge rule, and it alone, is refused by 17");
        assert_eq!(stronger && !edge, answer == -18, "{name}: a wrong choice, and it alone, is refused by 18");
        assert_eq!(short && !edge && !stronger, answer == -1, "{name}: a short work slice, and it alone, is refused by 1");
    }

    /// Nothing is written but what the call may write.
    fn leaves(&self, input: &Input, lent: &Lent, answer: i64) -> Told {
        let name = self.name;
        let bytes = lent.bytes.iter().chain([&lent.result, &lent.draft]);
        let words = lent.words.iter().chain(&lent.work);
        assert!(bytes.map(Buffer::guards_stand).chain(words.map(Buffer::guards_stand)).all(|it| it), "{name}: what is beside a slice is written");
        let zeros = lent.work.iter().all(|it| all(it.held(), 0)) && all(lent.draft.held(), 0);
        assert!(zeros, "{name}: a work slice is not zeros");
        let length = if self.short_result.is_some() { usize::try_from(answer).unwrap_or(0) } else { 0 };
        assert!(length <= input.room, "{name}: the answer is longer than the result");
        assert!(lent.result.untouched(length), "{name}: the result is written beyond the answer");
        // The memory of a series is the tree behind the batch, and the bookmarks.
        let leaves_memory = name == SERIES_FOLLOW.name && answer >= 0;
        let (read, bookmarks) = if leaves_memory { (1, 0) } else { (input.bytes.len(), input.words.len()) };
        let bytes = lent.bytes.iter().zip(&input.bytes).take(read).all(|(it, was)| it.as_it_was(was, 0));
        let words = lent.words.iter().zip(&input.words).take(bookmarks).all(|(it, was)| it.as_it_was(was, 0));
        assert!(bytes && words, "{name}: what must be as it was is not");
        let (tree, bookmarks) = if leaves_memory { left(input, lent) } else { Default::default() };
        Told { answer, result: lent.result.held()[..length].to_vec(), tree, bookmarks }
    }
}

/// What the memory of a series states. Beyond that it is as it was, and each slot beyond its path.
fn left(input: &Input, lent: &Lent) -> (Vec<u8>, Vec<u32>) {
    let (tree, words) = (lent.bytes[1].held(), lent.words[0].held());
    let size = |which: usize| u32::from_le_bytes(tree[4 * which..][..4].try_into().expect("four bytes")) as usize;
    let (end, last) = (8 + 8 * size(0) + size(1), 1 + raw::SLOT * words[0] as usize);
    let beyond = lent.bytes[1].as_it_was(&input.bytes[1], end) && lent.words[0].as_it_was(&input.words[0], last);
    assert!(beyond, "series_follow: the memory is written beyond what it states");
    for (i, slot) in words[1..last].chunks_exact(raw::SLOT).enumerate() {
        let path = 2 + slot[1] as usize;
        let was = &input.words[0].held[1 + raw::SLOT * i..][..raw::SLOT];
        assert!(path <= raw::SLOT && slot[path..] == was[path..], "series_follow: a slot is written beyond its path");
    }
    (tree[..end].to_vec(), words[..last].to_vec())
}
