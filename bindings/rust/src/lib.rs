//! A safe wrapper of the proved syntax tree editor (`libsyntax_edit.a`), of the checker of another editor's output (`libsyntax_check.a`) and of series of edits
//! with bookmarks (`libsyntax_series.a`).
//!
//! A [`Batch`] (trees, calls, mappings, notes) is told to a [`BatchBuilder`] and laid out by the library's writer; an [`Editor`], which owns the work memory, answers it with an
//! [`Answer`] (the new tree, its changed elements, its notes) or a [`Refusal`]: every batch of bytes gets one of the two. The library's calls have no
//! precondition but that lent buffers do not overlap, which references see to here. An editor has 235 KiB of work memory in nine slices. A [`Checker`] judges a [`Claim`], what another editor says of its own output.
//! A [`Series`] edits batch after batch on the tree that the one before left, and its bookmarks follow.

mod account;
mod answer;
mod batch;
mod checker;
pub mod raw;
mod series;

use std::{error::Error, fmt};

pub use account::{Fate, Unaccounted};
pub use answer::{Answer, Element, Note};
pub use batch::{Batch, BatchBuilder, Unfit};
pub use checker::{Checker, Claim, Flat};
pub use series::Series;

/// The most bytes that an answer has.
pub const MOST_ANSWER: usize = 65_560;

/// The most bytes that an account has.
pub const MOST_ACCOUNT: usize = 8_192;

/// The most pairs that survive an edit.
pub const MOST_KEPT: usize = 2_048;

/// How a batch is edited. The default is what rust-analyzer does.
#[derive(Clone, Copy, Debug, Default, PartialEq, Eq, Hash)]
pub struct Choices {
    /// The edge rule, to which replacement or run a change at its edge belongs: 0 by text ranges, 1 by where elements stand in the tree. Any other number is
    /// refused (17), before anything else is looked at.
    pub edge: u64,
    /// Stronger rules first, off (0) or on (1): whether a replacement or run is withdrawn that overlaps a kept one of a higher rule number. Any other number is refused
    /// (18), right after 17.
    pub stronger: u64,
}

/// How much of a new text is rewritten, in thousandths: the exact share of `all` bytes is (`thousandths` + `remainder` / `all`) / 1,000. Of an empty text it is 0.
#[derive(Clone, Copy, Debug, PartialEq, Eq, PartialOrd, Ord, Hash)]
pub struct Share {
    pub thousandths: usize,
    pub remainder: usize,
}

/// Why a batch got no answer, lists made no batch, a claim got no verdict or a series did not begin: a number of the list of refusals.
#[derive(Clone, Copy, Debug, PartialEq, Eq, Hash)]
pub struct Refusal(u8);

/// The refusals, each with its number.
const MEANINGS: [(u8, &str); 22] = [
    (1, "a work slice is too short"),
    (2, "the batch has under 28 bytes"),
    (3, "a size is out of its limits"),
    (4, "the length differs from what the sizes give, or lists in step differ in length"),
    (5, "the elements do not spell the trees"),
    (6, "a call is not well formed"),
    (7, "a mapping or a note is not well formed"),
    (8, "replacements overlap"),
    (9, "a dependent call or a note cannot be mapped"),
    (10, "a climb never ends"),
    (11, "a step's target is gone"),
    (12, "the trees outgrow their limits"),
    (13, "the result buffer, or the memory of a series, is too short"),
    (14, "the lists differ in length or make a batch that is not well formed"),
    (15, "the destination is too short"),
    (16, "a call lists more than 41 elements"),
    (17, "an edge rule is neither 0 nor 1"),
    (18, "the choice of stronger rules first is neither 0 nor 1"),
    (19, "a claim names no element of its tree"),
    (20, "there are more than 256 bookmarks, or a number is given twice"),
    (21, "the path of a bookmark finds no element"),
    (22, "tree 0 is not the tree that the batch before left"),
];

impl Refusal {
    /// The refusal of this number, if there is one.
    fn numbered(number: i64) -> Option<Refusal> {
        MEANINGS.iter().map(|it| it.0).find(|&it| i64::from(it) == number).map(Refusal)
    }

    pub fn number(self) -> u8 {
        self.0
    }

    pub fn meaning(self) -> &'static str {
        MEANINGS.iter().find(|it| it.0 == self.0).expect("a refusal is made with its number").1
    }
}

impl fmt::Display for Refusal {
    fn fmt(&self, f: &mut fmt::Formatter<'_>) -> fmt::Result {
        write!(f, "refused {}: {}", self.0, self.meaning())
    }
}

impl Error for Refusal {}

/// The editor with its choices, its work memory and a result buffer in which every answer fits.
pub struct Editor {
    choices: Choices,
    work: raw::Work,
    result: Vec<u8>,
}

impl Default for Editor {
    fn default() -> Self {
        Self::new()
    }
}

impl Editor {
    /// An editor by the default choices.
    pub fn new() -> Editor {
        Editor::by(Choices::default())
    }

    /// An editor by these choices.
    pub fn by(choices: Choices) -> Editor {
        Editor { choices, work: raw::Work::new(), result: vec![0; MOST_ANSWER] }
    }

    /// The answer of a batch, or its refusal.
    pub fn edit(&mut self, batch: &Batch) -> Result<Answer<'_>, Refusal> {
        self.edit_bytes(batch.bytes())
    }

    /// The same, of bytes that were laid out elsewhere.
    pub fn edit_bytes(&mut self, batch: &[u8]) -> Result<Answer<'_>, Refusal> {
        let length = told(raw::edit(self.choices, batch, &mut self.result, self.work.slices()))?;
        let bytes = self.result.get(..length).expect("an answer ends within the result buffer");
        Ok(Answer::read(bytes).expect("an answer is as long as its sizes tell"))
    }

    /// What becomes of each change of a batch, in sorted order; or which two overlap; or the batch's refusal.
    pub fn account(&mut self, batch: &Batch) -> Result<Vec<Fate>, Unaccounted> {
        self.account_bytes(batch.bytes())
    }

    /// The same, of bytes that were laid out elsewhere.
    pub fn account_bytes(&mut self, batch: &[u8]) -> Result<Vec<Fate>, Unaccounted> {
        let length = told(raw::account(self.choices, batch, &mut self.result, self.work.slices()))?;
        let text = self.result.get(..length).expect("an account ends within the result buffer");
        account::read(std::str::from_utf8(text).expect("an account is plain text")).expect("an account is a line for each change, or a pair")
    }

    /// How much of the new text lies in changed elements, or the batch's refusal.
    pub fn share(&mut self, batch: &Batch) -> Result<Share, Refusal> {
        self.share_bytes(batch.bytes())
    }

    /// The same, of bytes that were laid out elsewhere.
    pub fn share_bytes(&mut self, batch: &[u8]) -> Result<Share, Refusal> {
        let number = told(raw::share(self.choices, batch, self.work.slices()))?;
        Ok(Share { thousandths: number / raw::THOUSANDTH, remainder: number % raw::THOUSANDTH })
    }

    /// The surviving elements of the old tree, each with its number in the new tree, by rising old numbers; or the batch's refusal.
    ///
    /// With these pairs and the changed elements of the answer a [`Checker`] accepts the answer, if the root was not replaced and no dependent change ended in tree 0.
    pub fn kept(&mut self, batch: &Batch) -> Result<Vec<(u32, u32)>, Refusal> {
        self.kept_bytes(batch.bytes())
    }

    /// The same, of bytes that were laid out elsewhere.
    pub fn kept_bytes(&mut self, batch: &[u8]) -> Result<Vec<(u32, u32)>, Refusal> {
        let length = told(raw::kept(self.choices, batch, &mut self.result, self.work.slices()))?;
        let (olds, news) = self.result.get(..length).expect("pairs end within the result buffer").split_at(length / 2);
        let words = |it: &[u8]| it.chunks_exact(4).map(|it| u32::from_le_bytes(it.try_into().expect("four bytes"))).collect::<Vec<_>>();
        Ok(words(olds).into_iter().zip(words(news)).collect())
    }

    /// The element of the new tree that `find_element` gives for an element of the batch: the first node with its kind and text start.
    pub fn find_element(&mut self, batch: &[u8], number: u32) -> Result<Option<usize>, Refusal> {
        match raw::find_element(self.choices, batch, u64::from(number), self.work.slices()) {
            raw::NONE => Ok(None),
            answer => told(answer).map(Some),
        }
    }
}

/// What the static library's number says.
fn told(answer: i64) -> Result<usize, Refusal> {
    match usize::try_from(answer) {
        Ok(number) => Ok(number),
        Err(_) => Err(Refusal::numbered(-answer).expect("a refusal is numbered 1 to 22")),
    }
}
