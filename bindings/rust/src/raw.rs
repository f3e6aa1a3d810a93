//! The static libraries' own calls, over slices of any length.
//!
//! What is promised of them (and proved of the libraries): the batch and the lists are only read; the result slice (of the writer: the destination) holds
//! the answer (the batch) and beyond it what it held, or, on refusal, all that it held; every work slice ends as zeros of its own length, whatever it
//! held and however long it is.

use crate::{Choices, Claim};

/// The lengths in words that the work slices need, in the order in which they are lent.
pub const LENGTHS: [usize; 9] = [16_384, 6_147, 3_840, 3_072, 3_072, 1_024, 2_048, 12_291, 12_288];

/// The length in bytes of the writer's draft, which is also the most bytes of a batch. Its table and its source are the editor's first two.
pub const DRAFT: usize = 49_180;

/// The most bytes of a load.
pub const MOST_LOAD: usize = 8_632;

/// For how much a whole thousandth counts in the number of a share.
pub const THOUSANDTH: usize = 65_536;

/// What [`find_element`] answers if there is no such element.
pub const NONE: i64 = -1000;

/// The work slices, each a reference to a part of memory of its own.
pub type Slices<'a> = [&'a mut [u32]; 9];

/// Work memory of the lengths that are needed.
pub struct Work([Vec<u32>; 9]);

impl Default for Work {
    fn default() -> Self {
        Self::new()
    }
}

impl Work {
    pub fn new() -> Work {
        Work(LENGTHS.map(|length| vec![0; length]))
    }

    pub fn slices(&mut self) -> Slices<'_> {
        self.0.each_mut().map(Vec::as_mut_slice)
    }
}

/// The lists of a batch: elements of all trees in preorder, tree after tree; of each call its operation, how many elements it lists, its rule number, and its target; the
/// listed elements, call after call; of each mapping its input and its output; of each note its element and its number.
#[derive(Clone, Copy, Debug, Default)]
pub struct Lists<'a> {
    pub trees: usize,
    pub kinds: &'a [u32],
    pub measures: &'a [u32],
    pub text: &'a [u8],
    pub operations: &'a [u32],
    pub counts: &'a [u32],
    pub rules: &'a [u32],
    pub targets: &'a [u32],
    pub listed: &'a [u32],
    pub inputs: &'a [u32],
    pub outputs: &'a [u32],
    pub noted: &'a [u32],
    pub numbers: &'a [u32],
}

/// The writer's work slices.
pub struct WriterSlices<'a> {
    pub draft: &'a mut [u8],
    pub table: &'a mut [u32],
    pub source: &'a mut [u32],
}

/// Work memory of the lengths that the writer needs.
pub struct WriterWork {
    draft: Vec<u8>,
    table: Vec<u32>,
    source: Vec<u32>,
}

impl Default for WriterWork {
    fn default() -> Self {
        Self::new()
    }
}

impl WriterWork {
    pub fn new() -> WriterWork {
        WriterWork { draft: vec![0; DRAFT], table: vec![0; LENGTHS[0]], source: vec![0; LENGTHS[1]] }
    }

    pub fn slices(&mut self) -> WriterSlices<'_> {
        WriterSlices { draft: &mut self.draft, table: &mut self.table, source: &mut self.source }
    }
}

/// The lengths in words that the checker's work slices need: the old elements, the new ones, partners, marks.
pub const CHECKER_LENGTHS: [usize; 4] = [16_384, 16_384, 4_096, 4_096];

/// What [`check`] answers of a claim that is accepted; 0 is rejected.
pub const ACCEPTED: usize = 1;

/// The checker's work slices.
pub type CheckerSlices<'a> = [&'a mut [u32]; 4];

/// Work memory of the lengths that the checker needs.
pub struct CheckerWork([Vec<u32>; 4]);

impl Default for CheckerWork {
    fn default() -> Self {
        Self::new()
    }
}

impl CheckerWork {
    pub fn new() -> CheckerWork {
        CheckerWork(CHECKER_LENGTHS.map(|length| vec![0; length]))
    }

    pub fn slices(&mut self) -> CheckerSlices<'_> {
        self.0.each_mut().map(Vec::as_mut_slice)
    }
}

/// The length in words that the work slice of [`series_start`] needs.
pub const START_ROWS: usize = 12_288;

/// The most bytes of a tree in the memory of a series: two sizes, 4,096 kinds and measures, 16,384 bytes of text.
pub const MOST_TREE: usize = 49_160;

/// The most bookmarks of a series.
pub const MOST_BOOKMARKS: usize = 256;

/// The words of a bookmark in the memory of a series: its number, how many child numbers its path has, and those.
pub const SLOT: usize = 65;

/// The most child numbers of a bookmark's path.
pub const LONGEST_PATH: usize = 63;

#[rustfmt::skip]
mod library {
    unsafe extern "C" {
        pub fn syntax_edit(
            edge: u64, stronger: u64,
            batch: *const u8, batch_length: usize,
            result: *mut u8, result_length: usize,
            table: *mut u32, table_length: usize,
            source: *mut u32, source_length: usize,
            changes: *mut u32, changes_length: usize,
            notes: *mut u32, notes_length: usize,
            incoming: *mut u32, incoming_length: usize,
            changed: *mut u32, changed_length: usize,
            marks: *mut u32, marks_length: usize,
            rows: *mut u32, rows_length: usize,
            prepared: *mut u32, prepared_length: usize,
        ) -> i64;

        pub fn syntax_find_element(
            edge: u64, stronger: u64,
            batch: *const u8, batch_length: usize,
            number: u64,
            table: *mut u32, table_length: usize,
            source: *mut u32, source_length: usize,
            changes: *mut u32, changes_length: usize,
            notes: *mut u32, notes_length: usize,
            incoming: *mut u32, incoming_length: usize,
            changed: *mut u32, changed_length: usize,
            marks: *mut u32, marks_length: usize,
            rows: *mut u32, rows_length: usize,
            prepared: *mut u32, prepared_length: usize,
        ) -> i64;

        pub fn syntax_account(
            edge: u64, stronger: u64,
            batch: *const u8, batch_length: usize,
            result: *mut u8, result_length: usize,
            table: *mut u32, table_length: usize,
            source: *mut u32, source_length: usize,
            changes: *mut u32, changes_length: usize,
            notes: *mut u32, notes_length: usize,
            incoming: *mut u32, incoming_length: usize,
            changed: *mut u32, changed_length: usize,
            marks: *mut u32, marks_length: usize,
            rows: *mut u32, rows_length: usize,
            prepared: *mut u32, prepared_length: usize,
        ) -> i64;

        pub fn syntax_kept(
            edge: u64, stronger: u64,
            batch: *const u8, batch_length: usize,
            result: *mut u8, result_length: usize,
            table: *mut u32, table_length: usize,
            source: *mut u32, source_length: usize,
            changes: *mut u32, changes_length: usize,
            notes: *mut u32, notes_length: usize,
            incoming: *mut u32, incoming_length: usize,
            changed: *mut u32, changed_length: usize,
            marks: *mut u32, marks_length: usize,
            rows: *mut u32, rows_length: usize,
            prepared: *mut u32, prepared_length: usize,
        ) -> i64;

        pub fn syntax_share(
            edge: u64, stronger: u64,
            batch: *const u8, batch_length: usize,
            table: *mut u32, table_length: usize,
            source: *mut u32, source_length: usize,
            changes: *mut u32, changes_length: usize,
            notes: *mut u32, notes_length: usize,
            incoming: *mut u32, incoming_length: usize,
            changed: *mut u32, changed_length: usize,
            marks: *mut u32, marks_length: usize,
            rows: *mut u32, rows_length: usize,
            prepared: *mut u32, prepared_length: usize,
        ) -> i64;

        pub fn syntax_write(
            trees: usize,
            kinds: *const u32, kinds_length: usize,
            measures: *const u32, measures_length: usize,
            text: *const u8, text_length: usize,
            operations: *const u32, operations_length: usize,
            counts: *const u32, counts_length: usize,
            rules: *const u32, rules_length: usize,
            targets: *const u32, targets_length: usize,
            listed: *const u32, listed_length: usize,
            inputs: *const u32, inputs_length: usize,
            outputs: *const u32, outputs_length: usize,
            noted: *const u32, noted_length: usize,
            numbers: *const u32, numbers_length: usize,
            destination: *mut u8, destination_length: usize,
            draft: *mut u8, draft_length: usize,
            table: *mut u32, table_length: usize,
            source: *mut u32, source_length: usize,
        ) -> i64;

        pub fn syntax_load(
            start: u32,
            destination: *mut u8, destination_length: usize,
            draft: *mut u8, draft_length: usize,
            table: *mut u32, table_length: usize,
            source: *mut u32, source_length: usize,
        ) -> i64;

        pub fn syntax_check(
            old_kinds: *const u32, old_kinds_length: usize,
            old_measures: *const u32, old_measures_length: usize,
            old_text: *const u8, old_text_length: usize,
            new_kinds: *const u32, new_kinds_length: usize,
            new_measures: *const u32, new_measures_length: usize,
            new_text: *const u8, new_text_length: usize,
            olds: *const u32, olds_length: usize,
            news: *const u32, news_length: usize,
            changed: *const u32, changed_length: usize,
            old: *mut u32, old_length: usize,
            new: *mut u32, new_length: usize,
            partners: *mut u32, partners_length: usize,
            marks: *mut u32, marks_length: usize,
        ) -> i64;

        pub fn syntax_series_start(
            tree: *const u8, tree_length: usize,
            bookmarks: *const u32, bookmarks_length: usize,
            rows: *mut u32, rows_length: usize,
        ) -> i64;

        pub fn syntax_series_follow(
            edge: u64, stronger: u64,
            batch: *const u8, batch_length: usize,
            tree: *mut u8, tree_length: usize,
            bookmarks: *mut u32, bookmarks_length: usize,
            result: *mut u8, result_length: usize,
            table: *mut u32, table_length: usize,
            source: *mut u32, source_length: usize,
            changes: *mut u32, changes_length: usize,
            notes: *mut u32, notes_length: usize,
            incoming: *mut u32, incoming_length: usize,
            changed: *mut u32, changed_length: usize,
            marks: *mut u32, marks_length: usize,
            rows: *mut u32, rows_length: usize,
            prepared: *mut u32, prepared_length: usize,
        ) -> i64;
    }
}

/// The length of the answer that now stands at the start of `result`, or a refusal's number with a minus.
#[rustfmt::skip]
pub fn edit(choices: Choices, batch: &[u8], result: &mut [u8], work: Slices<'_>) -> i64 {
    let [table, source, changes, notes, incoming, changed, marks, rows, prepared] = work;
    // Safety: each pointer comes with the length of the slice that it starts, and no two of the slices overlap, since all but the batch are unique
    // references. The library reads and writes nothing else, and keeps none of them.
    unsafe {
        library::syntax_edit(
            choices.edge, choices.stronger,
            batch.as_ptr(), batch.len(),
            result.as_mut_ptr(), result.len(),
            table.as_mut_ptr(), table.len(),
            source.as_mut_ptr(), source.len(),
            changes.as_mut_ptr(), changes.len(),
            notes.as_mut_ptr(), notes.len(),
            incoming.as_mut_ptr(), incoming.len(),
            changed.as_mut_ptr(), changed.len(),
            marks.as_mut_ptr(), marks.len(),
            rows.as_mut_ptr(), rows.len(),
            prepared.as_mut_ptr(), prepared.len(),
        )
    }
}

/// The number of the element found, [`NONE`], or a refusal's number with a minus.
#[rustfmt::skip]
pub fn find_element(choices: Choices, batch: &[u8], number: u64, work: Slices<'_>) -> i64 {
    let [table, source, changes, notes, incoming, changed, marks, rows, prepared] = work;
    // Safety: as in `edit`.
    unsafe {
        library::syntax_find_element(
            choices.edge, choices.stronger,
            batch.as_ptr(), batch.len(),
            number,
            table.as_mut_ptr(), table.len(),
            source.as_mut_ptr(), source.len(),
            changes.as_mut_ptr(), changes.len(),
            notes.as_mut_ptr(), notes.len(),
            incoming.as_mut_ptr(), incoming.len(),
            changed.as_mut_ptr(), changed.len(),
            marks.as_mut_ptr(), marks.len(),
            rows.as_mut_ptr(), rows.len(),
            prepared.as_mut_ptr(), prepared.len(),
        )
    }
}

/// The length of the account's text that now stands at the start of `result`, or a refusal's number (never 8) with a minus.
#[rustfmt::skip]
pub fn account(choices: Choices, batch: &[u8], result: &mut [u8], work: Slices<'_>) -> i64 {
    let [table, source, changes, notes, incoming, changed, marks, rows, prepared] = work;
    // Safety: as in `edit`.
    unsafe {
        library::syntax_account(
            choices.edge, choices.stronger,
            batch.as_ptr(), batch.len(),
            result.as_mut_ptr(), result.len(),
            table.as_mut_ptr(), table.len(),
            source.as_mut_ptr(), source.len(),
            changes.as_mut_ptr(), changes.len(),
            notes.as_mut_ptr(), notes.len(),
            incoming.as_mut_ptr(), incoming.len(),
            changed.as_mut_ptr(), changed.len(),
            marks.as_mut_ptr(), marks.len(),
            rows.as_mut_ptr(), rows.len(),
            prepared.as_mut_ptr(), prepared.len(),
        )
    }
}

/// How many bytes the surviving pairs have that now stand at the start of `result`, all old numbers, then all new ones, a word each; or a refusal's number with a minus.
#[rustfmt::skip]
pub fn kept(choices: Choices, batch: &[u8], result: &mut [u8], work: Slices<'_>) -> i64 {
    let [table, source, changes, notes, incoming, changed, marks, rows, prepared] = work;
    // Safety: as in `edit`.
    unsafe {
        library::syntax_kept(
            choices.edge, choices.stronger,
            batch.as_ptr(), batch.len(),
            result.as_mut_ptr(), result.len(),
            table.as_mut_ptr(), table.len(),
            source.as_mut_ptr(), source.len(),
            changes.as_mut_ptr(), changes.len(),
            notes.as_mut_ptr(), notes.len(),
            incoming.as_mut_ptr(), incoming.len(),
            changed.as_mut_ptr(), changed.len(),
            marks.as_mut_ptr(), marks.len(),
            rows.as_mut_ptr(), rows.len(),
            prepared.as_mut_ptr(), prepared.len(),
        )
    }
}

/// The share of the new text that is rewritten, [`THOUSANDTH`] times the whole thousandths and the remainder, or a refusal's number with a minus.
#[rustfmt::skip]
pub fn share(choices: Choices, batch: &[u8], work: Slices<'_>) -> i64 {
    let [table, source, changes, notes, incoming, changed, marks, rows, prepared] = work;
    // Safety: as in `edit`.
    unsafe {
        library::syntax_share(
            choices.edge, choices.stronger,
            batch.as_ptr(), batch.len(),
            table.as_mut_ptr(), table.len(),
            source.as_mut_ptr(), source.len(),
            changes.as_mut_ptr(), changes.len(),
            notes.as_mut_ptr(), notes.len(),
            incoming.as_mut_ptr(), incoming.len(),
            changed.as_mut_ptr(), changed.len(),
            marks.as_mut_ptr(), marks.len(),
            rows.as_mut_ptr(), rows.len(),
            prepared.as_mut_ptr(), prepared.len(),
        )
    }
}

/// The length of the batch that now stands at the start of `destination`, or a refusal's number (1, 14 or 15) with a minus.
#[rustfmt::skip]
pub fn write(lists: Lists<'_>, destination: &mut [u8], work: WriterSlices<'_>) -> i64 {
    // Safety: as in `edit`; the lists, which are only read, may overlap one another.
    unsafe {
        library::syntax_write(
            lists.trees,
            lists.kinds.as_ptr(), lists.kinds.len(),
            lists.measures.as_ptr(), lists.measures.len(),
            lists.text.as_ptr(), lists.text.len(),
            lists.operations.as_ptr(), lists.operations.len(),
            lists.counts.as_ptr(), lists.counts.len(),
            lists.rules.as_ptr(), lists.rules.len(),
            lists.targets.as_ptr(), lists.targets.len(),
            lists.listed.as_ptr(), lists.listed.len(),
            lists.inputs.as_ptr(), lists.inputs.len(),
            lists.outputs.as_ptr(), lists.outputs.len(),
            lists.noted.as_ptr(), lists.noted.len(),
            lists.numbers.as_ptr(), lists.numbers.len(),
            destination.as_mut_ptr(), destination.len(),
            work.draft.as_mut_ptr(), work.draft.len(),
            work.table.as_mut_ptr(), work.table.len(),
            work.source.as_mut_ptr(), work.source.len(),
        )
    }
}

/// The length of the load of a starting number, which now stands at the start of `destination`, or a refusal's number (1 or 15) with a minus.
#[rustfmt::skip]
pub fn load(start: u32, destination: &mut [u8], work: WriterSlices<'_>) -> i64 {
    // Safety: as in `edit`.
    unsafe {
        library::syntax_load(
            start,
            destination.as_mut_ptr(), destination.len(),
            work.draft.as_mut_ptr(), work.draft.len(),
            work.table.as_mut_ptr(), work.table.len(),
            work.source.as_mut_ptr(), work.source.len(),
        )
    }
}

/// [`ACCEPTED`] or 0 for a claim, or a refusal's number (1, 3, 4, 5 or 19) with a minus.
#[rustfmt::skip]
pub fn check(claim: &Claim<'_>, work: CheckerSlices<'_>) -> i64 {
    let [old, new, partners, marks] = work;
    // Safety: as in `edit`; the claim's lists, which are only read, may overlap one another.
    unsafe {
        library::syntax_check(
            claim.old.kinds.as_ptr(), claim.old.kinds.len(),
            claim.old.measures.as_ptr(), claim.old.measures.len(),
            claim.old.text.as_ptr(), claim.old.text.len(),
            claim.new.kinds.as_ptr(), claim.new.kinds.len(),
            claim.new.measures.as_ptr(), claim.new.measures.len(),
            claim.new.text.as_ptr(), claim.new.text.len(),
            claim.olds.as_ptr(), claim.olds.len(),
            claim.news.as_ptr(), claim.news.len(),
            claim.changed.as_ptr(), claim.changed.len(),
            old.as_mut_ptr(), old.len(),
            new.as_mut_ptr(), new.len(),
            partners.as_mut_ptr(), partners.len(),
            marks.as_mut_ptr(), marks.len(),
        )
    }
}

/// 0 if a series may begin with this tree and these bookmarks, or a refusal's number (1, 3, 4, 5, 20 or 21) with a minus. [`Memory`] says how both are laid out.
#[rustfmt::skip]
pub fn series_start(tree: &[u8], bookmarks: &[u32], rows: &mut [u32]) -> i64 {
    // Safety: as in `edit`; the two slices that are only read may overlap one another.
    unsafe {
        library::syntax_series_start(
            tree.as_ptr(), tree.len(),
            bookmarks.as_ptr(), bookmarks.len(),
            rows.as_mut_ptr(), rows.len(),
        )
    }
}

/// The memory of a series, two slices of any lengths: the tree as bytes (how many elements and how many bytes of text, kinds, measures, text, as in a batch) and the bookmarks
/// as words (how many, then [`SLOT`] words for each: its number, how many child numbers its path has, and those). Beyond that they hold anything.
pub struct Memory<'a> {
    pub tree: &'a mut [u8],
    pub bookmarks: &'a mut [u32],
}

/// The length of the answer that now stands at the start of `result`, the memory then holding the new tree and the bookmarks that survive; or a refusal's number (1 to 13, 16
/// to 18 or 20 to 22) with a minus, the memory and the result then being as they were.
#[rustfmt::skip]
pub fn series_follow(choices: Choices, batch: &[u8], memory: Memory<'_>, result: &mut [u8], work: Slices<'_>) -> i64 {
    let [table, source, changes, notes, incoming, changed, marks, rows, prepared] = work;
    let Memory { tree, bookmarks } = memory;
    // Safety: as in `edit`.
    unsafe {
        library::syntax_series_follow(
            choices.edge, choices.stronger,
            batch.as_ptr(), batch.len(),
            tree.as_mut_ptr(), tree.len(),
            bookmarks.as_mut_ptr(), bookmarks.len(),
            result.as_mut_ptr(), result.len(),
            table.as_mut_ptr(), table.len(),
            source.as_mut_ptr(), source.len(),
            changes.as_mut_ptr(), changes.len(),
            notes.as_mut_ptr(), notes.len(),
            incoming.as_mut_ptr(), incoming.len(),
            changed.as_mut_ptr(), changed.len(),
            marks.as_mut_ptr(), marks.len(),
            rows.as_mut_ptr(), rows.len(),
            prepared.as_mut_ptr(), prepared.len(),
        )
    }
}
