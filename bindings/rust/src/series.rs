//! A series of edits: batch after batch on one tree, with bookmarks that follow.

use crate::{Answer, Batch, Choices, Flat, MOST_ANSWER, Refusal, batch::word, raw, told};

/// A series of edits with its memory (the present tree and the bookmarks that are left), its work memory and a result buffer in which every answer fits.
pub struct Series {
    tree: Vec<u8>,
    bookmarks: Vec<u32>,
    work: raw::Work,
    result: Vec<u8>,
}

impl Series {
    /// A series that begins with this tree and these bookmarks, each a number and a path: the child number at each step down from the root. Or the refusal: 3, 4, 5, 20 or 21.
    pub fn start(tree: Flat<'_>, bookmarks: &[(u32, &[u32])]) -> Result<Series, Refusal> {
        let (mut tree, mut bookmarks) = (laid_out(tree), slots(bookmarks));
        told(raw::series_start(&tree, &bookmarks, &mut vec![0; raw::START_ROWS]))?;
        tree.resize(raw::MOST_TREE, 0);
        bookmarks.truncate(1 + raw::SLOT * raw::MOST_BOOKMARKS);
        Ok(Series { tree, bookmarks, work: raw::Work::new(), result: vec![0; MOST_ANSWER] })
    }

    /// The answer of a batch whose tree 0 is the present tree; then the new tree is the present one, and each bookmark has moved with its element or was dropped with it. Or the
    /// refusal, 22 if tree 0 is another tree; then the series is as it was.
    ///
    /// A batch has at most 2,048 elements: once the present tree has more, every batch is refused (22).
    pub fn follow(&mut self, choices: Choices, batch: &Batch) -> Result<Answer<'_>, Refusal> {
        self.follow_bytes(choices, batch.bytes())
    }

    /// The same, of bytes that were laid out elsewhere.
    pub fn follow_bytes(&mut self, choices: Choices, batch: &[u8]) -> Result<Answer<'_>, Refusal> {
        let memory = raw::Memory { tree: &mut self.tree, bookmarks: &mut self.bookmarks };
        let length = told(raw::series_follow(choices, batch, memory, &mut self.result, self.work.slices()))?;
        let bytes = self.result.get(..length).expect("an answer ends within the result buffer");
        Ok(Answer::read(bytes).expect("an answer is as long as its sizes tell"))
    }

    /// The bookmarks that are left, in the order in which they were given: each with its number and the path of now.
    pub fn bookmarks(&self) -> Vec<(u32, &[u32])> {
        let (count, slots) = self.bookmarks.split_first().expect("a word for the count");
        let path = |slot: &'_ [u32]| slot[1] as usize;
        slots.chunks_exact(raw::SLOT).take(*count as usize).map(|it| (it[0], &it[2..2 + path(it)])).collect()
    }

    /// The kinds of the present tree's elements in preorder, a node's with bit 31.
    pub fn kinds(&self) -> Vec<u32> {
        self.words(0)
    }

    /// The measures of the present tree's elements: children of a node, text bytes of a token.
    pub fn measures(&self) -> Vec<u32> {
        self.words(1)
    }

    pub fn text(&self) -> &[u8] {
        let from = SIZES + 8 * self.size(0);
        &self.tree[from..from + self.size(1)]
    }

    /// How many elements (0) or text bytes (1) the tree has.
    fn size(&self, which: usize) -> usize {
        number(&self.tree[4 * which..]) as usize
    }

    /// The kinds (0) or the measures (1).
    fn words(&self, which: usize) -> Vec<u32> {
        let bytes = 4 * self.size(0);
        self.tree[SIZES + which * bytes..][..bytes].chunks_exact(4).map(number).collect()
    }
}

/// The bytes of the two sizes in front of a tree.
const SIZES: usize = 8;

fn number(bytes: &[u8]) -> u32 {
    u32::from_le_bytes(bytes[..4].try_into().expect("four bytes"))
}

/// A tree as the library takes it. It has one count for kinds and measures: where they differ, the longer list counts, and the bytes are too few for it (4).
fn laid_out(tree: Flat<'_>) -> Vec<u8> {
    let sizes = [tree.kinds.len().max(tree.measures.len()), tree.text.len()].map(word);
    let words = sizes.iter().chain(tree.kinds).chain(tree.measures);
    words.flat_map(|it| it.to_le_bytes()).chain(tree.text.iter().copied()).collect()
}

/// Bookmarks as the library takes them, with room for the most. Of a path that is too long for its slot the length is told (21).
fn slots(bookmarks: &[(u32, &[u32])]) -> Vec<u32> {
    let mut slots = vec![0; 1 + raw::SLOT * bookmarks.len().max(raw::MOST_BOOKMARKS)];
    slots[0] = word(bookmarks.len());
    for (slot, (number, path)) in slots[1..].chunks_exact_mut(raw::SLOT).zip(bookmarks) {
        (slot[0], slot[1]) = (*number, word(path.len()));
        slot[2..].iter_mut().zip(*path).for_each(|(to, from)| *to = *from);
    }
    slots
}
