//! Good inputs of the ten calls, all out of recorded batches and loads.

use syntax_edit::{Choices, MOST_ANSWER, MOST_KEPT, raw};

use crate::{
    calls::{Call, Input},
    lend::{Part, Random, Reader},
};

const NODE: u32 = 1 << 31;
/// What stands in a bookmark beyond its path.
const BEYOND: u32 = 0x6d6d_6d6d;

/// Where inputs come from.
pub struct Seeds {
    pub random: Random,
    /// Recorded batches: all, those whose trees are spelled, those that the library accepts by the default choices.
    recorded: Vec<Vec<u8>>,
    spelled: Vec<Vec<u8>>,
    accepted: Vec<Vec<u8>>,
    work: raw::Work,
}

impl Seeds {
    pub fn new(random: Random, recorded: Vec<Vec<u8>>) -> Seeds {
        let mut seeds = Seeds { random, recorded, spelled: Vec::new(), accepted: Vec::new(), work: raw::Work::new() };
        for batch in seeds.recorded.clone() {
            match seeds.edited(&batch) {
                Ok(_) => seeds.accepted.push(batch),
                // What comes before are a size, the length and the spelling.
                Err(refusal) if refusal > 5 => seeds.spelled.push(batch),
                Err(_) => (),
            }
        }
        seeds.spelled.extend_from_slice(&seeds.accepted);
        seeds
    }

    /// The answer of a batch, or its refusal.
    fn edited(&mut self, batch: &[u8]) -> Result<Vec<u8>, i64> {
        let mut answer = vec![0; MOST_ANSWER];
        let length = raw::edit(Choices::default(), batch, &mut answer, self.work.slices());
        answer.truncate(usize::try_from(length).map_err(|_| -length)?);
        Ok(answer)
    }

    /// A batch whose trees are spelled, mostly one that is accepted.
    fn spelled(&mut self) -> Vec<u8> {
        if !self.random.one_in(4) {
            return self.accepted();
        }
        self.spelled[self.random.below(self.spelled.len())].clone()
    }

    /// A batch that is accepted: a recorded one or, seldom, a load.
    fn accepted(&mut self) -> Vec<u8> {
        if !self.random.one_in(16) {
            return self.accepted[self.random.below(self.accepted.len())].clone();
        }
        let mut batch = vec![0; raw::MOST_LOAD];
        let length = raw::load(self.random.next() as u32, &mut batch, raw::WriterWork::new().slices());
        batch.truncate(usize::try_from(length).expect("every starting number has a load"));
        batch
    }

    /// What is lent where these are read: a result in which all fits, work slices now and then longer than needed; by either edge rule and choice.
    fn input(&mut self, call: &Call, bytes: Vec<Vec<u8>>, words: Vec<Vec<u32>>) -> Input {
        let longer = self.random.one_in(8);
        let mut more = || if longer { self.random.below(50) } else { 0 };
        Input {
            number: 0,
            bytes: bytes.into_iter().map(Part::exact).collect(),
            words: words.into_iter().map(Part::exact).collect(),
            room: if call.short_result.is_some() { call.most } else { 0 },
            draft: if call.draft > 0 { call.draft + more() } else { 0 },
            work: call.work.iter().map(|it| it + more()).collect(),
            choices: Choices { edge: self.random.below(2) as u64, stronger: self.random.below(2) as u64 },
        }
    }
}

/// A tree as lists.
struct Tree {
    kinds: Vec<u32>,
    measures: Vec<u32>,
    text: Vec<u8>,
}

impl Tree {
    /// The first tree of a batch whose trees are spelled.
    fn first(batch: &Lists) -> Tree {
        let (mut open, mut elements, mut text) = (1, 0, 0);
        while open > 0 {
            let (node, measure) = (batch.kinds[elements] & NODE != 0, batch.measures[elements] as usize);
            open += if node { measure } else { 0 };
            text += if node { 0 } else { measure };
            open -= 1;
            elements += 1;
        }
        Tree { kinds: batch.kinds[..elements].to_vec(), measures: batch.measures[..elements].to_vec(), text: batch.text[..text].to_vec() }
    }

    /// The tree of an answer, and its changed elements.
    fn answered(answer: &[u8]) -> (Tree, Vec<u32>) {
        let mut rest = Reader(answer);
        let [elements, text, changed, notes, ..] = rest.words(6)[..] else { panic!("six sizes") };
        let (kinds, measures) = (rest.words(elements as usize), rest.words(elements as usize));
        let listed = rest.words(changed as usize);
        rest.words((changed + 2 * notes) as usize);
        (Tree { kinds, measures, text: rest.part(text as usize).to_vec() }, listed)
    }

    /// As the memory of a series has it.
    fn laid_out(&self) -> Vec<u8> {
        let sizes = [self.kinds.len() as u32, self.text.len() as u32];
        let words = sizes.iter().chain(&self.kinds).chain(&self.measures);
        words.flat_map(|it| it.to_le_bytes()).chain(self.text.iter().copied()).collect()
    }

    /// The first element behind this one and all below it.
    fn behind(&self, mut element: usize) -> usize {
        let mut open = 1;
        while open > 0 {
            open += if self.kinds[element] & NODE != 0 { self.measures[element] as usize } else { 0 };
            open -= 1;
            element += 1;
        }
        element
    }

    /// The path of some element.
    fn path(&self, random: &mut Random) -> Vec<u32> {
        let (mut path, mut element) = (Vec::new(), 0);
        while self.kinds[element] & NODE != 0 && self.measures[element] > 0 && path.len() < raw::LONGEST_PATH && !random.one_in(3) {
            let child = random.below(self.measures[element] as usize);
            element = (0..child).fold(element + 1, |it, _| self.behind(it));
            path.push(child as u32);
        }
        path
    }

    /// Bookmarks on some elements.
    fn bookmarks(&self, random: &mut Random) -> Vec<u32> {
        let count = if random.one_in(20) { raw::MOST_BOOKMARKS } else { random.below(6) };
        let mut words = vec![count as u32];
        for i in 0..count {
            let path = self.path(random);
            let slot = [(7 * i) as u32, path.len() as u32].into_iter().chain(path);
            words.extend(slot.chain(std::iter::repeat(BEYOND)).take(raw::SLOT));
        }
        words
    }
}

/// The lists of a batch of the right length, in its order.
struct Lists {
    trees: usize,
    kinds: Vec<u32>,
    measures: Vec<u32>,
    call_words: Vec<u32>,
    /// Targets, listed elements, mapping inputs and outputs, note elements and numbers.
    others: [Vec<u32>; 6],
    text: Vec<u8>,
}

impl Lists {
    fn of(batch: &[u8]) -> Lists {
        let mut rest = Reader(batch);
        let [trees, elements, text, calls, listed, mappings, notes] = std::array::from_fn(|_| rest.word());
        let (kinds, measures) = (rest.words(elements), rest.words(elements));
        let call_words = rest.words(calls);
        let others = [calls, listed, mappings, mappings, notes, notes].map(|it| rest.words(it));
        Lists { trees, kinds, measures, call_words, others, text: rest.part(text).to_vec() }
    }
}

/// For the calls that edit: mostly a batch that is accepted, else any recorded one; and the number of an element, mostly one of the first.
pub fn batch(call: &Call, seeds: &mut Seeds) -> Input {
    let mut batch = seeds.accepted();
    if seeds.random.one_in(4) {
        batch = seeds.recorded[seeds.random.below(seeds.recorded.len())].clone();
    } else if seeds.random.one_in(4) {
        give_rules(&mut batch, &mut seeds.random);
    }
    let most = seeds.random.one_of(&[4, 40]);
    Input { number: seeds.random.below(most) as u64, ..seeds.input(call, vec![batch], Vec::new()) }
}

/// A rule number for each call that may have one: few recorded ones have any.
fn give_rules(batch: &mut [u8], random: &mut Random) {
    let lists = Lists::of(batch);
    let words = batch[28 + 8 * lists.kinds.len()..].chunks_exact_mut(4);
    for (place, word) in words.zip(lists.call_words).filter(|it| it.1 % 256 != 6) {
        place.copy_from_slice(&(word % (1 << 20) + ((random.below(5) as u32) << 20)).to_le_bytes());
    }
}

/// For the writer: the lists of a batch.
pub fn lists(call: &Call, seeds: &mut Seeds) -> Input {
    let Lists { trees, kinds, measures, call_words, others, text } = Lists::of(&seeds.spelled());
    let part = |part: fn(&u32) -> u32| call_words.iter().map(part).collect();
    let split: [Vec<u32>; 3] = [part(|it| it % 256), part(|it| it / 256 % 4_096), part(|it| it >> 20)];
    let words = [kinds, measures].into_iter().chain(split).chain(others).collect();
    Input { number: trees as u64, ..seeds.input(call, vec![text], words) }
}

/// For the load: any starting number.
pub fn load(call: &Call, seeds: &mut Seeds) -> Input {
    Input { number: seeds.random.next() % (1 << 32), ..seeds.input(call, Vec::new(), Vec::new()) }
}

/// For the checker: the library's own output of a batch.
pub fn claim(call: &Call, seeds: &mut Seeds) -> Input {
    let batch = seeds.accepted();
    let old = Tree::first(&Lists::of(&batch));
    let (new, changed) = Tree::answered(&seeds.edited(&batch).expect("the batch is accepted"));
    let mut pairs = vec![0; 8 * MOST_KEPT];
    let length = raw::kept(Choices::default(), &batch, &mut pairs, seeds.work.slices());
    let count = usize::try_from(length).expect("the batch is accepted") / 8;
    let mut rest = Reader(&pairs);
    let (olds, news) = (rest.words(count), rest.words(count));
    seeds.input(call, vec![old.text, new.text], vec![old.kinds, old.measures, new.kinds, new.measures, olds, news, changed])
}

/// For a series: a batch, its first tree in the longest slice, with some bookmarks, behind which there is room now and then.
fn memory(call: &Call, seeds: &mut Seeds) -> Input {
    let batch = seeds.spelled();
    let tree = Tree::first(&Lists::of(&batch));
    let bookmarks = tree.bookmarks(&mut seeds.random);
    let most = 1 + raw::SLOT * (raw::MOST_BOOKMARKS + seeds.random.below(3));
    let mut input = seeds.input(call, vec![batch, tree.laid_out()], vec![bookmarks]);
    input.bytes[1].length = raw::MOST_TREE;
    if seeds.random.one_in(2) {
        input.words[0].length = most;
    }
    input
}

/// For a first call: the memory alone.
pub fn start(call: &Call, seeds: &mut Seeds) -> Input {
    let mut input = memory(call, seeds);
    input.bytes.remove(0);
    input
}

/// For a later call: a batch whose tree 0 is that of the memory.
pub fn follow(call: &Call, seeds: &mut Seeds) -> Input {
    memory(call, seeds)
}
