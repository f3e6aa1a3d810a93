//! What is done to a good input.

use syntax_edit::raw;

use crate::{
    calls::Input,
    lend::{Part, Random},
};

#[derive(Clone, Copy, PartialEq, Eq)]
pub enum Damage {
    /// Up to three words become others that may fit there.
    Words,
    /// A bit of a byte is flipped, or a bit of a word.
    Bit,
    /// A slice ends earlier.
    Prefix,
    /// A slice is a few items longer or shorter than it was, or as long as no list or text may be.
    Length,
    /// A work slice is shorter than it was, mostly too short.
    Work,
    /// The result is shorter, mostly too short.
    Room,
    /// The edge rule, the choice or the number is any other.
    Choice,
}

const ALL: [Damage; 7] = [Damage::Words, Damage::Bit, Damage::Prefix, Damage::Length, Damage::Work, Damage::Room, Damage::Choice];

/// Numbers at and beyond the limits of sizes.
const LIMITS: [u32; 11] = [41, 42, 255, 256, 257, 2_048, 2_049, 4_096, 4_097, 16_384, 16_385];

/// A damaged copy, and how it was damaged. A call that has nothing for it is called as before. The room is what the good input's answer took.
pub fn damaged(good: &Input, room: usize, random: &mut Random) -> (Input, Damage) {
    let (mut input, damage) = (good.clone(), random.one_of(&ALL));
    match damage {
        Damage::Room => input.room = random.below(if room > 0 { room + 2 } else { good.room }).min(good.room),
        Damage::Work => short_work(&mut input, random),
        Damage::Choice => another_choice(&mut input, random),
        _ => a_slice(&mut input, damage, random),
    }
    (input, damage)
}

fn short_work(input: &mut Input, random: &mut Random) {
    let drafts = usize::from(input.draft > 0);
    let which = random.below(drafts + input.work.len());
    let length = if which < drafts { &mut input.draft } else { &mut input.work[which - drafts] };
    // Less than it is, which is not always less than needed.
    *length -= if random.one_in(2) { 1 } else { 1 + random.below(*length) };
}

fn another_choice(input: &mut Input, random: &mut Random) {
    let other = if random.one_in(2) { 2 + random.below(3) as u64 } else { random.next().max(2) };
    match random.below(3) {
        0 => input.choices.edge = other,
        1 => input.choices.stronger = other,
        _ => input.number = other,
    }
}

/// One of the slices of bytes and words, each as likely as another.
fn a_slice(input: &mut Input, damage: Damage, random: &mut Random) {
    let slices = input.bytes.len() + input.words.len();
    if slices == 0 {
        return;
    }
    let (which, bookmarks) = (random.below(slices), input.words.len() == 1);
    if which >= input.bytes.len() {
        let part = &mut input.words[which - input.bytes.len()];
        match damage {
            Damage::Words => (0..1 + random.below(3)).for_each(|_| another_item(&mut part.held, bookmarks, random)),
            Damage::Bit => flip(&mut part.held, random, |word, bit| *word ^= 1 << (bit % 32)),
            _ => another_length(part, damage, 4_097, random, |random| random.next() as u32),
        }
        return;
    }
    let part = &mut input.bytes[which];
    match damage {
        Damage::Words => (0..1 + random.below(3)).for_each(|_| another_word(&mut part.held, random)),
        Damage::Bit => flip(&mut part.held, random, |byte, bit| *byte ^= 1 << (bit % 8)),
        _ => another_length(part, damage, 16_385, random, |random| random.next() as u8),
    }
}

fn flip<T>(items: &mut [T], random: &mut Random, change: fn(&mut T, usize)) {
    if !items.is_empty() {
        let at = random.below(items.len());
        change(&mut items[at], random.below(32));
    }
}

fn another_length<T>(part: &mut Part<T>, damage: Damage, beyond: usize, random: &mut Random, item: fn(&mut Random) -> T) {
    let length = part.held.len();
    part.length = match damage {
        Damage::Prefix => random.below(length + 1),
        _ if random.one_in(6) => beyond,
        _ => (length + random.below(7)).saturating_sub(3),
    };
    while part.held.len() < part.length {
        part.held.push(item(random));
    }
}

/// A word that may fit: a small number, one near how many there are or at a limit, one that stands there already, a call word, a node's kind, any.
fn other(words: &[u32], random: &mut Random) -> u32 {
    match random.below(7) {
        0 => random.below(8) as u32,
        1 => random.below(words.len() + 2) as u32,
        2 => random.one_of(words),
        3 => (random.below(7) + 256 * random.below(4) + (random.below(3) << 20)) as u32,
        4 => 1 << 31 | random.below(5) as u32,
        5 => random.one_of(&LIMITS),
        _ => random.next() as u32,
    }
}

/// Of a bookmark most words are beyond its path, so the first ones of each are changed, or the count.
fn another_item(words: &mut [u32], bookmarks: bool, random: &mut Random) {
    if words.is_empty() {
        return;
    }
    let first = |random: &mut Random| raw::SLOT * random.below(words.len() / raw::SLOT + 1) + random.below(5);
    let (at, from) = if bookmarks { (first(random), first(random)) } else { (random.below(words.len()), random.below(words.len())) };
    let (at, from) = (at.min(words.len() - 1), from.min(words.len() - 1));
    words[at] = if bookmarks && random.one_in(3) { words[from] } else { other(words, random) };
}

fn another_word(bytes: &mut [u8], random: &mut Random) {
    let words = bytes.chunks_exact(4).map(|it| u32::from_le_bytes(it.try_into().expect("four bytes"))).collect::<Vec<_>>();
    if words.is_empty() {
        return;
    }
    let word = other(&words, random);
    let at = 4 * random.below(words.len());
    bytes[at..at + 4].copy_from_slice(&word.to_le_bytes());
}
