//! Checks claims through the static library, for oracle/claims:   claims < requests   claims --own < requests
//!
//! All numbers are 32-bit little-endian words. A request is a seed, the lengths of the four work slices, then the nine lists in the call's order, each with its length in
//! front (the texts in bytes, the others in words). Before the call the work slices hold numbers drawn from the seed, none of them 0. The answer is what the call
//! returned (64 bits) and how many words of the work slices are not 0.
//!
//! With `--own` a request is a seed, an edge rule, the choice of stronger rules first, a batch with its length in front, the old tree's three lists and the two of the pairs; the new tree, the changed
//! elements and the surviving pairs are what the library's editor answers. In the place of a verdict 2 answers a batch that it refuses, and 3 pairs other than those of the request, or refused by another number than the edit.

use std::{
    env,
    io::{self, BufReader, BufWriter, Read, Write},
};

use syntax_edit::{Choices, Claim, Editor, Element, Flat, raw};

struct Request<'a, R>(&'a mut R);

impl<R: Read> Request<'_, R> {
    fn bytes(&mut self, length: usize) -> io::Result<Vec<u8>> {
        let mut bytes = vec![0; length];
        self.0.read_exact(&mut bytes)?;
        Ok(bytes)
    }

    fn word(&mut self) -> io::Result<u32> {
        let mut word = [0; 4];
        self.0.read_exact(&mut word)?;
        Ok(u32::from_le_bytes(word))
    }

    fn text(&mut self) -> io::Result<Vec<u8>> {
        let length = self.word()?;
        self.bytes(length as usize)
    }

    fn list(&mut self) -> io::Result<Vec<u32>> {
        let length = self.word()?;
        let words = self.bytes(4 * length as usize)?;
        Ok(words.chunks_exact(4).map(|it| u32::from_le_bytes(it.try_into().expect("four bytes"))).collect())
    }
}

/// A work slice of this length full of numbers that follow from a seed, odd in every byte.
fn garbage(seed: &mut u32, length: u32) -> Vec<u32> {
    let next = |_| {
        *seed = seed.wrapping_mul(1_664_525).wrapping_add(1_013_904_223);
        *seed | 0x0101_0101
    };
    (0..length).map(next).collect()
}

/// What the call returns, and how many words of the work slices are not 0 then.
fn checked(claim: &Claim<'_>, mut seed: u32, lengths: [u32; 4]) -> (i64, usize) {
    let mut work = lengths.map(|length| garbage(&mut seed, length));
    let told = raw::check(claim, work.each_mut().map(Vec::as_mut_slice));
    (told, work.iter().flatten().filter(|&&it| it != 0).count())
}

fn claimed(seed: u32, input: &mut impl Read) -> io::Result<(i64, usize)> {
    let mut it = Request(input);
    let lengths = [it.word()?, it.word()?, it.word()?, it.word()?];
    let (old_kinds, old_measures, old_text) = (it.list()?, it.list()?, it.text()?);
    let (new_kinds, new_measures, new_text) = (it.list()?, it.list()?, it.text()?);
    let [olds, news, changed] = [it.list()?, it.list()?, it.list()?];
    let old = Flat { kinds: &old_kinds, measures: &old_measures, text: &old_text };
    let new = Flat { kinds: &new_kinds, measures: &new_measures, text: &new_text };
    Ok(checked(&Claim { old, new, olds: &olds, news: &news, changed: &changed }, seed, lengths))
}

fn kind_word(element: Element<'_>) -> u32 {
    let node = matches!(element, Element::Node { .. });
    u32::from(node) << 31 | u32::from(element.kind())
}

fn own(seed: u32, input: &mut impl Read) -> io::Result<(i64, usize)> {
    let mut it = Request(input);
    let choices = Choices { edge: u64::from(it.word()?), stronger: u64::from(it.word()?) };
    let batch = it.text()?;
    let (old_kinds, old_measures, old_text) = (it.list()?, it.list()?, it.text()?);
    let pairs = it.list()?.into_iter().zip(it.list()?).collect::<Vec<_>>();
    let mut editor = Editor::by(choices);
    let kept = editor.kept_bytes(&batch);
    let answer = match (editor.edit_bytes(&batch), &kept) {
        (Ok(answer), Ok(kept)) if *kept == pairs => answer,
        (Err(edit), Err(kept)) if edit == *kept => return Ok((2, 0)),
        _ => return Ok((3, 0)),
    };
    let (olds, news) = pairs.into_iter().unzip::<_, _, Vec<_>, Vec<_>>();
    let kinds = answer.elements().map(kind_word).collect::<Vec<_>>();
    let measures = answer.elements().map(|it| it.measure() as u32).collect::<Vec<_>>();
    let changed = answer.changed().collect::<Vec<_>>();
    let old = Flat { kinds: &old_kinds, measures: &old_measures, text: &old_text };
    let new = Flat { kinds: &kinds, measures: &measures, text: answer.text() };
    let lengths = raw::CHECKER_LENGTHS.map(|length| length as u32);
    Ok(checked(&Claim { old, new, olds: &olds, news: &news, changed: &changed }, seed, lengths))
}

fn main() -> io::Result<()> {
    let ours = env::args().nth(1).as_deref() == Some("--own");
    let (mut input, mut output) = (BufReader::new(io::stdin().lock()), BufWriter::new(io::stdout().lock()));
    let mut seed = [0; 4];
    while input.read(&mut seed[..1])? != 0 {
        input.read_exact(&mut seed[1..])?;
        let seed = u32::from_le_bytes(seed);
        let (told, left) = if ours { own(seed, &mut input)? } else { claimed(seed, &mut input)? };
        output.write_all(&told.to_le_bytes())?;
        output.write_all(&(left as u32).to_le_bytes())?;
        output.flush()?;
    }
    Ok(())
}
