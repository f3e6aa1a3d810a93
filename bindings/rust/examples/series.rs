//! Plays series of edits through the static library, for oracle/series:   series < requests
//!
//! All numbers are 32-bit little-endian words. A request begins with a word, 0 for a first call and 1 for a later one, and a seed; before the call the work slices hold numbers
//! drawn from the seed, none of them 0.
//!
//! A first call: the length of its work slice, and both slices of the memory, each with its length in front (the tree's in bytes, the bookmarks' in words); they are kept for
//! the calls that follow. A later call: the edge rule, the choice of stronger rules first, the lengths of the nine work slices, the result slice's length and the byte that it is full of,
//! and a batch with its length in front.
//!
//! The answer is what the call returned (64 bits), how many words of the work slices are not 0, both slices of the memory, and after a later call the result slice, each with its
//! length in front.

use std::io::{self, BufReader, BufWriter, Read, Write};

use syntax_edit::{Choices, raw};

struct Request<'a, R>(&'a mut R);

impl<R: Read> Request<'_, R> {
    fn bytes(&mut self, length: usize) -> io::Result<Vec<u8>> {
        let mut bytes = vec![0; length];
        self.0.read_exact(&mut bytes)?;
        Ok(bytes)
    }

    fn word(&mut self) -> io::Result<u32> {
        let mut word = [0; 4];
        self.0.read_exact(&mut word)?;
        Ok(u32::from_le_bytes(word))
    }

    fn text(&mut self) -> io::Result<Vec<u8>> {
        let length = self.word()?;
        self.bytes(length as usize)
    }

    fn list(&mut self) -> io::Result<Vec<u32>> {
        let length = self.word()?;
        (0..length).map(|_| self.word()).collect()
    }
}

/// A work slice of this length full of numbers that follow from a seed, odd in every byte.
fn garbage(seed: &mut u32, length: u32) -> Vec<u32> {
    let next = |_| {
        *seed = seed.wrapping_mul(1_664_525).wrapping_add(1_013_904_223);
        *seed | 0x0101_0101
    };
    (0..length).map(next).collect()
}

fn left(work: &[Vec<u32>]) -> usize {
    work.iter().flatten().filter(|&&it| it != 0).count()
}

/// What stays from call to call, as the library left it.
#[derive(Default)]
struct Memory {
    tree: Vec<u8>,
    bookmarks: Vec<u32>,
}

fn start(it: &mut Request<'_, impl Read>, mut seed: u32, memory: &mut Memory) -> io::Result<(i64, usize)> {
    let mut work = [garbage(&mut seed, it.word()?)];
    *memory = Memory { tree: it.text()?, bookmarks: it.list()? };
    let told = raw::series_start(&memory.tree, &memory.bookmarks, &mut work[0]);
    Ok((told, left(&work)))
}

fn follow(it: &mut Request<'_, impl Read>, mut seed: u32, memory: &mut Memory) -> io::Result<(i64, usize, Vec<u8>)> {
    let choices = Choices { edge: u64::from(it.word()?), stronger: u64::from(it.word()?) };
    let mut work = [(); 9].map(|()| Vec::new());
    for slice in &mut work {
        *slice = garbage(&mut seed, it.word()?);
    }
    let (room, full) = (it.word()?, it.word()?);
    let (batch, mut result) = (it.text()?, vec![full as u8; room as usize]);
    let lent = raw::Memory { tree: &mut memory.tree, bookmarks: &mut memory.bookmarks };
    let told = raw::series_follow(choices, &batch, lent, &mut result, work.each_mut().map(Vec::as_mut_slice));
    Ok((told, left(&work), result))
}

fn write_part(output: &mut impl Write, length: usize, bytes: &[u8]) -> io::Result<()> {
    output.write_all(&(length as u32).to_le_bytes())?;
    output.write_all(bytes)
}

fn main() -> io::Result<()> {
    let (mut input, mut output) = (BufReader::new(io::stdin().lock()), BufWriter::new(io::stdout().lock()));
    let (mut memory, mut later) = (Memory::default(), [0; 4]);
    while input.read(&mut later[..1])? != 0 {
        input.read_exact(&mut later[1..])?;
        let mut it = Request(&mut input);
        let seed = it.word()?;
        let (told, left, result) = if u32::from_le_bytes(later) == 0 {
            let (told, left) = start(&mut it, seed, &mut memory)?;
            (told, left, None)
        } else {
            let (told, left, result) = follow(&mut it, seed, &mut memory)?;
            (told, left, Some(result))
        };
        output.write_all(&told.to_le_bytes())?;
        output.write_all(&(left as u32).to_le_bytes())?;
        let words = memory.bookmarks.iter().flat_map(|it| it.to_le_bytes()).collect::<Vec<_>>();
        write_part(&mut output, memory.tree.len(), &memory.tree)?;
        write_part(&mut output, memory.bookmarks.len(), &words)?;
        result.map_or(Ok(()), |it| write_part(&mut output, it.len(), &it))?;
        output.flush()?;
    }
    Ok(())
}
