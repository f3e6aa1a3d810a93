//! Writes lists through the static library's writer, for oracle/lists:   lists < requests
//!
//! All numbers are 32-bit little-endian words. A request is: how many trees (64 bits), a seed, the lengths of the destination, the draft, the table and the
//! source, then the twelve lists in the call's order, each with its length in front (the text in bytes, the others in words). Before the call the
//! destination holds bytes that count up from the seed, and the work slices hold numbers drawn from it, none of them 0.
//! The answer is what the call returned (64 bits), how many bytes and words of the work slices are not 0, and the whole destination.

use std::io::{self, BufReader, BufWriter, Read, Write};

use syntax_edit::raw::{self, Lists, WriterSlices};

struct Request<'a, R>(&'a mut R);

impl<R: Read> Request<'_, R> {
    fn bytes(&mut self, length: usize) -> io::Result<Vec<u8>> {
        let mut bytes = vec![0; length];
        self.0.read_exact(&mut bytes)?;
        Ok(bytes)
    }

    fn word(&mut self) -> io::Result<u32> {
        let mut word = [0; 4];
        self.0.read_exact(&mut word)?;
        Ok(u32::from_le_bytes(word))
    }

    fn text(&mut self) -> io::Result<Vec<u8>> {
        let length = self.word()?;
        self.bytes(length as usize)
    }

    fn list(&mut self) -> io::Result<Vec<u32>> {
        let length = self.word()?;
        let words = self.bytes(4 * length as usize)?;
        Ok(words.chunks_exact(4).map(|it| u32::from_le_bytes(it.try_into().expect("four bytes"))).collect())
    }
}

/// Numbers that follow from a seed, odd in every byte.
struct Garbage(u32);

impl Garbage {
    fn word(&mut self) -> u32 {
        self.0 = self.0.wrapping_mul(1_664_525).wrapping_add(1_013_904_223);
        self.0 | 0x0101_0101
    }

    fn words(&mut self, length: u32) -> Vec<u32> {
        (0..length).map(|_| self.word()).collect()
    }

    fn bytes(&mut self, length: u32) -> Vec<u8> {
        (0..length).map(|_| self.word() as u8).collect()
    }
}

/// How many bytes and words of the work slices are not 0.
fn left(draft: &[u8], table: &[u32], source: &[u32]) -> usize {
    draft.iter().filter(|&&it| it != 0).count() + table.iter().chain(source).filter(|&&it| it != 0).count()
}

fn answer(trees: usize, input: &mut impl Read, output: &mut impl Write) -> io::Result<()> {
    let mut it = Request(input);
    let [seed, room, draft, table, source] = [it.word()?, it.word()?, it.word()?, it.word()?, it.word()?];
    let (kinds, measures, text) = (it.list()?, it.list()?, it.text()?);
    let [operations, counts, rules, targets, listed] = [it.list()?, it.list()?, it.list()?, it.list()?, it.list()?];
    let [inputs, outputs, noted, numbers] = [it.list()?, it.list()?, it.list()?, it.list()?];
    let mut destination = (0..room).map(|at| seed.wrapping_add(at) as u8).collect::<Vec<_>>();
    let mut garbage = Garbage(seed);
    let (mut draft, mut table, mut source) = (garbage.bytes(draft), garbage.words(table), garbage.words(source));
    let lists = Lists {
        trees,
        kinds: &kinds,
        measures: &measures,
        text: &text,
        operations: &operations,
        counts: &counts,
        rules: &rules,
        targets: &targets,
        listed: &listed,
        inputs: &inputs,
        outputs: &outputs,
        noted: &noted,
        numbers: &numbers,
    };
    let work = WriterSlices { draft: &mut draft, table: &mut table, source: &mut source };
    let number = raw::write(lists, &mut destination, work);
    output.write_all(&number.to_le_bytes())?;
    output.write_all(&(left(&draft, &table, &source) as u32).to_le_bytes())?;
    output.write_all(&destination)?;
    output.flush()
}

fn main() -> io::Result<()> {
    let (mut input, mut output) = (BufReader::new(io::stdin().lock()), BufWriter::new(io::stdout().lock()));
    let mut trees = [0; 8];
    while input.read(&mut trees[..1])? != 0 {
        input.read_exact(&mut trees[1..])?;
        answer(u64::from_le_bytes(trees) as usize, &mut input, &mut output)?;
    }
    Ok(())
}
