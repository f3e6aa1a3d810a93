//! Damaged and random batches for `edit` and `find_element`.
//!
//! Work slices are of the lengths needed, longer or too short, and a result is of any length. Beside what main.rs says, each batch gets the same answer by two calls,
//! and `find_element` is refused as `edit` is. First come all prefixes and single-byte changes of examples, then random batches: recorded cases with some words changed,
//! parts of two joined, and random bytes.

use syntax_edit::{Answer, Choices, MOST_ANSWER, raw};

use crate::lend::{Buffer, Random, all};

/// What a call did, for the table at the end: 0 accepted, else the refusal.
struct Fire {
    random: Random,
    guard: usize,
    told: [u64; 19],
    calls: u64,
}

impl Fire {
    /// The work slices: mostly of the lengths needed, sometimes longer, seldom one too short.
    fn work(&mut self, pattern: u32) -> [Buffer<u32>; 9] {
        let (longer, short) = (self.random.one_in(8), self.random.one_in(40).then(|| self.random.below(raw::LENGTHS.len())));
        std::array::from_fn(|i| {
            let least = raw::LENGTHS[i];
            let length = match short {
                Some(short) if short == i => self.random.below(least),
                _ if longer => least + self.random.below(50),
                _ => least,
            };
            Buffer::new(length, self.guard, pattern)
        })
    }

    /// Either edge rule, with stronger rules first or without; seldom a wrong number.
    fn choices(&mut self) -> Choices {
        let mut number = || if self.random.one_in(50) { self.random.next().max(2) } else { self.random.below(2) as u64 };
        Choices { edge: number(), stronger: number() }
    }

    /// One call, with every check on memory; the answer's bytes, or the refusal.
    fn call(&mut self, choices: Choices, batch: &[u8], room: usize, pattern: u32) -> Result<Vec<u8>, i64> {
        self.calls += 1;
        let mut work = self.work(pattern);
        let short = work.iter().zip(raw::LENGTHS).any(|(it, least)| it.held().len() < least);
        let mut input = Buffer::new(batch.len(), self.guard, pattern as u8);
        input.lent().copy_from_slice(batch);
        let mut result = Buffer::new(room, self.guard, pattern as u8);
        let answer = raw::edit(choices, input.held(), result.lent(), work.each_mut().map(Buffer::lent));
        assert!(input.held() == batch && input.guards_stand(), "the batch is changed");
        assert!(result.guards_stand(), "a byte beside the result is written");
        assert!(work.iter().all(Buffer::guards_stand), "a word beside a work slice is written");
        assert!(work.iter().all(|it| all(it.held(), 0)), "a work slice is not zeros");
        assert!((-18..=MOST_ANSWER as i64).contains(&answer) && answer != 0, "no answer: {answer}");
        assert_eq!(choices.edge > 1, answer == -17, "a wrong edge rule, and it alone, is refused by 17");
        assert_eq!(choices.edge <= 1 && choices.stronger > 1, answer == -18, "a wrong choice, and it alone, is refused by 18");
        assert_eq!(short && choices.edge.max(choices.stronger) <= 1, answer == -1, "a short work slice, and it alone, is refused by 1");
        let length = usize::try_from(answer).unwrap_or(0);
        assert!(length <= room, "the answer is longer than the result");
        assert!(result.untouched(length), "the result is written beyond the answer");
        if answer < 0 {
            return Err(-answer);
        }
        assert!(Answer::read(&result.held()[..length]).is_some(), "the answer is not as long as its sizes tell");
        Ok(result.held()[..length].to_vec())
    }

    /// `find_element`, with the same checks.
    fn find(&mut self, choices: Choices, batch: &[u8], number: u64) -> i64 {
        let mut work = self.work(0x3c3c_3c3c);
        let mut input = Buffer::new(batch.len(), self.guard, 0x3c);
        input.lent().copy_from_slice(batch);
        let answer = raw::find_element(choices, input.held(), number, work.each_mut().map(Buffer::lent));
        assert!(input.held() == batch && input.guards_stand(), "the batch is changed");
        assert!(work.iter().all(Buffer::guards_stand), "a word beside a work slice is written");
        assert!(work.iter().all(|it| all(it.held(), 0)), "a work slice is not zeros");
        assert!(answer == raw::NONE || (-18..=4_095).contains(&answer), "no answer: {answer}");
        answer
    }

    /// Two calls on a batch, which must agree wherever neither is refused for its slices, and one of `find_element`.
    fn one(&mut self, batch: &[u8]) {
        let room = if self.random.one_in(4) { self.random.below(2_000) } else { MOST_ANSWER };
        let pattern = self.random.next() as u32 | 0x0101_0101;
        let choices = self.choices();
        let first = self.call(choices, batch, room, pattern);
        let exact = first.as_ref().map_or(MOST_ANSWER, Vec::len);
        let second = self.call(choices, batch, exact, !pattern);
        let slices = |it: &Result<Vec<u8>, i64>| matches!(it, Err(1 | 13));
        assert!(slices(&first) || slices(&second) || first == second, "two answers to one batch");
        let number = if self.random.one_in(20) { self.random.next() } else { self.random.below(40) as u64 };
        let found = self.find(choices, batch, number);
        match second {
            _ if found == -1 || slices(&second) => (),
            Ok(_) => assert!(found >= 0 || found == raw::NONE, "find_element is refused"),
            Err(refusal) => assert_eq!(found, -refusal, "find_element is refused otherwise"),
        }
        self.told[second.err().unwrap_or(0) as usize] += 1;
    }

    /// All prefixes of a batch, and each of its bytes changed in ten ways.
    fn damage(&mut self, batch: &[u8]) {
        (0..=batch.len()).for_each(|length| self.one(&batch[..length]));
        let mut damaged = batch.to_vec();
        for place in 0..batch.len() {
            for change in 0..10 {
                damaged[place] = match change {
                    8 => 0,
                    9 => 0xff,
                    bit => batch[place] ^ 1 << bit,
                };
                self.one(&damaged);
            }
            damaged[place] = batch[place];
        }
    }

    /// Some words of a batch changed to others that may fit there: small numbers, numbers near the sizes, words of the batch itself.
    fn mutated(&mut self, batch: &[u8]) -> Vec<u8> {
        let mut bytes = batch.to_vec();
        for _ in 0..1 + self.random.below(4) {
            let words = bytes.len() / 4;
            let at = 4 * self.random.below(words);
            let from = 4 * self.random.below(words);
            let elements = u32::from_le_bytes(batch[4..8].try_into().expect("four bytes")) as usize;
            let word = match self.random.below(6) {
                0 => self.random.below(8) as u32,
                1 => self.random.below(elements + 2) as u32,
                2 => u32::from_le_bytes(bytes[from..from + 4].try_into().expect("four bytes")),
                3 => (self.random.below(7) + 256 * self.random.below(4) + (self.random.below(3) << 20)) as u32,
                4 => 1 << 31 | self.random.below(5) as u32,
                _ => self.random.next() as u32,
            };
            // Sizes are left alone most of the time: a batch with another size is refused by its length.
            if at >= 28 || self.random.one_in(10) {
                bytes[at..at + 4].copy_from_slice(&word.to_le_bytes());
            }
        }
        bytes
    }

    /// Random bytes; half of the time with sizes that give their length.
    fn noise(&mut self) -> Vec<u8> {
        let sizes = [1 + self.random.below(3), self.random.below(20), self.random.below(20), self.random.below(5), self.random.below(5), 0, 0];
        let length = 28 + 4 * (2 * sizes[1] + 2 * sizes[3] + sizes[4]) + sizes[2];
        let mut bytes = (0..length).map(|_| self.random.next() as u8).collect::<Vec<_>>();
        if self.random.one_in(2) {
            bytes.splice(..28, sizes.into_iter().flat_map(|it| (it as u32).to_le_bytes()));
        }
        bytes
    }

    fn random_batch(&mut self, cases: &[Vec<u8>]) -> Vec<u8> {
        let case = &cases[self.random.below(cases.len())];
        match self.random.below(10) {
            0 => self.noise(),
            1 => {
                let other = &cases[self.random.below(cases.len())];
                let (a, b) = (self.random.below(case.len() + 1), self.random.below(other.len() + 1));
                [&case[..a], &other[b..]].concat()
            }
            2 => case.clone(),
            _ => self.mutated(case),
        }
    }
}

/// All prefixes and single-byte changes of the examples, then this many random batches.
pub fn fire(examples: &[Vec<u8>], cases: &[Vec<u8>], count: u64, seed: u64, guard: usize) {
    let mut fire = Fire { random: Random(seed), guard, told: [0; 19], calls: 0 };
    examples.iter().for_each(|it| fire.damage(it));
    println!("{} calls on prefixes and single-byte changes of {} batches", fire.calls, examples.len());
    for _ in 0..count {
        let batch = fire.random_batch(cases);
        fire.one(&batch);
    }
    println!("{count} random batches of seed {seed}; by answer, a short work slice and a short result among them:");
    for (refusal, times) in fire.told.iter().enumerate().filter(|it| *it.1 > 0) {
        let what = if refusal == 0 { "accepted".to_owned() } else { format!("refused {refusal}") };
        println!("{times:9}  {what}");
    }
    println!("{} calls of edit and half as many of find_element, every check held", fire.calls);
}
