//! Fires damaged and random inputs at the static libraries:   fire [COUNT [SEED]]   fire --exact COUNT [SEED]
//!
//! First come batches for `edit` and `find_element` (batches.rs), then COUNT rounds of all ten calls for C: in each a good input of every call (inputs.rs) and a damaged
//! copy (damage.rs). Each input is lent twice, every buffer between guards and full of a pattern before, of another one the second time.
//!
//! Checked after each call (calls.rs): the answer is one that the header names, a wrong choice (17, 18) and a short work slice (1) are refused, and nothing else by these
//! numbers; no guard is changed; what is only read is as it was; every work slice is zeros; the result beyond the answer is as it was, and so is the memory of a series
//! beyond what it states; after a refusal both are as they were. Both calls on an input answer alike and leave alike; a shorter result makes no other difference than that
//! it is refused where the answer does not fit.
//!
//! `--exact` gives every buffer an allocation of its own and no guards, for valgrind to see a read or a write beside it.

mod batches;
mod calls;
mod damage;
mod inputs;
mod lend;

use std::{env, fs, path::PathBuf};

use calls::{CALLS, Call, Input, Told};
use damage::{Damage, damaged};
use inputs::Seeds;
use lend::{GUARD, Random, Reader};

/// How often each call came to each answer: by refusal, at 0 what is answered, at the end what is called otherwise.
type Count = [u64; 24];
const OTHER: usize = 23;

struct Rounds {
    seeds: Seeds,
    guard: usize,
    counts: [Count; CALLS.len()],
}

impl Rounds {
    /// A good input of each call, and a damaged copy.
    fn round(&mut self) {
        for (i, call) in CALLS.iter().enumerate() {
            let good = (call.good)(call, &mut self.seeds);
            let answer = self.twice(i, &good).answer;
            let room = if call.short_result.is_some() { answer.max(0) as usize } else { 0 };
            let (input, damage) = damaged(&good, room, &mut self.seeds.random);
            let after = self.twice(i, &input).answer;
            if damage == Damage::Room {
                let expected = if room > input.room { -call.short_result.expect("there is a result") } else { answer };
                assert_eq!(after, expected, "{}: a shorter result makes another difference", call.name);
            }
        }
    }

    fn twice(&mut self, which: usize, input: &Input) -> Told {
        let call = &CALLS[which];
        // No byte of either pattern is zero, and they differ in each.
        let pattern = self.seeds.random.next() as u32 & 0x7f7f_7f7f | 0x0101_0101;
        let told = call.made(input, self.guard, pattern);
        assert!(told == call.made(input, self.guard, !pattern), "{}: two answers to one input", call.name);
        let other = call.other.is_some_and(|it| it.1 == told.answer);
        self.counts[which][if other { OTHER } else { told.answer.min(0).unsigned_abs() as usize }] += 1;
        told
    }
}

fn print(call: &Call, count: &Count) {
    let refused = (1..OTHER).filter(|&it| count[it] > 0).map(|it| format!("{it}: {}", count[it])).collect::<Vec<_>>();
    let other = call.other.map_or(String::new(), |it| format!(", {} {}", count[OTHER], it.0));
    println!("    {}: {} {}{other}; refused {}", call.name, count[0], call.answered, refused.join(", "));
}

/// The batches of the recorded cases (oracle/README.md), of at least 28 bytes and at most `most`.
fn recorded(data: &[u8], most: usize) -> Vec<Vec<u8>> {
    let mut cases = Reader(data);
    let mut batches = Vec::new();
    for _ in 0..cases.word() {
        cases.words(2);
        let length = cases.word();
        batches.push(cases.part(length).to_vec());
        cases.word();
        let result = cases.word();
        cases.part(result);
        let finds = cases.word();
        cases.words(2 * finds);
    }
    batches.retain(|it| (28..=most).contains(&it.len()));
    batches
}

fn main() {
    let mut words = env::args().skip(1).collect::<Vec<_>>();
    let exact = words.first().is_some_and(|it| it == "--exact");
    words.drain(..usize::from(exact));
    let number = |place: usize, otherwise: u64| words.get(place).map_or(otherwise, |it| it.parse().expect("a number"));
    let (count, seed) = (number(0, 100_000), number(1, 1));
    let root = PathBuf::from(concat!(env!("CARGO_MANIFEST_DIR"), "/../.."));
    let read = |path: &str| fs::read(root.join(path)).expect(path);
    let cases = recorded(&read("crates/replay/stdin"), if exact { 1_000 } else { 65_536 });
    let guard = if exact { 0 } else { GUARD };
    let examples = ["examples/printed_case.batch", "examples/dosing.batch", "examples/overlap.batch"];
    let examples = examples[..if exact { 1 } else { 3 }].iter().copied().map(read).collect::<Vec<_>>();
    batches::fire(&examples, &cases, count, seed, guard);
    let mut rounds = Rounds { seeds: Seeds::new(Random(seed), cases), guard, counts: [[0; 24]; CALLS.len()] };
    (0..count).for_each(|_| rounds.round());
    let calls = 2 * rounds.counts.iter().flatten().sum::<u64>();
    println!("{count} rounds of seed {seed}, in each a good and a damaged input of every call, which came to:");
    CALLS.iter().zip(&rounds.counts).for_each(|(call, count)| print(call, count));
    println!("{calls} calls, two on each input, every check held");
}
