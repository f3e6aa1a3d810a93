//! The recorded cases of the oracle: every byte of every answer, every refusal, every recorded `find_element` call; and each batch taken apart and written
//! again.

use syntax_edit::{Choices, MOST_ANSWER, raw};

const CASES: &[u8] = include_bytes!("../../../crates/replay/stdin");

struct Reader(&'static [u8]);

impl Reader {
    fn part(&mut self, length: usize) -> &'static [u8] {
        let (part, rest) = self.0.split_at(length);
        self.0 = rest;
        part
    }

    fn word(&mut self) -> u32 {
        u32::from_le_bytes(self.part(4).try_into().expect("four bytes"))
    }

    fn bytes(&mut self) -> &'static [u8] {
        let length = self.word();
        self.part(length as usize)
    }
}

#[test]
fn recorded_cases() {
    let mut cases = Reader(CASES);
    let mut work = raw::Work::new();
    let mut result = vec![0; 65_536];
    let mut longest = 0;
    for case in 0..cases.word() {
        let choices = Choices { edge: cases.word().into(), stronger: cases.word().into() };
        let (batch, refusal, expected) = (cases.bytes(), cases.word(), cases.bytes());
        let answer = raw::edit(choices, batch, &mut result, work.slices());
        if refusal == 0 {
            assert_eq!(answer, expected.len() as i64, "case {case}");
            assert!(result[..expected.len()] == *expected, "case {case}");
        } else {
            assert_eq!(answer, -i64::from(refusal), "case {case}");
        }
        if refusal == 13 {
            let mut room = vec![0; MOST_ANSWER];
            let length = raw::edit(choices, batch, &mut room, work.slices());
            assert!((65_537..=65_560).contains(&length), "case {case}");
            longest = longest.max(length);
        }
        for _ in 0..cases.word() {
            let (old, new) = (cases.word(), cases.word());
            let expected = if new == u32::MAX { raw::NONE } else { i64::from(new) };
            assert_eq!(raw::find_element(choices, batch, u64::from(old), work.slices()), expected, "case {case}, element {old}");
        }
    }
    assert!(cases.0.is_empty());
    assert_eq!(longest, MOST_ANSWER as i64);
}

/// A batch taken apart and written again; nothing if its length is not what its sizes give.
fn rewritten(batch: &[u8]) -> Option<Result<Vec<u8>, i64>> {
    let words = batch.chunks_exact(4).map(|it| u32::from_le_bytes(it.try_into().expect("four bytes"))).collect::<Vec<_>>();
    let &[trees, elements, text, calls, listed, mappings, notes] = words.first_chunk()?;
    let [trees, elements, text, calls, listed, mappings, notes] = [trees, elements, text, calls, listed, mappings, notes].map(|it| it as usize);
    if batch.len() != 28 + 4 * (2 * (elements + calls + mappings + notes) + listed) + text {
        return None;
    }
    let mut at = 7;
    let mut part = |count: usize| {
        at += count;
        &words[at - count..at]
    };
    let (kinds, measures, call_words, targets) = (part(elements), part(elements), part(calls), part(calls));
    let (listed, inputs, outputs, noted, numbers) = (part(listed), part(mappings), part(mappings), part(notes), part(notes));
    let (operations, counts): (Vec<_>, Vec<_>) = call_words.iter().map(|it| (it % 256, it / 256 % 4096)).unzip();
    let rules = call_words.iter().map(|it| it >> 20).collect::<Vec<_>>();
    let text = &batch[batch.len() - text..];
    let lists = raw::Lists {
        trees,
        kinds,
        measures,
        text,
        operations: &operations,
        counts: &counts,
        rules: &rules,
        targets,
        listed,
        inputs,
        outputs,
        noted,
        numbers,
    };
    let mut bytes = vec![0; raw::DRAFT];
    Some(match raw::write(lists, &mut bytes, raw::WriterWork::new().slices()) {
        refused @ ..0 => Err(-refused),
        length => Ok(bytes[..length as usize].to_vec()),
    })
}

#[test]
fn recorded_batches_written_again() {
    let mut cases = Reader(CASES);
    for case in 0..cases.word() {
        (cases.word(), cases.word());
        let (batch, refusal, _) = (cases.bytes(), cases.word(), cases.bytes());
        match (refusal, rewritten(batch)) {
            (2..=4, None) | (3 | 5..=7 | 16, Some(Err(14))) => {}
            (2..=7 | 16, _) => panic!("case {case}"),
            (_, again) => assert!(again == Some(Ok(batch.to_vec())), "case {case}"),
        }
        for _ in 0..cases.word() {
            (cases.word(), cases.word());
        }
    }
}
