//! What the calls leave in every slice, of any length: demand 1, with refusals 1, 13, 14, 15, 17 and 18.

use syntax_edit::{Choices, raw};

const RULE_0: Choices = Choices { edge: 0, stronger: 0 };
const PRINTED_CASE: &[u8] = include_bytes!("../../../examples/printed_case.batch");
const DOSING: &[u8] = include_bytes!("../../../examples/dosing.batch");
const OVERLAP: &[u8] = include_bytes!("../../../examples/overlap.batch");

/// Work memory full of a pattern, in which some slices have other lengths.
fn work(length: impl Fn(usize, usize) -> usize) -> [Vec<u32>; 9] {
    std::array::from_fn(|i| vec![0xdead_beef; length(i, raw::LENGTHS[i])])
}

fn lent(work: &mut [Vec<u32>; 9]) -> raw::Slices<'_> {
    work.each_mut().map(Vec::as_mut_slice)
}

fn assert_zeros(work: &[Vec<u32>; 9]) {
    assert!(work.iter().flatten().all(|&it| it == 0));
}

#[test]
fn an_answer_leaves_the_rest_of_the_result() {
    for batch in [PRINTED_CASE, DOSING] {
        let mut memory = work(|_, least| least);
        let mut result = vec![0xa5; 65_536];
        let length = raw::edit(RULE_0, batch, &mut result, lent(&mut memory));
        assert!((24..=65_560).contains(&length));
        assert!(result[length as usize..].iter().all(|&it| it == 0xa5));
        assert_zeros(&memory);

        // Just enough room, with nothing beyond it; and one byte less, which is 13 and writes nothing.
        let mut exact = vec![0; length as usize];
        assert_eq!(raw::edit(RULE_0, batch, &mut exact, lent(&mut memory)), length);
        assert_eq!(exact, result[..length as usize]);
        for room in 0..length as usize {
            let mut short = vec![0x5a; room];
            assert_eq!(raw::edit(RULE_0, batch, &mut short, lent(&mut memory)), -13);
            assert!(short.iter().all(|&it| it == 0x5a));
        }
    }
}

#[test]
fn a_refusal_leaves_the_result() {
    let mut memory = work(|_, least| least);
    let mut result = vec![0xa5; 1_000];
    assert_eq!(raw::edit(RULE_0, OVERLAP, &mut result, lent(&mut memory)), -8);
    assert_eq!(raw::edit(RULE_0, &[], &mut result, lent(&mut memory)), -2);
    assert_eq!(raw::edit(RULE_0, &[7; 1_000], &mut result, lent(&mut memory)), -3);
    assert!(result.iter().all(|&it| it == 0xa5));
    assert_zeros(&memory);
}

#[test]
fn an_account_leaves_the_rest_of_the_result() {
    for (batch, text) in [(PRINTED_CASE, "0 own\n"), (OVERLAP, "overlap 0 1\n")] {
        let mut memory = work(|_, least| least);
        let mut result = vec![0xa5; 1_000];
        assert_eq!(raw::account(RULE_0, batch, &mut result, lent(&mut memory)), text.len() as i64);
        assert_eq!(&result[..text.len()], text.as_bytes());
        assert!(result[text.len()..].iter().all(|&it| it == 0xa5));
        assert_zeros(&memory);
        for room in 0..text.len() {
            let mut short = vec![0x5a; room];
            assert_eq!(raw::account(RULE_0, batch, &mut short, lent(&mut memory)), -13);
            assert!(short.iter().all(|&it| it == 0x5a));
        }
        let mut memory = work(|i, least| if i == 2 { least - 1 } else { least });
        assert_eq!(raw::account(RULE_0, batch, &mut result, lent(&mut memory)), -1);
        assert_zeros(&memory);
    }
}

#[test]
fn a_short_work_slice_is_refused_and_cleared() {
    for short in 0..raw::LENGTHS.len() {
        for length in [0, 1, raw::LENGTHS[short] - 1] {
            let mut memory = work(|i, least| if i == short { length } else { least });
            let mut result = vec![0xa5; 1_000];
            assert_eq!(raw::edit(RULE_0, PRINTED_CASE, &mut result, lent(&mut memory)), -1);
            assert!(result.iter().all(|&it| it == 0xa5));
            assert_zeros(&memory);
            let mut memory = work(|i, least| if i == short { length } else { least });
            assert_eq!(raw::find_element(RULE_0, PRINTED_CASE, 0, lent(&mut memory)), -1);
            assert_zeros(&memory);
        }
    }
}

#[test]
fn a_wrong_edge_rule_is_refused_first_and_then_a_wrong_choice() {
    for (edge, stronger, told) in [
        (0, 0, -1),
        (1, 0, -1),
        (0, 1, -1),
        (1, 1, -1),
        (2, 0, -17),
        (u64::MAX, 1, -17),
        (2, 2, -17),
        (u64::MAX, u64::MAX, -17),
        (0, 2, -18),
        (1, 10, -18),
        (1, u64::MAX, -18),
    ] {
        let choices = Choices { edge, stronger };
        let mut result = vec![0xa5; 1_000];
        let calls: [&dyn Fn(&mut [u8], raw::Slices<'_>) -> i64; 5] = [
            &|result, work| raw::edit(choices, &[], result, work),
            &|result, work| raw::account(choices, &[], result, work),
            &|result, work| raw::kept(choices, &[], result, work),
            &|_, work| raw::find_element(choices, &[], 0, work),
            &|_, work| raw::share(choices, &[], work),
        ];
        for call in calls {
            let mut memory = work(|i, least| if i == 4 { least - 1 } else { least });
            assert_eq!(call(&mut result, lent(&mut memory)), told);
            assert_zeros(&memory);
        }
        assert!(result.iter().all(|&it| it == 0xa5));
    }
}

#[test]
fn a_longer_work_slice_is_cleared_whole() {
    let mut memory = work(|i, least| least + 1 + 100 * i);
    let mut result = vec![0xa5; 1_000];
    assert!(raw::edit(RULE_0, PRINTED_CASE, &mut result, lent(&mut memory)) > 0);
    assert_zeros(&memory);
    let mut memory = work(|i, least| least + 1 + 100 * i);
    assert_eq!(raw::find_element(RULE_0, PRINTED_CASE, 0, lent(&mut memory)), 0);
    assert_zeros(&memory);
    for number in [1, 3, 5, u64::MAX] {
        assert_eq!(raw::find_element(RULE_0, PRINTED_CASE, number, lent(&mut memory)), raw::NONE);
    }
}

/// The printed case as lists.
const LISTS: raw::Lists<'static> = raw::Lists {
    trees: 2,
    kinds: &[1 << 31 | 1, 2, 3, 1 << 31 | 1, 4],
    measures: &[2, 1, 1, 1, 1],
    text: b"abc",
    operations: &[1],
    counts: &[1],
    rules: &[0],
    targets: &[1],
    listed: &[4],
    inputs: &[],
    outputs: &[],
    noted: &[4],
    numbers: &[9],
};

/// What the writer tells and leaves in a destination of `room` bytes; the work slices are longer or shorter than they need to be by these numbers.
fn written(lists: raw::Lists<'_>, room: usize, more: [isize; 3]) -> (i64, Vec<u8>) {
    let length = |least: usize, more: isize| least.saturating_add_signed(more);
    let mut destination = vec![0xa5; room];
    let mut draft = vec![0xa5; length(raw::DRAFT, more[0])];
    let mut table = vec![0xdead_beef; length(raw::LENGTHS[0], more[1])];
    let mut source = vec![0xdead_beef; length(raw::LENGTHS[1], more[2])];
    let work = raw::WriterSlices { draft: &mut draft, table: &mut table, source: &mut source };
    let told = raw::write(lists, &mut destination, work);
    assert!(draft.iter().all(|&it| it == 0) && table.iter().chain(&source).all(|&it| it == 0));
    (told, destination)
}

#[test]
fn a_batch_leaves_the_rest_of_the_destination() {
    for (room, more) in [(91, [0; 3]), (92, [1, 7, 100]), (65_536, [0; 3])] {
        let (told, destination) = written(LISTS, room, more);
        assert_eq!(told, 91);
        assert_eq!(destination[..91], *PRINTED_CASE);
        assert!(destination[91..].iter().all(|&it| it == 0xa5));
    }
}

/// The call word is the one behind the sizes and two arrays of five: operation 1, one listed element, and the number.
#[test]
fn a_rule_number_goes_into_the_call_word() {
    for rule in [0, 1, 255, 256, 4_094, 4_095] {
        let (told, destination) = written(raw::Lists { rules: &[rule], ..LISTS }, 91, [0; 3]);
        let mut wanted = PRINTED_CASE.to_vec();
        wanted[68..72].copy_from_slice(&(1 | 1 << 8 | rule << 20).to_le_bytes());
        assert_eq!((told, destination), (91, wanted));
    }
}

#[test]
fn a_refused_write_leaves_the_destination() {
    let refused = |lists, room, more, number: i64| {
        let (told, destination) = written(lists, room, more);
        assert_eq!(told, -number);
        assert!(destination.iter().all(|&it| it == 0xa5));
    };
    for room in 0..91 {
        refused(LISTS, room, [0; 3], 15);
    }
    for short in [-1, isize::MIN] {
        for more in [[short, 0, 0], [0, short, 0], [0, 0, short]] {
            refused(LISTS, 91, more, 1);
            refused(raw::Lists::default(), 0, more, 1);
        }
    }
    // 14 comes before 15: lists out of step, parts that do not fit their word, sizes out of their limits, what lines 5 to 7 refuse.
    for lists in [
        raw::Lists { measures: &[2, 1, 1, 1], ..LISTS },
        raw::Lists { counts: &[], ..LISTS },
        raw::Lists { rules: &[], ..LISTS },
        raw::Lists { targets: &[1, 1], ..LISTS },
        raw::Lists { outputs: &[0], ..LISTS },
        raw::Lists { numbers: &[], ..LISTS },
        raw::Lists { operations: &[257], counts: &[0], listed: &[4], ..LISTS },
        raw::Lists { counts: &[1 << 12 | 1], ..LISTS },
        raw::Lists { rules: &[4_096], ..LISTS },
        raw::Lists { rules: &[u32::MAX], ..LISTS },
        raw::Lists { rules: &[0, 0], ..LISTS },
        raw::Lists { operations: &[6], counts: &[0], rules: &[1], targets: &[0], listed: &[], ..LISTS },
        raw::Lists { trees: 1 << 32 | 2, ..LISTS },
        raw::Lists { text: &[0; 16_385], ..LISTS },
        raw::Lists { trees: 3, ..LISTS },
        raw::Lists { targets: &[0], ..LISTS },
        raw::Lists { noted: &[5], ..LISTS },
        raw::Lists::default(),
    ] {
        refused(lists, 91, [0; 3], 14);
        refused(lists, 0, [0; 3], 14);
    }
}

#[test]
fn a_share_leaves_its_work_as_zeros() {
    for (batch, told) in [(DOSING, 513 * 65_536 + 19), (OVERLAP, -8), (&[][..], -2)] {
        let mut memory = work(|_, least| least);
        assert_eq!(raw::share(RULE_0, batch, lent(&mut memory)), told);
        assert_zeros(&memory);
        let mut memory = work(|i, least| if i == 4 { least - 1 } else { least });
        assert_eq!(raw::share(RULE_0, batch, lent(&mut memory)), -1);
        assert_zeros(&memory);
    }
}

#[test]
fn pairs_stand_at_the_front_or_nothing_is_written() {
    for (batch, pairs) in [(PRINTED_CASE, &[0u32, 1, 2, 0, 1, 3][..])] {
        let length = 4 * pairs.len();
        for room in 0..length + 9 {
            let mut result = vec![0xa5; room];
            let mut memory = work(|_, least| least);
            let told = raw::kept(RULE_0, batch, &mut result, lent(&mut memory));
            assert_zeros(&memory);
            if room < length {
                assert_eq!(told, -13);
                assert!(result.iter().all(|&it| it == 0xa5));
            } else {
                assert_eq!(told, length as i64);
                assert!(result[..length].chunks_exact(4).zip(pairs).all(|(it, pair)| it == pair.to_le_bytes()));
                assert!(result[length..].iter().all(|&it| it == 0xa5));
            }
        }
    }
    for (batch, told) in [(OVERLAP, -8), (&[][..], -2)] {
        let mut result = vec![0xa5; 1_000];
        let mut memory = work(|_, least| least);
        assert_eq!(raw::kept(RULE_0, batch, &mut result, lent(&mut memory)), told);
        assert_zeros(&memory);
        let mut memory = work(|i, least| if i == 6 { least - 1 } else { least });
        assert_eq!(raw::kept(RULE_0, batch, &mut result, lent(&mut memory)), -1);
        assert_zeros(&memory);
        assert!(result.iter().all(|&it| it == 0xa5));
    }
}

#[test]
fn a_load_leaves_the_rest_of_the_destination() {
    let mut work = raw::WriterWork::new();
    let mut destination = vec![0xa5; raw::MOST_LOAD + 9];
    let length = raw::load(u32::MAX, &mut destination, work.slices()) as usize;
    assert!(destination[length..].iter().all(|&it| it == 0xa5));
    let mut short = vec![0x5a; length - 1];
    assert_eq!(raw::load(u32::MAX, &mut short, work.slices()), -15);
    assert!(short.iter().all(|&it| it == 0x5a));
    let mut result = vec![0; 65_560];
    let mut memory = raw::Work::new();
    assert!(raw::edit(RULE_0, &destination[..length], &mut result, memory.slices()) > 0);
}
