//! The checker: accepted and rejected claims, a claim for each clause that breaks it alone, every refusal, and what is left in every work slice.

use syntax_edit::{Checker, Claim, Editor, Flat, raw};

const NODE: u32 = 1 << 31;
const PRINTED_CASE: &[u8] = include_bytes!("../../../examples/printed_case.batch");
const CHECKED: &[u8] = include_bytes!("../../../examples/dosing_checked.claim");
const DROPPED: &[u8] = include_bytes!("../../../examples/dosing_dropped.claim");

/// root(X(a), b) became root(X(a), c, b).
const RIGHT: Claim<'static> = Claim {
    old: Flat { kinds: &[NODE | 1, NODE | 2, 3, 3], measures: &[2, 1, 1, 1], text: b"ab" },
    new: Flat { kinds: &[NODE | 1, NODE | 2, 3, 3, 3], measures: &[3, 1, 1, 1, 1], text: b"acb" },
    olds: &[0, 1, 2, 3],
    news: &[0, 1, 2, 4],
    changed: &[3],
};

/// root(a, a) stays.
const TWINS: Flat<'static> = Flat { kinds: &[NODE | 1, 3, 3], measures: &[2, 1, 1], text: b"aa" };

/// What the call tells of a claim; its work slices, full of a pattern, are longer or shorter than they need to be by these numbers.
fn told_with(claim: &Claim<'_>, more: [isize; 4]) -> i64 {
    let mut work: [Vec<u32>; 4] = std::array::from_fn(|i| vec![0xdead_beef; raw::CHECKER_LENGTHS[i].saturating_add_signed(more[i])]);
    let told = raw::check(claim, work.each_mut().map(Vec::as_mut_slice));
    assert!(work.iter().flatten().all(|&it| it == 0));
    told
}

/// What the call tells and what a checker says, which agree.
fn told(claim: &Claim<'_>) -> i64 {
    let told = told_with(claim, [0; 4]);
    assert_eq!(told_with(claim, [1, 100, 7, 4_096]), told);
    let said = Checker::new().check(claim).map_err(|it| it.number());
    assert_eq!(said, if told < 0 { Err((-told) as u8) } else { Ok(told == 1) });
    told
}

fn words(bytes: &[u8]) -> Vec<u32> {
    bytes.chunks_exact(4).map(|it| u32::from_le_bytes(it.try_into().expect("four bytes"))).collect()
}

/// What the call tells of claims that are laid out as the program reads them.
fn told_of(bytes: &[u8]) -> i64 {
    let (head, rest) = bytes.split_at(32);
    let sizes = words(head).iter().map(|&it| it as usize).collect::<Vec<_>>();
    let [a, b, c, d, e, _, pairs, changed] = sizes[..] else { panic!("eight sizes") };
    let lists = words(&rest[..4 * (a + b + d + e + 2 * pairs + changed)]);
    let text = &rest[4 * lists.len()..];
    let mut at = 0;
    let [old_kinds, old_measures, new_kinds, new_measures, olds, news, changed] = [a, b, d, e, pairs, pairs, changed].map(|length| {
        at += length;
        &lists[at - length..at]
    });
    let old = Flat { kinds: old_kinds, measures: old_measures, text: &text[..c] };
    let new = Flat { kinds: new_kinds, measures: new_measures, text: &text[c..] };
    told(&Claim { old, new, olds, news, changed })
}

#[test]
fn accepted() {
    assert_eq!(told(&RIGHT), 1);
    assert_eq!(told(&Claim { changed: &[3, 3], ..RIGHT }), 1);
    assert_eq!(told(&Claim { olds: &[3, 2, 1, 0], news: &[4, 2, 1, 0], ..RIGHT }), 1);
    assert_eq!(told(&Claim { old: TWINS, new: TWINS, olds: &[0, 1, 2], news: &[0, 1, 2], changed: &[] }), 1);
    assert_eq!(told_of(CHECKED), 1);
}

/// What the editor answers, with the elements that it kept, is accepted.
#[test]
fn our_own_output() {
    let mut editor = Editor::new();
    let (olds, news) = editor.kept_bytes(PRINTED_CASE).expect("it is accepted").into_iter().unzip::<_, _, Vec<_>, Vec<_>>();
    assert_eq!((&olds[..], &news[..]), (&[0, 1, 2][..], &[0, 1, 3][..]));
    let answer = editor.edit_bytes(PRINTED_CASE).expect("it is accepted");
    let kinds =
        answer.elements().map(|it| u32::from(it.kind())).enumerate().map(|(i, kind)| if i == 0 { NODE | kind } else { kind }).collect::<Vec<_>>();
    let measures = answer.elements().map(|it| it.measure() as u32).collect::<Vec<_>>();
    let changed = answer.changed().collect::<Vec<_>>();
    let claim = Claim {
        old: Flat { kinds: &[NODE | 1, 2, 3], measures: &[2, 1, 1], text: b"ab" },
        new: Flat { kinds: &kinds, measures: &measures, text: answer.text() },
        olds: &olds,
        news: &news,
        changed: &changed,
    };
    assert_eq!(told(&claim), 1);
    assert_eq!(told(&Claim { changed: &[], ..claim }), 0);
}

/// Each breaks one clause and no other.
#[test]
fn rejected_by_each_clause() {
    let another_kind = Flat { kinds: &[NODE | 1, NODE | 2, 3, 3, 4], ..RIGHT.new };
    let copied = Flat { text: b"aab", ..RIGHT.new };
    for (clause, claim) in [
        (1, Claim { olds: &[], news: &[], changed: &[0], ..RIGHT }),
        (2, Claim { olds: &[0, 1, 2, 3, 3], news: &[0, 1, 2, 4, 4], ..RIGHT }),
        (3, Claim { new: another_kind, ..RIGHT }),
        (3, Claim { new: Flat { text: b"acd", ..RIGHT.new }, ..RIGHT }),
        (4, Claim { new: copied, news: &[0, 1, 3, 4], changed: &[2], ..RIGHT }),
        (5, Claim { old: TWINS, new: TWINS, olds: &[0, 1, 2], news: &[0, 2, 1], changed: &[] }),
        (6, Claim { changed: &[], ..RIGHT }),
        (6, Claim { changed: &[3, 4], ..RIGHT }),
        (6, Claim { changed: &[0], ..RIGHT }),
    ] {
        assert_eq!(told(&claim), 0, "clause {clause}");
    }
    assert_eq!(told_of(DROPPED), 0);
}

/// 1: the first thing that is looked at.
#[test]
fn a_short_work_slice() {
    for short in 0..4 {
        for less in [-1, -4_000, isize::MIN] {
            let more = std::array::from_fn(|i| if i == short { less } else { 0 });
            assert_eq!(told_with(&RIGHT, more), -1);
            assert_eq!(told_with(&Claim::default(), more), -1);
            assert_eq!(told_with(&Claim { olds: &[0; 5_000], ..RIGHT }, more), -1);
        }
    }
}

/// A root of so many empty tokens.
fn wide(tokens: usize) -> (Vec<u32>, Vec<u32>) {
    let kinds = std::iter::once(NODE | 1).chain(std::iter::repeat_n(2, tokens)).collect();
    let measures = std::iter::once(tokens as u32).chain(std::iter::repeat_n(0, tokens)).collect();
    (kinds, measures)
}

/// 3 is over 4,096 elements or 16,384 bytes of text, whichever list says so, of either tree; it comes before 4.
#[test]
fn trees_beyond_their_limits() {
    let (kinds, measures) = wide(4_095);
    let most = Flat { kinds: &kinds, measures: &measures, text: &[] };
    let numbers = (0..4_096).collect::<Vec<_>>();
    assert_eq!(told(&Claim { old: most, new: most, olds: &numbers, news: &numbers, changed: &[] }), 1);
    let long = vec![b'a'; 16_384];
    let full = Flat { kinds: &[NODE | 1, 2], measures: &[1, 16_384], text: &long };
    assert_eq!(told(&Claim { old: full, new: full, olds: &[0, 1], news: &[0, 1], changed: &[] }), 1);

    let (kinds, measures) = wide(4_096);
    let longer = vec![b'a'; 16_385];
    for tree in [
        Flat { kinds: &kinds, measures: &measures, text: &[] },
        Flat { kinds: &kinds, measures: &[], text: &[] },
        Flat { kinds: &[], measures: &measures, text: &[] },
        Flat { kinds: &[NODE | 1, 2], measures: &[1, 16_385], text: &longer },
    ] {
        assert_eq!(told(&Claim { old: tree, ..RIGHT }), -3);
        assert_eq!(told(&Claim { new: tree, olds: &[], ..RIGHT }), -3);
    }
}

/// 4 comes before 5.
#[test]
fn lists_out_of_step() {
    for claim in [
        Claim { old: Flat { measures: &[2, 1, 1], ..RIGHT.old }, ..RIGHT },
        Claim { new: Flat { kinds: &[], ..RIGHT.new }, ..RIGHT },
        Claim { olds: &[0, 1, 2], ..RIGHT },
        Claim { old: Flat::default(), news: &[], ..RIGHT },
    ] {
        assert_eq!(told(&claim), -4);
    }
}

/// 5 comes before 19; a tree of no element is one that is not spelled.
#[test]
fn trees_that_are_not_spelled() {
    for tree in [
        Flat::default(),
        Flat { kinds: &[3], measures: &[1], text: b"a" },
        Flat { measures: &[2, 1, 1, 2], ..RIGHT.old },
        Flat { measures: &[3, 1, 1, 1], ..RIGHT.old },
        Flat { text: b"abc", ..RIGHT.old },
        Flat { kinds: &[NODE | 1, NODE | 2, 1 << 16 | 3, 3], ..RIGHT.old },
    ] {
        assert_eq!(told(&Claim { old: tree, ..RIGHT }), -5);
        assert_eq!(told(&Claim { new: tree, changed: &[9], ..RIGHT }), -5);
    }
}

/// 19 comes before any clause.
#[test]
fn a_claim_that_names_no_element() {
    for claim in [
        Claim { olds: &[0, 1, 2, 4], ..RIGHT },
        Claim { news: &[0, 1, 2, 5], ..RIGHT },
        Claim { changed: &[3, 5], ..RIGHT },
        Claim { olds: &[u32::MAX], news: &[0], changed: &[], ..RIGHT },
    ] {
        assert_eq!(told(&claim), -19);
    }
    let refusal = Checker::new().check(&Claim { changed: &[5], ..RIGHT }).expect_err("there is no element 5");
    assert_eq!(refusal.to_string(), "refused 19: a claim names no element of its tree");
}
