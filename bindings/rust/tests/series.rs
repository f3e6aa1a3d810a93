//! A series of edits: bookmarks that follow, are dropped or stay, every refusal of the two calls, and what they leave in every slice.

use syntax_edit::{BatchBuilder, Choices, Flat, Refusal, Series, raw};

const NODE: u32 = 1 << 31;
const RULE_0: Choices = Choices { edge: 0, stronger: 0 };

/// root(P(a, z), b), z a node without children: P is element 1, a 2, z 3, b 4.
const TREE: Flat<'static> = Flat { kinds: &[NODE | 1, NODE | 2, 3, NODE | 2, 3], measures: &[2, 2, 1, 0, 1], text: b"ab" };

/// A bookmark on each element: the root 7, P 3, a 9, z 4, b 5.
const ALL: [(u32, &[u32]); 5] = [(7, &[]), (3, &[0]), (9, &[0, 0]), (4, &[0, 1]), (5, &[1])];

/// A batch on this tree, beside trees that lend c (element 1 of its tree) and a node around d: their roots' numbers go to `calls`.
fn on(tree: Flat<'_>, calls: impl FnOnce(&mut BatchBuilder, u32, u32)) -> Vec<u8> {
    let mut batch = BatchBuilder::new();
    batch.tree(&tree);
    let c = batch.tree(&Flat { kinds: &[NODE | 5, 3], measures: &[1, 1], text: b"c" });
    let d = batch.tree(&Flat { kinds: &[NODE | 5, 3], measures: &[1, 1], text: b"d" });
    calls(&mut batch, c, d);
    batch.finish().expect("it is well formed").bytes().to_vec()
}

/// A series on the tree with all bookmarks.
fn started() -> Series {
    Series::start(TREE, &ALL).expect("it may begin")
}

/// A batch on the present tree of a series.
fn on_present(series: &Series, calls: impl FnOnce(&mut BatchBuilder, u32, u32)) -> Vec<u8> {
    on(Flat { kinds: &series.kinds(), measures: &series.measures(), text: series.text() }, calls)
}

#[test]
fn what_was_begun_with_is_held() {
    let series = started();
    assert_eq!((&series.kinds()[..], &series.measures()[..], series.text()), (TREE.kinds, TREE.measures, TREE.text));
    assert_eq!(series.bookmarks(), ALL);
    assert_eq!(Series::start(TREE, &[]).expect("none is fine").bookmarks(), []);
}

#[test]
fn a_bookmark_follows_an_insertion_before_it() {
    let mut series = started();
    let answer = series.follow_bytes(RULE_0, &on(TREE, |it, c, _| it.insert_after(2, &[c + 1]))).expect("it is accepted");
    assert_eq!(answer.text(), b"acb");
    assert_eq!(series.text(), b"acb");
    assert_eq!(series.bookmarks(), [(7, &[][..]), (3, &[0]), (9, &[0, 0]), (4, &[0, 2]), (5, &[1])]);
    // .. and the next batch, on the tree that this one left.
    let next = on_present(&series, |it, c, _| it.insert_first(0, &[c]));
    series.follow_bytes(RULE_0, &next).expect("it is accepted");
    assert_eq!(series.text(), b"cacb");
    assert_eq!(series.bookmarks(), [(7, &[][..]), (3, &[1]), (9, &[1, 0]), (4, &[1, 2]), (5, &[2])]);
}

#[test]
fn a_bookmark_drops_with_a_deleted_node() {
    let mut series = started();
    series.follow_bytes(RULE_0, &on(TREE, |it, _, _| it.delete(1))).expect("it is accepted");
    assert_eq!(series.bookmarks(), [(7, &[][..]), (5, &[0])]);
    // A copy put in its place brings none of them back, nor does it take them along.
    let mut series = started();
    series
        .follow_bytes(
            RULE_0,
            &on(TREE, |it, _, _| {
                it.insert_after(4, &[1]);
                it.delete(1);
            }),
        )
        .expect("it is accepted");
    assert_eq!(series.bookmarks(), [(7, &[][..]), (5, &[0])]);
    // All else is refused: the survivors stay, in their order.
    assert_eq!(series.follow_bytes(RULE_0, &on(TREE, |_, _, _| ())).err().map(Refusal::number), Some(22));
    assert_eq!(series.bookmarks(), [(7, &[][..]), (5, &[0])]);
}

#[test]
fn a_replaced_root_drops_all() {
    for by_itself in [false, true] {
        let mut series = started();
        series.follow_bytes(RULE_0, &on(TREE, |it, c, _| it.replace(0, if by_itself { 0 } else { c }))).expect("it is accepted");
        assert_eq!(series.bookmarks(), []);
        assert_eq!(series.text(), if by_itself { &b"ab"[..] } else { b"c" });
    }
}

/// c goes in before the run a..z is deleted, which then is three children long: paths move by places of that moment, not of the old tree.
#[test]
fn steps_move_paths_at_their_moment() {
    let mut series = started();
    let batch = on(TREE, |it, c, d| {
        it.replace_all(2, 3, &[]);
        it.replace(4, d + 1);
        it.insert_after(2, &[c + 1]);
    });
    assert_eq!(series.follow_bytes(RULE_0, &batch).expect("it is accepted").text(), b"d");
    assert_eq!(series.bookmarks(), [(7, &[][..]), (3, &[0])]);
}

#[test]
fn survivors_keep_their_order() {
    let mixed: [(u32, &[u32]); 5] = [(5, &[1]), (9, &[0, 0]), (7, &[]), (0, &[0, 1]), (u32::MAX, &[0])];
    let mut series = Series::start(TREE, &mixed).expect("it may begin");
    series.follow_bytes(RULE_0, &on(TREE, |it, _, _| it.delete(2))).expect("it is accepted");
    assert_eq!(series.bookmarks(), [(5, &[1][..]), (7, &[]), (0, &[0, 0]), (u32::MAX, &[0])]);
}

/// Two bookmarks on one element, and as many as there may be.
#[test]
fn the_most_bookmarks() {
    let all = (0..256).map(|number| (number, &[0, 1][..])).collect::<Vec<_>>();
    let mut series = Series::start(TREE, &all).expect("it may begin");
    series.follow_bytes(RULE_0, &on(TREE, |it, c, _| it.insert_after(2, &[c]))).expect("it is accepted");
    assert_eq!(series.bookmarks(), (0..256).map(|number| (number, &[0, 2][..])).collect::<Vec<_>>());
    series.follow_bytes(RULE_0, &on_present(&series, |it, _, _| it.delete(1))).expect("it is accepted");
    assert_eq!(series.bookmarks(), []);
}

/// A root of so many empty tokens.
fn wide(tokens: usize) -> (Vec<u32>, Vec<u32>) {
    let kinds = std::iter::once(NODE | 1).chain(std::iter::repeat_n(2, tokens)).collect();
    let measures = std::iter::once(tokens as u32).chain(std::iter::repeat_n(0, tokens)).collect();
    (kinds, measures)
}

fn refused(tree: Flat<'_>, bookmarks: &[(u32, &[u32])]) -> Option<u8> {
    Series::start(tree, bookmarks).err().map(Refusal::number)
}

#[test]
fn starts_that_are_refused() {
    let (kinds, measures) = wide(2_047);
    assert_eq!(refused(Flat { kinds: &kinds, measures: &measures, text: b"" }, &[]), None);
    let (kinds, measures) = wide(2_048);
    for (kinds, measures) in [(&kinds[..], &measures[..]), (&kinds, &[]), (&[], &measures)] {
        assert_eq!(refused(Flat { kinds, measures, text: b"" }, &ALL), Some(3));
    }
    assert_eq!(refused(Flat { kinds: &[NODE | 1, 2], measures: &[1, 16_385], text: &[b'x'; 16_385] }, &[]), Some(3));
    assert_eq!(refused(Flat { kinds: &[NODE | 1, 2], measures: &[1, 16_384], text: &[b'x'; 16_384] }, &[(1, &[0])]), None);
    assert_eq!(refused(Flat { measures: &[2, 2, 1, 0], ..TREE }, &[(1, &[]), (1, &[])]), Some(4));
    assert_eq!(refused(Flat { kinds: &[NODE | 1], ..TREE }, &[]), Some(4));
    for tree in [
        Flat::default(),
        Flat { measures: &[2, 2, 1, 0, 2], ..TREE },
        Flat { text: b"abc", ..TREE },
        Flat { kinds: &[3], measures: &[2], text: b"ab" },
    ] {
        assert_eq!(refused(tree, &[(1, &[]), (1, &[])]), Some(5));
    }
    assert_eq!(refused(TREE, &[(1, &[5]), (2, &[]), (1, &[0])]), Some(20));
    let many = (0..257).map(|number| (number, &[][..])).collect::<Vec<_>>();
    assert_eq!((refused(TREE, &many), refused(TREE, &many[1..])), (Some(20), None));
    for path in [&[2][..], &[0, 2], &[0, 0, 0], &[u32::MAX], &[1, 0], &[0; 63], &[0; 64], &[0; 5_000]] {
        assert_eq!(refused(TREE, &[(1, &[0]), (2, path)]), Some(21));
    }
    let refusal = Series::start(TREE, &[(2, &[2])]).err().expect("there is no such element");
    assert_eq!(refusal.to_string(), "refused 21: the path of a bookmark finds no element");
}

/// The deepest path has 63 child numbers.
#[test]
fn the_longest_path() {
    let deepest = [0; 63];
    for (depth, refusal) in [(64, None), (65, Some(5))] {
        let kinds = vec![NODE | 1; depth];
        let measures = (1..=depth).map(|it| u32::from(it < depth)).collect::<Vec<_>>();
        let tree = Flat { kinds: &kinds, measures: &measures, text: b"" };
        assert_eq!(refused(tree, &[(1, &deepest)]), refusal);
        if refusal.is_some() {
            continue;
        }
        let mut series = Series::start(tree, &[(1, &deepest)]).expect("it may begin");
        series.follow_bytes(RULE_0, &on(tree, |it, c, _| it.insert_first(62, &[c + 1]))).expect("it is accepted");
        let mut moved = deepest;
        moved[62] = 1;
        assert_eq!(series.bookmarks(), [(1, &moved[..])]);
    }
}

/// A tree that is left with more than 2,048 elements is no batch's tree.
#[test]
fn a_tree_that_outgrows_batches() {
    let (kinds, measures) = wide(1_500);
    let tree = Flat { kinds: &kinds, measures: &measures, text: b"" };
    let mut series = Series::start(tree, &[(1, &[1_499])]).expect("it may begin");
    series.follow_bytes(RULE_0, &on(tree, |it, _, _| it.insert_first(0, &[0]))).expect("it is accepted");
    assert_eq!(series.kinds().len(), 3_002);
    assert_eq!(series.bookmarks(), [(1, &[1_500][..])]);
    for batch in [on(tree, |_, _, _| ()), on(TREE, |it, _, _| it.replace(0, 1))] {
        assert_eq!(series.follow_bytes(RULE_0, &batch).err().map(Refusal::number), Some(22));
    }
    assert_eq!(series.bookmarks(), [(1, &[1_500][..])]);
}

// ------------------------------------------------------------------ the calls themselves, over slices of any length

/// The tree as the memory holds it, with so many bytes of a pattern behind it.
fn tree_slice(beyond: usize) -> Vec<u8> {
    let words = [5, 2].iter().chain(TREE.kinds).chain(TREE.measures).flat_map(|it: &u32| it.to_le_bytes());
    words.chain(TREE.text.iter().copied()).chain(std::iter::repeat_n(0xee, beyond)).collect()
}

/// Bookmarks as the memory holds them, what is not stated being a pattern.
fn words_of(bookmarks: &[(u32, &[u32])], beyond: usize) -> Vec<u32> {
    let mut words = vec![0xfeed; 1 + 65 * bookmarks.len() + beyond];
    words[0] = bookmarks.len() as u32;
    for (i, (number, path)) in bookmarks.iter().enumerate() {
        let slot = &mut words[1 + 65 * i..];
        (slot[0], slot[1]) = (*number, path.len() as u32);
        slot[2..2 + path.len()].copy_from_slice(path);
    }
    words
}

/// What a later call returns; its work slices, full of a pattern, are longer or shorter than they need to be by these numbers, and end as zeros.
fn follow_with(choices: Choices, batch: &[u8], tree: &mut [u8], bookmarks: &mut [u32], result: &mut [u8], more: [isize; 9]) -> i64 {
    let mut work: [Vec<u32>; 9] = std::array::from_fn(|i| vec![0xdead_beef; raw::LENGTHS[i].saturating_add_signed(more[i])]);
    let told = raw::series_follow(choices, batch, raw::Memory { tree, bookmarks }, result, work.each_mut().map(Vec::as_mut_slice));
    assert!(work.iter().flatten().all(|&it| it == 0));
    told
}

/// The refusal of a later call, which leaves both slices of the memory and the result as they were.
fn refuses(choices: Choices, batch: &[u8], tree: &[u8], bookmarks: &[u32], room: usize, more: [isize; 9]) -> i64 {
    let (mut lent_tree, mut lent_bookmarks, mut result) = (tree.to_vec(), bookmarks.to_vec(), vec![0xa5; room]);
    let told = follow_with(choices, batch, &mut lent_tree, &mut lent_bookmarks, &mut result, more);
    assert!(told < 0);
    assert_eq!((lent_tree, lent_bookmarks, result), (tree.to_vec(), bookmarks.to_vec(), vec![0xa5; room]));
    -told
}

fn starts(tree: &[u8], bookmarks: &[u32], more: isize) -> i64 {
    let mut rows = vec![0xdead_beef; raw::START_ROWS.saturating_add_signed(more)];
    let told = raw::series_start(tree, bookmarks, &mut rows);
    assert!(rows.iter().all(|&it| it == 0));
    told
}

/// What an accepted call leaves: beyond the answer, the tree and the bookmarks, what was held.
#[test]
fn what_lies_beyond_is_left() {
    let batch = on(TREE, |it, c, _| it.replace_all(2, 3, &[c + 1, c + 1, c + 1]));
    for more in [[0; 9], [1, 2, 3, 4, 5, 6, 7, 8, 9]] {
        let (mut tree, mut bookmarks, mut result) = (tree_slice(100), words_of(&ALL, 7), vec![0xa5; 1_000]);
        let length = follow_with(RULE_0, &batch, &mut tree, &mut bookmarks, &mut result, more);
        assert_eq!(length, 24 + 8 * 6 + 8 * 3 + 4);
        assert!(result[length as usize..].iter().all(|&it| it == 0xa5));
        // The tree has 8 + 8 * 6 + 4 bytes now; it had 8 + 8 * 5 + 2.
        assert_eq!(&tree[..8], [6, 0, 0, 0, 4, 0, 0, 0]);
        assert_eq!(tree[8..56], result[24..72]);
        assert_eq!(&tree[56..60], b"cccb");
        assert!(tree[60..].iter().all(|&it| it == 0xee) && tree.len() == 150);
        // Three survive, in the first three slots; a shorter path leaves the rest of its slot.
        let mut left = words_of(&ALL, 7);
        left[0] = 3;
        left[131..134].copy_from_slice(&[5, 1, 1]);
        assert_eq!(bookmarks, left);
    }
}

/// 13: of the result and of the memory a byte is enough to decide.
#[test]
fn short_slices_are_refused() {
    let batch = on(TREE, |it, c, _| it.insert_after(2, &[c + 1]));
    let words = words_of(&ALL, 0);
    let room = 24 + 8 * 6 + 8 + 3;
    let (mut tree, mut bookmarks, mut result) = (tree_slice(9), words.clone(), vec![0; room]);
    assert_eq!(follow_with(RULE_0, &batch, &mut tree, &mut bookmarks, &mut result, [0; 9]), room as i64);
    for less in [1, room - 1, room] {
        assert_eq!(refuses(RULE_0, &batch, &tree_slice(9), &words, room - less, [0; 9]), 13);
    }
    for beyond in 0..9 {
        assert_eq!(refuses(RULE_0, &batch, &tree_slice(beyond), &words, 1_000, [0; 9]), 13);
    }
}

/// 17, 18, 1, then the memory's own lines, then the batch's, then 22, then 8 and so on.
#[test]
fn refusals_in_order() {
    let (tree, words) = (tree_slice(100), words_of(&ALL, 0));
    let twice = words_of(&[(4, &[0]), (4, &[9])], 0);
    let astray = words_of(&[(4, &[0]), (5, &[2])], 0);
    let overlapping = |it: &mut BatchBuilder, c, d| {
        it.replace(0, c);
        it.replace(1, d);
    };
    let another = on(Flat { text: b"xb", ..TREE }, overlapping);
    let overlap = on(TREE, overlapping);
    let by = |edge, stronger| Choices { edge, stronger };
    let short = |i: usize| std::array::from_fn(|j| if i == j { -1 } else { 0 });
    for (number, choices, batch, tree, words, more) in [
        (17, by(2, 2), &[][..], &[][..], &[][..], short(0)),
        (18, by(1, 2), &[], &[], &[], short(0)),
        (1, RULE_0, &[], &[], &[], short(0)),
        (1, RULE_0, &another, &tree, &twice, short(8)),
        (4, RULE_0, &[], &tree[..7], &twice, [0; 9]),
        (3, RULE_0, &[], &[0x01, 0x10, 0, 0, 0, 0, 0, 0], &twice, [0; 9]),
        (3, RULE_0, &[], &[1, 0, 0, 0, 0x01, 0x40, 0, 0], &[], [0; 9]),
        (4, RULE_0, &[], &tree[..49], &twice, [0; 9]),
        (4, RULE_0, &[], &tree, &[], [0; 9]),
        (4, RULE_0, &[], &tree, &words[..words.len() - 1], [0; 9]),
        (5, RULE_0, &[], &[2, 0, 0, 0, 0, 0, 0, 0, 1, 0, 0, 128, 1, 0, 0, 128, 0, 0, 0, 0, 0, 0, 0, 0], &twice, [0; 9]),
        (20, RULE_0, &[], &tree, &twice, [0; 9]),
        (21, RULE_0, &[], &tree, &astray, [0; 9]),
        (2, RULE_0, &[], &tree, &words, [0; 9]),
        (22, RULE_0, &another, &tree, &words, [0; 9]),
        (8, RULE_0, &overlap, &tree, &words, [0; 9]),
    ] {
        assert_eq!(refuses(choices, batch, tree, words, 300, more), number);
    }
}

/// A first call: 1, then the same lines of the memory, to 2,048 elements.
#[test]
fn first_calls() {
    let (tree, words) = (tree_slice(3), words_of(&ALL, 2));
    assert_eq!((starts(&tree, &words, 0), starts(&tree, &words, 5)), (0, 0));
    for less in [-1, -12_000, isize::MIN] {
        assert_eq!(starts(&[], &[], less), -1);
    }
    assert_eq!(starts(&tree[..7], &words, 0), -4);
    assert_eq!(starts(&[1, 8, 0, 0, 0, 0, 0, 0], &[], 0), -3);
    assert_eq!(starts(&tree[..49], &words, 0), -4);
    assert_eq!(starts(&tree, &[], 0), -4);
    assert_eq!(starts(&tree, &[u32::MAX], 0), -4);
    let mut long = words.clone();
    long[2] = 64;
    assert_eq!(starts(&tree, &long, 0), -21);
    assert_eq!(starts(&tree, &words_of(&[(4, &[0]), (4, &[9])], 0), 0), -20);
}

#[test]
fn refusals_in_words() {
    let mut series = started();
    let other = on(Flat { text: b"xb", ..TREE }, |_, _, _| ());
    let told = series.follow_bytes(RULE_0, &other).err().expect("it is another tree").to_string();
    assert_eq!(told, "refused 22: tree 0 is not the tree that the batch before left");
    let told = Series::start(TREE, &[(1, &[]), (1, &[0])]).err().expect("1 is given twice").to_string();
    assert_eq!(told, "refused 20: there are more than 256 bookmarks, or a number is given twice");
}
