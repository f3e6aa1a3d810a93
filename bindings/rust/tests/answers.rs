//! The printed case, the marked examples of document 01, and every refusal from 2 to 12, through `Editor`.

use syntax_edit::{Answer, Batch, BatchBuilder, Choices, Editor, Element, Fate, Note, Refusal, Unaccounted, Unfit};

/// S, root(X(a), b), with c and d as tokens of other trees.
struct S {
    builder: BatchBuilder,
    root: u32,
    x: u32,
    a: u32,
    b: u32,
    c: u32,
    d: u32,
}

fn s() -> S {
    let mut builder = BatchBuilder::new();
    let root = builder.open(1);
    let x = builder.open(2);
    let a = builder.token(3, b"a");
    builder.close();
    let b = builder.token(3, b"b");
    builder.close();
    builder.open(1);
    let c = builder.token(3, b"c");
    builder.close();
    builder.open(1);
    let d = builder.token(3, b"d");
    builder.close();
    S { builder, root, x, a, b, c, d }
}

/// The text and the discarded changes, or the refusal's number.
fn answered(s: &S) -> Result<(String, u32), u8> {
    let mut editor = Editor::new();
    let batch = s.builder.finish().expect("it is small");
    let told = |it: Answer<'_>| (String::from_utf8_lossy(it.text()).into_owned(), it.discarded());
    editor.edit(&batch).map(told).map_err(Refusal::number)
}

fn text(text: &str, discarded: u32) -> Result<(String, u32), u8> {
    Ok((text.to_owned(), discarded))
}

fn printed_case() -> Batch {
    let mut builder = BatchBuilder::new();
    builder.open(1);
    let a = builder.token(2, b"a");
    builder.token(3, b"b");
    builder.close();
    builder.open(1);
    let c = builder.token(4, b"c");
    builder.close();
    builder.insert_after(a, &[c]);
    builder.note(c, 9);
    builder.finish().expect("it is small")
}

#[test]
fn the_printed_case() {
    let batch = printed_case();
    assert_eq!(batch.bytes().len(), 91);
    let mut editor = Editor::new();
    let answer = editor.edit(&batch).expect("it is accepted");
    assert_eq!(answer.to_string(), "ok 4 3 1 1 0 0\nn 1 3\nt 2 1\nt 4 1\nt 3 1\ntext 616362\nchanged 2 0\nnote 9 2\n");
    let elements = answer.elements().collect::<Vec<_>>();
    assert_eq!(elements[0], Element::Node { kind: 1, children: 3 });
    assert_eq!(elements[2], Element::Token { kind: 4, text: b"c" });
    assert_eq!(answer.changed().collect::<Vec<_>>(), [2]);
    assert_eq!(answer.notes().collect::<Vec<_>>(), [Note { number: 9, element: 2 }]);
    assert_eq!((answer.discarded(), answer.climb_steps()), (0, 0));
}

/// What becomes of each change.
fn accounted(s: &S) -> Result<Vec<Fate>, Unaccounted> {
    Editor::new().account(&s.builder.finish().expect("it is small"))
}

#[test]
fn accounts() {
    assert_eq!(accounted(&s()), Ok(vec![]));

    let mut it = s();
    it.builder.delete(it.x);
    it.builder.insert_after(it.x, &[it.c]);
    assert_eq!(accounted(&it), Ok(vec![Fate::Own, Fate::Discarded(0)]));

    // The change of b empties the stack: c is performed on its own, and lost with X.
    let mut it = s();
    it.builder.delete(it.x);
    it.builder.replace(it.b, it.d);
    it.builder.insert_after(it.a, &[it.c]);
    assert_eq!(accounted(&it), Ok(vec![Fate::Own; 3]));
    assert_eq!(answered(&it), text("d", 0));

    let mut it = s();
    it.builder.insert_first(it.root, &[it.c]);
    it.builder.replace_all(it.x, it.b, &[]);
    it.builder.replace(it.b, it.d);
    assert_eq!(accounted(&it), Err(Unaccounted::Overlap(1, 2)));

    let mut editor = Editor::new();
    let refused = editor.account_bytes(&[]).expect_err("it is short");
    assert!(matches!(refused, Unaccounted::Refused(it) if it.number() == 2));
}

#[test]
fn insertions_and_deletions() {
    let mut it = s();
    it.builder.insert_after(it.x, &[it.c]);
    it.builder.insert_after(it.x, &[it.d]);
    assert_eq!(answered(&it), text("adcb", 0));

    let mut it = s();
    it.builder.delete(it.x);
    it.builder.insert_after(it.x, &[it.c]);
    assert_eq!(answered(&it), text("b", 1));

    let mut it = s();
    it.builder.delete(it.a);
    it.builder.insert_after(it.a, &[it.c]);
    assert_eq!(answered(&it), text("cb", 0));

    let mut it = s();
    it.builder.delete(it.x);
    it.builder.insert_after(it.b, &[it.c]);
    assert_eq!(answered(&it), text("bc", 0));

    let mut it = s();
    it.builder.insert_first(it.x, &[it.c, it.d]);
    it.builder.next_editor();
    it.builder.replace_all(it.x, it.x, &[it.d]);
    assert_eq!(answered(&it), text("db", 1));
}

#[test]
fn replacements() {
    let mut it = s();
    it.builder.replace(it.x, it.c);
    it.builder.delete(it.x);
    assert_eq!(answered(&it), text("b", 0));

    let mut it = s();
    it.builder.delete(it.x);
    it.builder.replace(it.x, it.c);
    assert_eq!(answered(&it), text("b", 0));

    let mut it = s();
    it.builder.replace_with_many(it.x, &[it.d]);
    it.builder.replace(it.a, it.c);
    assert_eq!(answered(&it), text("db", 1));

    let mut it = s();
    it.builder.replace_all(it.x, it.b, &[]);
    it.builder.replace(it.b, it.c);
    assert_eq!(answered(&it), Err(8));

    let mut it = s();
    let by = it.c - 1;
    it.builder.replace(it.root, by);
    it.builder.replace(it.x, it.d);
    assert_eq!(answered(&it), Err(8));
}

/// X by R(X'(a)), c after a; X mapped to X' or not.
fn replaced_by_r(mapped: bool) -> S {
    let mut it = s();
    let r = it.builder.open(4);
    let inner = it.builder.open(2);
    it.builder.token(3, b"a");
    it.builder.close();
    it.builder.close();
    it.builder.replace(it.x, r);
    it.builder.insert_after(it.a, &[it.c]);
    if mapped {
        it.builder.map(it.x, inner);
    }
    it
}

#[test]
fn a_dependent_follows_its_mapping() {
    let it = replaced_by_r(true);
    assert_eq!(answered(&it), text("acb", 0));
    let mut editor = Editor::new();
    let batch = it.builder.finish().expect("it is small");
    let answer = editor.edit(&batch).expect("it is accepted");
    assert_eq!(answer.changed().collect::<Vec<_>>(), [1]);
    assert_eq!(answer.climb_steps(), 1);
    // The root is found where it was; X's kind and start are X''s now; tokens and other trees' nodes are none.
    let found = |number| Editor::new().find_element(batch.bytes(), number);
    assert_eq!((found(0), found(1), found(2), found(4), found(9_999)), (Ok(Some(0)), Ok(Some(2)), Ok(None), Ok(None), Ok(None)));
}

#[test]
fn a_dependent_without_mapping_is_refused() {
    assert_eq!(answered(&replaced_by_r(false)), Err(9));
}

#[test]
fn an_endless_climb_is_refused() {
    let mut builder = BatchBuilder::new();
    let root = builder.open(1);
    let x = builder.open(1);
    let token = builder.token(2, b"");
    builder.close();
    builder.close();
    let r = builder.open(1);
    builder.close();
    builder.replace(x, r);
    builder.insert_after(token, &[]);
    builder.map(root, x);
    let refusal = Editor::new().edit(&builder.finish().expect("it is small")).map(|_| ()).unwrap_err();
    assert_eq!(refusal.number(), 10);
    assert_eq!(refusal.to_string(), "refused 10: a climb never ends");
}

/// Document 02's Note 1: root(Z, b), Z without children, with c and d in another tree.
#[test]
fn an_empty_node_takes_insertions() {
    let template = |calls: fn(&mut BatchBuilder, [u32; 3])| {
        let mut builder = BatchBuilder::new();
        builder.open(1);
        let z = builder.open(2);
        builder.close();
        builder.token(3, b"b");
        builder.close();
        builder.open(1);
        let (c, d) = (builder.token(3, b"c"), builder.token(3, b"d"));
        builder.close();
        calls(&mut builder, [z, c, d]);
        let batch = builder.finish().expect("it is small");
        Editor::new().edit(&batch).map(|it| (String::from_utf8_lossy(it.text()).into_owned(), it.discarded())).map_err(Refusal::number)
    };
    let one = template(|it, [z, c, _]| it.insert_first(z, &[c]));
    assert_eq!(one, text("cb", 0));
    let later_left = template(|it, [z, c, d]| {
        it.insert_first(z, &[c]);
        it.insert_first(z, &[d]);
    });
    assert_eq!(later_left, text("dcb", 0));
    let discarded = template(|it, [z, c, _]| {
        it.insert_first(z, &[c]);
        it.delete(z);
    });
    assert_eq!(discarded, text("b", 1));
    // a token is no parent: line 6, so the writer refuses the lists
    let mut builder = BatchBuilder::new();
    builder.open(1);
    let d = builder.token(3, b"d");
    builder.close();
    builder.insert_first(d, &[d]);
    assert!(matches!(builder.finish(), Err(Unfit::Refused(it)) if it.number() == 14));
}

/// The closing call: the block's last statement is deleted, c goes in after the block, and both end at one offset.
#[test]
fn an_insertion_at_the_edge() {
    let mut builder = BatchBuilder::new();
    builder.open(1);
    let block = builder.open(2);
    builder.token(3, b"s");
    let t = builder.open(4);
    builder.token(3, b"t");
    builder.close();
    builder.close();
    builder.token(3, b"u");
    builder.close();
    builder.open(1);
    let c = builder.token(3, b"c");
    builder.close();
    builder.delete(t);
    builder.insert_after(block, &[c]);
    let batch = builder.finish().expect("it is small");
    let by = |edge| Choices { edge, ..Choices::default() };
    let text = |edge| Editor::by(by(edge)).edit(&batch).map(|it| it.text().to_vec()).map_err(Refusal::number);
    let fates = |edge| Editor::by(by(edge)).account(&batch).expect("it is accepted");
    assert_eq!(text(0), Ok(b"su".to_vec()));
    assert_eq!(text(1), Ok(b"scu".to_vec()));
    assert_eq!(text(2), Err(17));
    assert_eq!(fates(0), [Fate::Own, Fate::Discarded(0)]);
    assert_eq!(fates(1), [Fate::Own, Fate::Own]);
    let refusal = Editor::by(by(2)).find_element(batch.bytes(), 0).unwrap_err();
    assert_eq!(refusal.to_string(), "refused 17: an edge rule is neither 0 nor 1");
}

#[test]
fn a_gone_target_is_refused() {
    let mut builder = BatchBuilder::new();
    builder.open(1);
    let z = builder.open(2);
    builder.close();
    builder.token(3, b"b");
    builder.close();
    builder.open(1);
    let c = builder.token(3, b"c");
    builder.close();
    builder.delete(z);
    builder.insert_after(z, &[c]);
    let refusal = Editor::new().edit(&builder.finish().expect("it is small")).map(|_| ()).unwrap_err();
    assert_eq!(refusal.number(), 11);
}

#[test]
fn trees_that_outgrow_their_limits_are_refused() {
    let grown = |copies: usize| {
        let mut it = s();
        let large = it.builder.open(1);
        for _ in 0..10 {
            it.builder.token(3, b"");
        }
        it.builder.close();
        vec![large; copies].chunks(41).for_each(|copies| it.builder.insert_after(it.b, copies));
        answered(&it)
    };
    // 19 elements stand before the step and 11 come with each copy: 4,096 is the most.
    assert_eq!(grown(370), text("ab", 0));
    assert_eq!(grown(371), Err(12));
}

/// The refusal of the printed case with one word of the batch replaced.
fn damaged(place: usize, word: u32) -> u8 {
    let mut bytes = printed_case().bytes().to_vec();
    bytes[4 * place..4 * place + 4].copy_from_slice(&word.to_le_bytes());
    Editor::new().edit_bytes(&bytes).map(|_| ()).unwrap_err().number()
}

#[test]
fn damaged_batches_are_refused_in_checking_order() {
    let bytes = printed_case().bytes().to_vec();
    let mut editor = Editor::new();
    for length in 0..bytes.len() {
        let refusal = editor.edit_bytes(&bytes[..length]).map(|_| ()).unwrap_err();
        assert_eq!(refusal.number(), if length < 28 { 2 } else { 4 });
    }
    assert_eq!(damaged(0, 0), 3);
    assert_eq!(damaged(0, 17), 3);
    assert_eq!(damaged(1, 2_049), 3);
    assert_eq!(damaged(2, 4), 4);
    assert_eq!(damaged(7, 1), 5);
    assert_eq!(damaged(8, 1 << 16), 5);
    assert_eq!(damaged(17, 263), 6);
    assert_eq!(damaged(18, 0), 6);
    assert_eq!(damaged(20, 5), 7);
    assert_eq!(damaged(21, 0), 7);
}

/// The number of the writer's refusal of what a builder was told.
fn unwritten(builder: &BatchBuilder) -> u8 {
    match builder.finish() {
        Err(Unfit::Refused(refusal)) => refusal.number(),
        other => panic!("{other:?}"),
    }
}

#[test]
fn a_builder_gives_no_batch_that_does_not_fit() {
    let mut builder = BatchBuilder::new();
    assert_eq!(unwritten(&builder), 14);
    builder.open(1);
    assert_eq!(builder.finish(), Err(Unfit::Unbalanced));
    builder.token(2, &[0; 16_385]);
    builder.close();
    assert_eq!(unwritten(&builder), 14);
    let fault = builder.finish().unwrap_err();
    assert_eq!(fault.to_string(), "refused 14: the lists differ in length or make a batch that is not well formed");
    builder.token(2, b"");
    assert_eq!(builder.finish(), Err(Unfit::Loose));
    let mut builder = BatchBuilder::new();
    builder.close();
    assert_eq!(builder.finish(), Err(Unfit::Unbalanced));
}

#[test]
fn a_builder_gives_no_batch_that_the_editor_would_call_malformed() {
    let wrong: [fn(&mut S); 7] = [
        |it| it.builder.delete(99),
        |it| it.builder.replace_all(it.b, it.x, &[]),
        |it| it.builder.insert_first(it.a, &[it.c]),
        |it| it.builder.map(it.a, it.b),
        |it| it.builder.note(99, 1),
        |it| it.builder.insert_after(it.b, &[it.c; 42]),
        |it| (0..257).for_each(|_| it.builder.delete(it.a)),
    ];
    for tell in wrong {
        let mut it = s();
        tell(&mut it);
        assert_eq!(unwritten(&it.builder), 14);
    }
}

#[test]
fn a_call_lists_41_elements_at_most() {
    let mut it = s();
    it.builder.insert_after(it.b, &[it.c; 41]);
    let mut bytes = it.builder.finish().expect("41 may be listed").bytes().to_vec();
    assert!(Editor::new().edit_bytes(&bytes).is_ok());
    // One more: in the size, in the call word, and in the list, which starts behind the call's target.
    let elements = usize::from(bytes[4]);
    bytes[16] += 1;
    bytes[4 * (7 + 2 * elements) + 1] += 1;
    bytes.splice(4 * (9 + 2 * elements)..4 * (9 + 2 * elements), it.c.to_le_bytes());
    let refusal = Editor::new().edit_bytes(&bytes).map(|_| ()).unwrap_err();
    assert_eq!(refusal.number(), 16);
    assert_eq!(refusal.to_string(), "refused 16: a call lists more than 41 elements");
}

/// The changed elements, each with its rule number.
fn ruled(it: &S) -> Vec<(u32, u32)> {
    let (batch, mut editor) = (it.builder.finish().expect("it is small"), Editor::new());
    let answer = editor.edit(&batch).expect("it is accepted");
    assert_eq!(answer.changed().len(), answer.rules().len());
    answer.changed().zip(answer.rules()).collect()
}

#[test]
fn rule_numbers_are_told_with_what_they_changed() {
    let mut it = s();
    it.builder.rule(3).insert_after(it.b, &[it.c, it.d]);
    it.builder.rule(2).insert_first(it.x, &[it.c]);
    it.builder.rule(0).insert_after(it.x, &[it.d]);
    assert_eq!(ruled(&it), [(2, 2), (4, 0), (6, 3), (7, 3)]);
    let printed = Editor::new().edit(&it.builder.finish().expect("it is small")).map(|it| it.to_string()).expect("it is accepted");
    assert!(printed.ends_with("changed 2 2\nchanged 4 0\nchanged 6 3\nchanged 7 3\n"));
}

#[test]
fn by_rule_lends_its_number() {
    let mut it = s();
    let (x, b, c, d) = (it.x, it.b, it.c, it.d);
    it.builder.rule(7);
    let told = it.builder.by_rule(9, |builder| {
        builder.insert_after(x, &[c]);
        builder.by_rule(4_095, |builder| builder.replace(b, d));
        "told"
    });
    assert_eq!(told, "told");
    it.builder.insert_first(x, &[d]);
    assert_eq!(ruled(&it), [(2, 7), (4, 9), (5, 4_095)]);
}

#[test]
fn merging_keeps_the_number_of_the_last_effect() {
    let merged = |by: &[(u32, bool)]| {
        let mut it = s();
        for &(rule, c) in by {
            it.builder.rule(rule).replace(it.x, if c { it.c } else { it.d });
        }
        ruled(&it)
    };
    assert_eq!(merged(&[(1, true), (2, false), (3, true)]), [(1, 3)]);
    assert_eq!(merged(&[(1, true), (2, true)]), [(1, 1)]);
    assert_eq!(merged(&[(2, true), (0, false)]), [(1, 0)]);
    // A delete stays, and changes no element of the new tree.
    let mut it = s();
    it.builder.rule(1).delete(it.x);
    it.builder.rule(2).replace(it.x, it.c);
    it.builder.rule(3).delete(it.x);
    assert_eq!((answered(&it), ruled(&it)), (text("b", 0), vec![]));
}

#[test]
fn a_further_editor_has_no_number_and_does_not_merge() {
    let mut it = s();
    it.builder.rule(1).insert_after(it.x, &[it.c]);
    it.builder.next_editor();
    it.builder.insert_after(it.x, &[it.c]);
    it.builder.rule(2).insert_after(it.x, &[it.d]);
    assert_eq!(ruled(&it), [(3, 2), (4, 1), (5, 1)]);
    // Operation 6 with a number is refused by 6: its call word is the second, behind the sizes and the elements' two arrays.
    let mut bytes = it.builder.finish().expect("it is small").bytes().to_vec();
    let word = 4 * (7 + 2 * usize::from(bytes[4]) + 1);
    assert_eq!(bytes[word..word + 4], [6, 0, 0, 0]);
    bytes[word + 2] = 1 << 4;
    assert_eq!(Editor::new().edit_bytes(&bytes).map(|_| ()).unwrap_err().number(), 6);
}

#[test]
fn a_rule_number_above_4095_is_not_written() {
    let mut it = s();
    it.builder.rule(4_095).insert_after(it.x, &[it.c]);
    assert_eq!(ruled(&it), [(3, 4_095)]);
    for rule in [4_096, 4_097, 1 << 20, u32::MAX] {
        let mut it = s();
        it.builder.rule(rule).insert_after(it.x, &[it.c]);
        assert_eq!(unwritten(&it.builder), 14);
    }
}

/// Document 02's Note 9: two rule books, each with an editor of its own, replace X.
fn two_books(first: u32, second: u32) -> S {
    let mut it = s();
    it.builder.rule(first).replace(it.x, it.c);
    it.builder.next_editor();
    it.builder.rule(second).replace(it.x, it.d);
    it
}

/// The text and the discarded changes, or the refusal's number; and the account.
fn chosen(it: &S, choices: Choices) -> (Result<(String, u32), u8>, Result<Vec<Fate>, Unaccounted>) {
    let batch = it.builder.finish().expect("it is small");
    let mut editor = Editor::by(choices);
    let told = |it: Answer<'_>| (String::from_utf8_lossy(it.text()).into_owned(), it.discarded());
    let answer = editor.edit(&batch).map(told).map_err(Refusal::number);
    (answer, editor.account(&batch))
}

/// Stronger rules first, under either edge rule.
fn stronger(it: &S) -> (Result<(String, u32), u8>, Result<Vec<Fate>, Unaccounted>) {
    let [told, other] = [0, 1].map(|edge| chosen(it, Choices { edge, stronger: 1 }));
    assert_eq!(told, other);
    told
}

#[test]
fn of_two_rule_books_the_stronger_one_wins() {
    assert_eq!(Choices::default(), Choices { edge: 0, stronger: 0 });
    let overlap = (Err(8), Err(Unaccounted::Overlap(0, 1)));
    for (first, second) in [(1, 2), (2, 1), (2, 2), (0, 4_095)] {
        let it = two_books(first, second);
        assert_eq!(chosen(&it, Choices::default()), overlap);
        assert_eq!(chosen(&it, Choices { edge: 1, stronger: 0 }), overlap);
    }
    assert_eq!(stronger(&two_books(1, 2)), (text("db", 0), Ok(vec![Fate::Withdrawn(1), Fate::Own])));
    assert_eq!(stronger(&two_books(2, 1)), (text("cb", 0), Ok(vec![Fate::Own, Fate::Withdrawn(0)])));
    assert_eq!(stronger(&two_books(0, 4_095)), (text("db", 0), Ok(vec![Fate::Withdrawn(1), Fate::Own])));
    // Of one number neither is withdrawn.
    assert_eq!(stronger(&two_books(2, 2)), overlap);
}

#[test]
fn what_is_withdrawn_is_not_told_as_changed() {
    let batch = two_books(1, 2).builder.finish().expect("it is small");
    let mut editor = Editor::by(Choices { edge: 0, stronger: 1 });
    let answer = editor.edit(&batch).expect("the weaker one is withdrawn");
    assert!(answer.changed().zip(answer.rules()).eq([(1, 2)]));
    assert_eq!(editor.find_element(batch.bytes(), 0), Ok(Some(0)));
    assert_eq!(editor.share(&batch), Ok(syntax_edit::Share { thousandths: 500, remainder: 0 }));
    assert_eq!(editor.kept(&batch), Ok(vec![(0, 0), (3, 2)]));
}

#[test]
fn what_survives_is_paired() {
    // S is root(X(a), b), with c and d in tree 1: none of those is of the old tree, wherever it ends.
    let kept = |tell: fn(&mut S)| {
        let mut it = s();
        tell(&mut it);
        Editor::new().kept(&it.builder.finish().expect("it is small")).expect("it is accepted")
    };
    assert_eq!(kept(|_| ()), [(0, 0), (1, 1), (2, 2), (3, 3)]);
    assert_eq!(kept(|it| it.builder.delete(it.x)), [(0, 0), (3, 1)]);
    assert_eq!(kept(|it| it.builder.replace(it.a, it.c)), [(0, 0), (1, 1), (3, 3)]);
    assert_eq!(kept(|it| it.builder.insert_after(it.x, &[it.c, it.d])), [(0, 0), (1, 1), (2, 2), (3, 5)]);
    // A copy is no survivor: X goes, and what is put in for it is new.
    assert_eq!(kept(|it| it.builder.replace(it.x, it.x)), [(0, 0), (3, 3)]);
}

#[test]
fn line_8_then_concerns_what_is_left() {
    // A third of the stronger one's number overlaps it.
    let mut it = two_books(1, 2);
    it.builder.next_editor();
    it.builder.rule(2).replace_all(it.x, it.b, &[]);
    assert_eq!(stronger(&it), (Err(8), Err(Unaccounted::Overlap(0, 2))));
    // Numbers count withdrawn changes too.
    let mut it = two_books(1, 2);
    it.builder.rule(0).insert_after(it.b, &[it.c]);
    assert_eq!(stronger(&it).1, Ok(vec![Fate::Withdrawn(1), Fate::Own, Fate::Own]));
}

#[test]
fn a_stronger_change_inside_a_weaker_ones_node_is_discarded() {
    let mut it = s();
    it.builder.rule(1).delete(it.x);
    it.builder.rule(2).replace(it.a, it.c);
    assert_eq!(stronger(&it), (text("b", 1), Ok(vec![Fate::Own, Fate::Discarded(0)])));
}

#[test]
fn equal_numbers_are_answered_as_without_the_choice() {
    let tell: [fn(&mut S); 4] = [
        |it| it.builder.delete(it.x),
        |it| it.builder.replace_all(it.x, it.b, &[it.c]),
        |it| it.builder.insert_after(it.x, &[it.d]),
        |it| it.builder.replace(it.a, it.d),
    ];
    for rule in [0, 7, 4_095] {
        for (first, second) in (0..4).flat_map(|i| (0..4).map(move |j| (i, j))) {
            let mut it = s();
            it.builder.rule(rule);
            tell[first](&mut it);
            it.builder.next_editor();
            tell[second](&mut it);
            for edge in [0, 1] {
                assert_eq!(chosen(&it, Choices { edge, stronger: 0 }), chosen(&it, Choices { edge, stronger: 1 }));
            }
        }
    }
}

#[test]
fn a_wrong_choice_is_refused() {
    let batch = printed_case();
    for (edge, stronger, told) in [(0, 2, 18), (1, u64::MAX, 18), (2, 2, 17), (2, 0, 17)] {
        let mut editor = Editor::by(Choices { edge, stronger });
        assert_eq!(editor.edit(&batch).map(|_| ()).unwrap_err().number(), told);
        assert_eq!(editor.find_element(batch.bytes(), 0).unwrap_err().number(), told);
        assert_eq!(editor.share(&batch).unwrap_err().number(), told);
        assert_eq!(editor.kept(&batch).unwrap_err().number(), told);
        assert!(matches!(editor.account(&batch), Err(Unaccounted::Refused(it)) if it.number() == told));
    }
    let refusal = Editor::by(Choices { edge: 0, stronger: 2 }).edit(&batch).map(|_| ()).unwrap_err();
    assert_eq!(refusal.to_string(), "refused 18: the choice of stronger rules first is neither 0 nor 1");
}

#[test]
fn bytes_that_are_no_answer_are_not_read() {
    assert!(Answer::read(&[]).is_none());
    assert!(Answer::read(&[0; 23]).is_none());
    assert!(Answer::read(&[0xff; 24]).is_none());
    // One token of more text than there is.
    let words = [1u32, 1, 0, 0, 0, 0, 2, u32::MAX];
    let bytes = words.into_iter().flat_map(u32::to_le_bytes).chain([0]).collect::<Vec<_>>();
    assert!(Answer::read(&bytes).is_none());
}
