"""Every refusal, 1 to 22, through the Python calls, in the words of the Rust crate; and what a builder does not take."""

import pickle
import re
import unittest

from support import NODE, PRINTED_CASE, ROOT, RULE_0, S, number_of, printed_case, text_of, told

from syntax_edit import (
    MEANINGS,
    Batch,
    BatchBuilder,
    Checker,
    Claim,
    Contents,
    Editor,
    Flat,
    Loose,
    Node,
    Overlap,
    Refusal,
    Series,
    Token,
    Unbalanced,
    Unfit,
    raw,
    refusal,
)

TREE = Flat([NODE | 1, 2, 3], [2, 1, 1], b"ab")


def damaged(place, word):
    """The printed case with one word replaced."""
    return PRINTED_CASE[: 4 * place] + word.to_bytes(4, "little") + PRINTED_CASE[4 * place + 4 :]


def edit(batch):
    return Editor().edit(batch)


def short_work():
    work = list(raw.work())
    work[4] = raw.words([0] * (raw.LENGTHS[4] - 1))
    refusal.told(raw.edit(RULE_0, PRINTED_CASE, raw.room(raw.MOST_ANSWER), tuple(work)))


def unmapped():
    it = S()
    with it.batch.node(4) as r:
        it.batch.token(3, "a")
    it.batch.replace(it.x, r)
    it.batch.insert_after(it.a, [it.c])
    edit(it.batch.finish())


def endless():
    batch = BatchBuilder()
    with batch.node(1) as root:
        with batch.node(1) as x:
            token = batch.token(2)
    with batch.node(1) as r:
        pass
    batch.replace(x, r)
    batch.insert_after(token, [])
    batch.map(root, x)
    edit(batch.finish())


def gone():
    batch = BatchBuilder()
    with batch.node(1):
        with batch.node(2) as z:
            pass
        batch.token(3, "b")
    with batch.node(1):
        c = batch.token(3, "c")
    batch.delete(z)
    batch.insert_after(z, [c])
    edit(batch.finish())


def grown(copies):
    """19 elements stand before the step and 11 come with each copy: 4,096 is the most."""
    it = S()
    with it.batch.node(1) as large:
        for _ in range(10):
            it.batch.token(3)
    all_ = [large] * copies
    for at in range(0, copies, 41):
        it.batch.insert_after(it.b, all_[at : at + 41])
    return it


def lists_too_many():
    """42 elements: one more in the size, in the call word and in the list, which starts behind the call's target."""
    it = S()
    it.batch.insert_after(it.b, [it.c] * 41)
    data = bytearray(it.batch.finish().bytes)
    elements = data[4]
    data[16] += 1
    data[4 * (7 + 2 * elements) + 1] += 1
    at = 4 * (9 + 2 * elements)
    data[at:at] = it.c.to_bytes(4, "little")
    edit(data)


def another_tree():
    series, batch = Series.start(TREE), BatchBuilder()
    batch.tree(Flat(TREE.kinds, TREE.measures, b"xb"))
    series.follow(batch.finish())


#: A way to each refusal.
WAYS = {
    1: short_work,
    2: lambda: edit(PRINTED_CASE[:27]),
    3: lambda: edit(damaged(0, 17)),
    4: lambda: edit(PRINTED_CASE[:-1]),
    5: lambda: edit(damaged(7, 1)),
    6: lambda: edit(damaged(17, 263)),
    7: lambda: edit(damaged(21, 0)),
    8: lambda: edit(told(lambda it: (it.batch.replace_all(it.x, it.b, []), it.batch.replace(it.b, it.c))).batch.finish()),
    9: unmapped,
    10: endless,
    11: gone,
    12: lambda: edit(grown(371).batch.finish()),
    13: lambda: refusal.told(raw.edit(RULE_0, PRINTED_CASE, raw.room(66), raw.work())),
    14: lambda: told(lambda it: it.batch.delete(99)).batch.finish(),
    15: lambda: refusal.told(raw.write(printed_case().lists(), raw.room(90), raw.writer_work())),
    16: lists_too_many,
    17: lambda: Editor(edge=2).edit(PRINTED_CASE),
    18: lambda: Editor(stronger=2).edit(PRINTED_CASE),
    19: lambda: Checker().check(Claim(TREE, TREE, [0, 1, 3], [0, 1, 2], [])),
    20: lambda: Series.start(TREE, [(5, []), (5, [0])]),
    21: lambda: Series.start(TREE, [(5, [2])]),
    22: another_tree,
}


class Refusals(unittest.TestCase):
    def test_every_number(self):
        self.assertEqual(list(WAYS), list(range(1, 23)))
        for number, way in WAYS.items():
            with self.subTest(number=number):
                with self.assertRaises(Refusal) as raised:
                    way()
                self.assertEqual((raised.exception.number, raised.exception.meaning), (number, MEANINGS[number]))
                self.assertEqual(str(raised.exception), f"refused {number}: {MEANINGS[number]}")

    def test_in_the_words_of_the_rust_crate(self):
        source = (ROOT / "bindings" / "rust" / "src" / "lib.rs").read_text()
        told_there = {int(number): words for number, words in re.findall(r'^    \((\d+), "(.*)"\),$', source, re.M)}
        self.assertEqual(MEANINGS, told_there)
        self.assertEqual(list(MEANINGS), list(range(1, 23)))

    def test_a_refusal_is_told_again_from_elsewhere(self):
        again = pickle.loads(pickle.dumps([Refusal(9), Overlap(3, 4)]))
        self.assertEqual([str(it) for it in again], ["refused 9: " + MEANINGS[9], "changes 3 and 4 overlap"])

    def test_a_refused_series_has_its_own_short_memory(self):
        """13 of a series: the tree's slice holds the tree, and not a byte more."""
        batch = BatchBuilder()
        batch.tree(TREE)
        with batch.node(1):
            c = batch.token(3, "c")
        batch.insert_after(1, [c])
        tree = raw.room(8 + 8 * 3 + 2)
        tree[:] = list(b"".join(it.to_bytes(4, "little") for it in [3, 2, *TREE.kinds, *TREE.measures]) + TREE.text)
        answer = raw.series_follow(RULE_0, batch.finish().bytes, tree, raw.words([0]), raw.room(1_000), raw.work())
        self.assertEqual(answer, -13)


class InOrder(unittest.TestCase):
    def test_prefixes(self):
        for length in range(len(PRINTED_CASE)):
            self.assertEqual(number_of(lambda: edit(PRINTED_CASE[:length])), 2 if length < 28 else 4)

    def test_damaged_words(self):
        for place, word, number in [
            (0, 0, 3), (0, 17, 3), (1, 2_049, 3), (2, 4, 4), (7, 1, 5), (8, 1 << 16, 5), (17, 263, 6), (18, 0, 6), (20, 5, 7), (21, 0, 7),
        ]:  # fmt: skip
            self.assertEqual(number_of(lambda: edit(damaged(place, word))), number)
            self.assertEqual(number_of(lambda: Batch.read(damaged(place, word))), number)

    def test_choices_first(self):
        batch = PRINTED_CASE
        for edge, stronger, number in [(0, 2, 18), (1, (1 << 64) - 1, 18), (1, 1 << 64, 18), (0, -1, 18), (2, 2, 17), (1 << 64, 0, 17), (-1, 0, 17)]:
            editor = Editor(edge, stronger)
            for ask in (editor.edit, editor.account, editor.share, editor.kept, lambda it: editor.find_element(it, 0)):
                self.assertEqual(number_of(lambda: ask(batch)), number)
            self.assertEqual(number_of(lambda: Series.start(TREE).follow(batch, edge, stronger)), number)

    def test_operation_6_with_a_rule(self):
        it = S()
        it.batch.next_editor()
        data = bytearray(it.batch.finish().bytes)
        word = 4 * (7 + 2 * data[4])
        self.assertEqual(data[word : word + 4], b"\6\0\0\0")
        data[word + 2] = 1 << 4
        self.assertEqual(number_of(lambda: edit(data)), 6)

    def test_trees_as_large_as_they_may_be(self):
        self.assertEqual(text_of(grown(370)), ("ab", 0))


class Builder(unittest.TestCase):
    def test_trees_that_are_not_told_whole(self):
        batch = BatchBuilder()
        self.assertEqual(number_of(batch.finish), 14)
        batch.open(1)
        self.assertRaises(Unbalanced, batch.finish)
        batch.token(2, bytes(16_385))
        batch.close()
        self.assertEqual(number_of(batch.finish), 14)
        batch.token(2)
        self.assertRaises(Loose, batch.finish)
        batch = BatchBuilder()
        batch.close()
        self.assertRaises(Unbalanced, batch.finish)
        batch = BatchBuilder()
        batch.open(1)
        batch.tree(TREE)
        batch.close()
        with self.assertRaises(Unfit) as raised:
            batch.finish()
        self.assertEqual(str(raised.exception), "nodes are not opened and closed in pairs")
        self.assertEqual(str(Loose()), "a token stands outside every tree")

    def test_what_the_editor_would_call_malformed(self):
        for calls in [
            lambda it: it.batch.delete(99),
            lambda it: it.batch.replace_all(it.b, it.x, []),
            lambda it: it.batch.insert_first(it.a, [it.c]),
            lambda it: it.batch.map(it.a, it.b),
            lambda it: it.batch.note(99, 1),
            lambda it: it.batch.insert_after(it.b, [it.c] * 42),
            lambda it: [it.batch.delete(it.a) for _ in range(257)],
        ]:
            self.assertEqual(number_of(told(calls).batch.finish), 14)

    def test_rules_above_4095(self):
        for rule in (4_096, 4_097, 1 << 20, 2**32 - 1):
            it = S()
            it.batch.rule(rule).insert_after(it.x, [it.c])
            self.assertEqual(number_of(it.batch.finish), 14)

    def test_numbers_that_fit_no_word_are_not_cut(self):
        """A number that is cut to another one would name another element, in silence."""
        it, before = S(), S().batch.finish()
        for ask in [
            lambda: it.batch.insert_after((1 << 32) + it.x, [it.c]),
            lambda: it.batch.insert_after(it.x, [(1 << 32) + it.c]),
            lambda: it.batch.delete(-1),
            lambda: it.batch.rule(1 << 32),
            lambda: it.batch.note(it.x, 1 << 32),
            lambda: it.batch.map(it.x, -1),
            lambda: it.batch.open(1 << 16),
            lambda: it.batch.open(NODE | 1),
            lambda: it.batch.token(NODE | 1, "a"),
            lambda: it.batch.tree(Flat([1 << 32], [0])),
            lambda: Batch.load(1 << 32),
            lambda: Batch.load(-1),
            lambda: Contents(1, (Node(NODE | 1, 0),)).write(),
            lambda: Contents(1, (Node(1, 1), Token(NODE | 1, b""))).write(),
            lambda: Series.start(TREE, [(1 << 32, [])]),
            lambda: Checker().check(Claim(TREE, TREE, [0, 1, 2], [0, 1, (1 << 32) + 2], [])),
        ]:
            self.assertRaises(OverflowError, ask)
        self.assertEqual(it.batch.finish(), before)
        for ask in [lambda: it.batch.insert_after(it.x, it.c), lambda: it.batch.insert_after(1.0, []), lambda: Editor().edit(91), lambda: Editor("0").edit(b"")]:
            self.assertRaises(TypeError, ask)


if __name__ == "__main__":
    unittest.main()
