"""A series of edits: bookmarks that follow, are dropped or stay, every refusal of the two calls, what they leave in every slice, and the recorded series."""

import unittest
from struct import pack

from support import NODE, ROOT, RULE_0, Reader, cleared, dirty, filled, number_of

from syntax_edit import BatchBuilder, Flat, Series, raw

#: root(P(a, z), b), z a node without children: P is element 1, a 2, z 3, b 4.
TREE = Flat((NODE | 1, NODE | 2, 3, NODE | 2, 3), (2, 2, 1, 0, 1), b"ab")

#: A bookmark on each element: the root 7, P 3, a 9, z 4, b 5.
ALL = [(7, ()), (3, (0,)), (9, (0, 0)), (4, (0, 1)), (5, (1,))]


def on(tree, calls):
    """A batch on this tree, beside trees that lend c (element 1 of its tree) and a token d in a node: their roots' numbers go to the calls."""
    batch = BatchBuilder()
    batch.tree(tree)
    c = batch.tree(Flat((NODE | 5, 3), (1, 1), b"c"))
    d = batch.tree(Flat((NODE | 5, 3), (1, 1), b"d"))
    calls(batch, c, d)
    return batch.finish().bytes


def none(it, c, d):
    """No call."""


def wide(tokens):
    """A root of so many empty tokens."""
    return Flat([NODE | 1] + [2] * tokens, [tokens] + [0] * tokens)


class Following(unittest.TestCase):
    def test_what_was_begun_with_is_held(self):
        series = Series.start(TREE, ALL)
        self.assertEqual((series.tree, series.kinds, series.measures, series.text), (TREE, TREE.kinds, TREE.measures, TREE.text))
        self.assertEqual(series.bookmarks, ALL)
        self.assertEqual(Series.start(TREE).bookmarks, [])

    def test_after_an_insertion_before_it(self):
        series = Series.start(TREE, ALL)
        self.assertEqual(series.follow(on(TREE, lambda it, c, d: it.insert_after(2, [c + 1]))).text, b"acb")
        self.assertEqual(series.text, b"acb")
        self.assertEqual(series.bookmarks, [(7, ()), (3, (0,)), (9, (0, 0)), (4, (0, 2)), (5, (1,))])
        # .. and the next batch, on the tree that this one left.
        series.follow(on(series.tree, lambda it, c, d: it.insert_first(0, [c])))
        self.assertEqual(series.text, b"cacb")
        self.assertEqual(series.bookmarks, [(7, ()), (3, (1,)), (9, (1, 0)), (4, (1, 2)), (5, (2,))])

    def test_dropped_with_a_deleted_node(self):
        left = [(7, ()), (5, (0,))]
        series = Series.start(TREE, ALL)
        series.follow(on(TREE, lambda it, c, d: it.delete(1)))
        self.assertEqual(series.bookmarks, left)
        # A copy put in its place brings none of them back, nor does it take them along.
        series = Series.start(TREE, ALL)
        series.follow(on(TREE, lambda it, c, d: (it.insert_after(4, [1]), it.delete(1))))
        self.assertEqual(series.bookmarks, left)
        # All else is refused: the survivors stay, in their order.
        self.assertEqual(number_of(lambda: series.follow(on(TREE, none))), 22)
        self.assertEqual(series.bookmarks, left)

    def test_a_replaced_root_drops_all(self):
        for by_itself in (False, True):
            series = Series.start(TREE, ALL)
            series.follow(on(TREE, lambda it, c, d: it.replace(0, 0 if by_itself else c)))
            self.assertEqual((series.bookmarks, series.text), ([], b"ab" if by_itself else b"c"))

    def test_steps_move_paths_at_their_moment(self):
        """c goes in before the run a..z is deleted, which then is three children long: paths move by places of that moment, not of the old tree."""
        series = Series.start(TREE, ALL)
        batch = on(TREE, lambda it, c, d: (it.replace_all(2, 3, []), it.replace(4, d + 1), it.insert_after(2, [c + 1])))
        self.assertEqual(series.follow(batch).text, b"d")
        self.assertEqual(series.bookmarks, [(7, ()), (3, (0,))])

    def test_survivors_keep_their_order(self):
        series = Series.start(TREE, [(5, [1]), (9, [0, 0]), (7, []), (0, [0, 1]), (2**32 - 1, [0])])
        series.follow(on(TREE, lambda it, c, d: it.delete(2)))
        self.assertEqual(series.bookmarks, [(5, (1,)), (7, ()), (0, (0, 0)), (2**32 - 1, (0,))])

    def test_the_most_bookmarks(self):
        series = Series.start(TREE, [(number, (0, 1)) for number in range(256)])
        series.follow(on(TREE, lambda it, c, d: it.insert_after(2, [c])))
        self.assertEqual(series.bookmarks, [(number, (0, 2)) for number in range(256)])
        series.follow(on(series.tree, lambda it, c, d: it.delete(1)))
        self.assertEqual(series.bookmarks, [])

    def test_by_either_rule(self):
        """The closing call, and two rule books."""
        close = lambda it, c, d: (it.replace_all(2, 3, []), it.insert_after(1, [c]))  # noqa: E731
        for edge, text in ((0, b"b"), (1, b"cb")):
            self.assertEqual(Series.start(TREE, ALL).follow(on(TREE, close), edge).text, text)
        books = lambda it, c, d: (it.rule(1).replace(1, c), it.next_editor(), it.rule(2).replace(1, d))  # noqa: E731
        self.assertEqual(Series.start(TREE).follow(on(TREE, books), stronger=1).text, b"db")

    def test_a_tree_that_outgrows_batches(self):
        """A tree that is left with more than 2,048 elements is no batch's tree."""
        tree = wide(1_500)
        series = Series.start(tree, [(1, [1_499])])
        series.follow(on(tree, lambda it, c, d: it.insert_first(0, [0])))
        self.assertEqual((len(series.kinds), series.bookmarks), (3_002, [(1, (1_500,))]))
        for batch in (on(tree, none), on(TREE, lambda it, c, d: it.replace(0, 1))):
            self.assertEqual(number_of(lambda: series.follow(batch)), 22)
        self.assertEqual(series.bookmarks, [(1, (1_500,))])


class Starts(unittest.TestCase):
    def refused(self, tree, bookmarks=()):
        return number_of(lambda: Series.start(tree, bookmarks))

    def test_refused(self):
        self.assertIsNone(self.refused(wide(2_047)))
        over = wide(2_048)
        for tree in (over, Flat(over.kinds), Flat((), over.measures), Flat((NODE | 1, 2), (1, 16_385), b"x" * 16_385)):
            self.assertEqual(self.refused(tree, ALL), 3)
        self.assertIsNone(self.refused(Flat((NODE | 1, 2), (1, 16_384), b"x" * 16_384), [(1, (0,))]))
        self.assertEqual(self.refused(Flat(TREE.kinds, (2, 2, 1, 0), TREE.text), [(1, ()), (1, ())]), 4)
        self.assertEqual(self.refused(Flat((NODE | 1,), TREE.measures, TREE.text)), 4)
        for tree in (Flat(), Flat(TREE.kinds, (2, 2, 1, 0, 2), b"ab"), Flat(TREE.kinds, TREE.measures, b"abc"), Flat((3,), (2,), b"ab")):
            self.assertEqual(self.refused(tree, [(1, ()), (1, ())]), 5)
        self.assertEqual(self.refused(TREE, [(1, (5,)), (2, ()), (1, (0,))]), 20)
        many = [(number, ()) for number in range(257)]
        self.assertEqual((self.refused(TREE, many), self.refused(TREE, many[1:])), (20, None))
        for path in ((2,), (0, 2), (0, 0, 0), (2**32 - 1,), (1, 0), (0,) * 63, (0,) * 64, (0,) * 5_000):
            self.assertEqual(self.refused(TREE, [(1, (0,)), (2, path)]), 21)

    def test_the_longest_path(self):
        """The deepest path has 63 child numbers."""
        deepest = (0,) * 63
        for depth, refusal in ((64, None), (65, 5)):
            tree = Flat([NODE | 1] * depth, [1] * (depth - 1) + [0])
            self.assertEqual(self.refused(tree, [(1, deepest)]), refusal)
        tree = Flat([NODE | 1] * 64, [1] * 63 + [0])
        series = Series.start(tree, [(1, deepest)])
        series.follow(on(tree, lambda it, c, d: it.insert_first(62, [c + 1])))
        self.assertEqual(series.bookmarks, [(1, (0,) * 62 + (1,))])
        # .. and the tree that is left has a longest path whose last step tells.
        self.assertEqual(Series.start(series.tree, series.bookmarks).bookmarks, [(1, (0,) * 62 + (1,))])
        self.assertEqual(self.refused(series.tree, [(1, (0,) * 62 + (2,))]), 21)


# ------------------------------------------------------------------ the calls themselves, over slices of any length


def tree_slice(beyond):
    """The tree as the memory holds it, with so many bytes of a pattern behind it."""
    return pack("<12I", 5, 2, *TREE.kinds, *TREE.measures) + TREE.text + b"\xee" * beyond


def words_of(bookmarks, beyond=0):
    """Bookmarks as the memory holds them, what is not stated being a pattern."""
    held = [len(bookmarks)]
    for number, path in bookmarks:
        held += [number, len(path), *path] + [0xFEED] * (63 - len(path))
    return held + [0xFEED] * beyond


def lent_bytes(data):
    held = raw.room(len(data))
    held[:] = list(data)
    return held


class Slices(unittest.TestCase):
    def follow(self, choices, batch, tree, bookmarks, result, more=(0,) * 9):
        """What a later call returns; its work slices, full of a pattern, are longer or shorter than they need to be by these numbers, and end as zeros."""
        work = dirty([least + by for least, by in zip(raw.LENGTHS, more)])
        told = raw.series_follow(choices, batch, tree, bookmarks, result, work)
        self.assertTrue(cleared(work))
        return told

    def refuses(self, choices, batch, tree, bookmarks, room, more=(0,) * 9):
        """The refusal of a later call, which leaves both slices of the memory and the result as they were."""
        lent_tree, lent_bookmarks, result = lent_bytes(tree), raw.words(bookmarks), filled(room)
        told = self.follow(choices, batch, lent_tree, lent_bookmarks, result, more)
        self.assertEqual((bytes(lent_tree), list(lent_bookmarks), bytes(result)), (tree, bookmarks, b"\xa5" * room))
        return -told

    def starts(self, tree, bookmarks, more=0):
        (rows,) = work = dirty([raw.START_ROWS + more])
        told = raw.series_start(tree, raw.words(bookmarks), rows)
        self.assertTrue(cleared(work))
        return told

    def test_what_lies_beyond_is_left(self):
        batch = on(TREE, lambda it, c, d: it.replace_all(2, 3, [c + 1] * 3))
        for more in ((0,) * 9, tuple(range(1, 10))):
            tree, bookmarks, result = lent_bytes(tree_slice(100)), raw.words(words_of(ALL, 7)), filled(1_000)
            length = self.follow(RULE_0, batch, tree, bookmarks, result, more)
            self.assertEqual(length, 24 + 8 * 6 + 8 * 3 + 4)
            self.assertEqual(bytes(result)[length:], b"\xa5" * (1_000 - length))
            # The tree has 8 + 8 * 6 + 4 bytes now; it had 8 + 8 * 5 + 2.
            self.assertEqual(bytes(tree), pack("<2I", 6, 4) + bytes(result)[24:72] + b"cccb" + b"\xee" * 90)
            # Three survive, in the first three slots; a shorter path leaves the rest of its slot.
            left = words_of(ALL, 7)
            left[0] = 3
            left[131:134] = [5, 1, 1]
            self.assertEqual(list(bookmarks), left)

    def test_short_slices_are_refused(self):
        """13: of the result and of the memory a byte is enough to decide."""
        batch, words, room = on(TREE, lambda it, c, d: it.insert_after(2, [c + 1])), words_of(ALL), 24 + 8 * 6 + 8 + 3
        self.assertEqual(self.follow(RULE_0, batch, lent_bytes(tree_slice(9)), raw.words(words), raw.room(room)), room)
        for less in (1, room - 1, room):
            self.assertEqual(self.refuses(RULE_0, batch, tree_slice(9), words, room - less), 13)
        for beyond in range(9):
            self.assertEqual(self.refuses(RULE_0, batch, tree_slice(beyond), words, 1_000), 13)

    def test_refusals_in_order(self):
        """17, 18, 1, then the memory's own lines, then the batch's, then 22, then 8 and so on."""
        tree, words = tree_slice(100), words_of(ALL)
        twice, astray = words_of([(4, (0,)), (4, (9,))]), words_of([(4, (0,)), (5, (2,))])
        overlapping = lambda it, c, d: (it.replace(0, c), it.replace(1, d))  # noqa: E731
        another, overlap = on(Flat(TREE.kinds, TREE.measures, b"xb"), overlapping), on(TREE, overlapping)
        first, last = (-1,) + (0,) * 8, (0,) * 8 + (-1,)
        unspelled = pack("<6I", 2, 0, NODE | 1, NODE | 1, 0, 0)
        for number, choices, batch, lent, held, *more in [
            (17, raw.Choices(2, 2), b"", b"", [], first),
            (18, raw.Choices(1, 2), b"", b"", [], first),
            (1, RULE_0, b"", b"", [], first),
            (1, RULE_0, another, tree, twice, last),
            (4, RULE_0, b"", tree[:7], twice),
            (3, RULE_0, b"", pack("<2I", 4_097, 0), twice),
            (3, RULE_0, b"", pack("<2I", 1, 16_385), []),
            (4, RULE_0, b"", tree[:49], twice),
            (4, RULE_0, b"", tree, []),
            (4, RULE_0, b"", tree, words[:-1]),
            (5, RULE_0, b"", unspelled, twice),
            (20, RULE_0, b"", tree, twice),
            (21, RULE_0, b"", tree, astray),
            (2, RULE_0, b"", tree, words),
            (22, RULE_0, another, tree, words),
            (8, RULE_0, overlap, tree, words),
        ]:
            self.assertEqual(self.refuses(choices, batch, lent, held, 300, *more), number)

    def test_first_calls(self):
        """1, then the same lines of the memory, to 2,048 elements."""
        tree, words = tree_slice(3), words_of(ALL, 2)
        self.assertEqual((self.starts(tree, words), self.starts(tree, words, 5)), (0, 0))
        for less in (-1, -12_000, -raw.START_ROWS):
            self.assertEqual(self.starts(b"", [], less), -1)
        for data, held, number in [
            (tree[:7], words, 4), (pack("<2I", 2_049, 0), [], 3), (tree[:49], words, 4), (tree, [], 4), (tree, [2**32 - 1], 4),
            (tree, words[:2] + [64] + words[3:], 21), (tree, words_of([(4, (0,)), (4, (9,))]), 20),
        ]:  # fmt: skip
            self.assertEqual(self.starts(data, held), -number)


class Recorded(unittest.TestCase):
    def test_recorded_series(self):
        """Every line that `crates/series_play` prints of its input."""
        it, lines = Reader((ROOT / "crates" / "series_play" / "stdin").read_bytes()), []
        for _ in range(it.word()):
            tree, bookmarks = lent_bytes(it.part()), raw.words(memoryview(it.part()).cast("I"))
            lines.append(f"start {-raw.series_start(bytes(tree), bookmarks, raw.words([0] * raw.START_ROWS))}{self.bookmarks(bookmarks)}")
            for _ in range(it.word()):
                choices, result = raw.Choices(it.word()), raw.room(it.word())
                told = raw.series_follow(choices, it.part(), tree, bookmarks, result, raw.work())
                lines.append((f"bytes {told}" if told >= 0 else f"refused {-told}") + self.bookmarks(bookmarks))
        self.assertTrue(it.whole())
        self.assertEqual("".join(line + "\n" for line in lines), (ROOT / "crates" / "series_play" / "stdout").read_text())

    def bookmarks(self, words):
        slots = (words[1 + raw.SLOT * i : 1 + raw.SLOT * (i + 1)] for i in range(words[0]))
        return "".join(f" {it[0]}=" + "".join(f"/{step}" for step in it[2 : 2 + min(it[1], raw.LONGEST_PATH)]) for it in slots)


if __name__ == "__main__":
    unittest.main()
