"""Recording and sorting as an account numbers changes: the examples of document 01, and drawn batches beside the oracle's model where that is at hand."""

import sys
import unittest

from support import ROOT, told

from syntax_edit.batch import Batch
from syntax_edit.changes import in_order, range_of, recorded
from syntax_edit.shape import Shape

sys.path.insert(0, str(ROOT / "oracle"))

#: So many batches of this seed are drawn.
COUNT, SEED = 400, 7


def sorted_changes(contents):
    return in_order(Shape(contents.elements), recorded(contents.calls))


class Recording(unittest.TestCase):
    def changes(self, calls):
        """Of each change in sorted order its operation, its target, what goes in, its rule, its calls and the one with the last effect."""
        contents = Batch.read(told(calls).batch.finish())
        return [(it.operation, it.target, it.listed, it.rule, it.calls, it.effect) for it in sorted_changes(contents)]

    def test_merging(self):
        x, c, d = 1, 5, 7
        self.assertEqual(self.changes(lambda it: (it.batch.rule(1).replace(x, c), it.batch.rule(2).replace(x, d))), [(2, x, (d,), 2, [0, 1], 1)])
        self.assertEqual(self.changes(lambda it: (it.batch.rule(1).replace(x, c), it.batch.rule(2).replace(x, c))), [(2, x, (c,), 1, [0, 1], 0)])
        self.assertEqual(self.changes(lambda it: (it.batch.rule(1).replace(x, c), it.batch.rule(2).delete(x))), [(3, x, (), 2, [0, 1], 1)])
        self.assertEqual(self.changes(lambda it: (it.batch.rule(1).delete(x), it.batch.rule(2).replace(x, c), it.batch.rule(3).delete(x))), [(3, x, (), 1, [0, 1, 2], 0)])
        self.assertEqual(self.changes(lambda it: (it.batch.replace_with_many(x, [c]), it.batch.delete(x))), [(4, x, (c,), 0, [0], 0), (3, x, (), 0, [1], 1)])

    def test_editors_do_not_merge(self):
        x, c, d = 1, 5, 7
        calls = lambda it: (it.batch.rule(1).replace(x, c), it.batch.next_editor(), it.batch.replace(x, d))  # noqa: E731
        self.assertEqual(self.changes(calls), [(2, x, (c,), 1, [0], 0), (2, x, (d,), 1, [2], 2)])

    def test_a_root_is_its_own_target_parent(self):
        """So its replacement stands behind an insertion at its start."""
        calls = lambda it: (it.batch.replace(it.root, it.c - 1), it.batch.insert_first(it.root, [it.c]))  # noqa: E731
        self.assertEqual([(it[0], it[1]) for it in self.changes(calls)], [(0, 0), (2, 0)])

    def test_order(self):
        """By start, then depth of target parent, then insert, run, replace; a run with equal ends is call 4."""
        root, x, a, b = range(4)

        def calls(it):
            it.batch.insert_after(b, [it.c])
            it.batch.delete(a)
            it.batch.replace_all(x, x, [it.c])
            it.batch.replace_all(x, b, [])
            it.batch.insert_first(x, [it.c])
            it.batch.insert_first(root, [it.c])

        self.assertEqual([(it[0], it[1]) for it in self.changes(calls)], [(0, root), (5, x), (4, x), (0, x), (3, a), (1, b)])


class BesideTheModel(unittest.TestCase):
    def test_drawn_batches(self):
        try:
            import landed
            from drawn import drawn_for_choices
        except (ImportError, OSError):
            self.skipTest("the model is not at hand")
        if sys.version_info < (3, 10):
            self.skipTest("the oracle asks for a later Python")
        notes = landed.notes
        changes = 0
        for number in range(COUNT):
            data = drawn_for_choices(SEED, number)
            checked = notes.check(data)
            if isinstance(checked, notes.Refused):
                continue
            wanted = notes.m.sort_changes(checked[1], notes.record(checked[0], notes.ALL))
            contents = Batch.read(data)
            shape, found = Shape(contents.elements), sorted_changes(contents)
            with self.subTest(number=number):
                self.assertEqual([(it.operation, it.target, it.end, it.listed, it.rule) for it in found], [tuple(it) for it in wanted])
                self.assertEqual([range_of(shape, it) for it in found], [notes.m.change_range(checked[1], it) for it in wanted])
            changes += len(found)
        self.assertGreater(changes, COUNT)


if __name__ == "__main__":
    unittest.main()
