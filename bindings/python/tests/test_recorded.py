"""The recorded cases of the oracle, 582 of the Rust and 27 of choices of their own: every byte of every answer, every refusal, every recorded `find_element` call.

The recording has no accounts, shares and pairs. They are held to what it has: the same refusals, the count of discarded changes, the share that the recorded changed elements make,
and the checker, which accepts the recorded tree with these pairs where no root is replaced and no change is dependent.
"""

import unittest

from support import cleared, filled, number_of, recorded_cases

from syntax_edit import Answer, Checker, Claim, Dependent, Discarded, Editor, Flat, Overlap, Own, Refusal, Withdrawn, raw
from syntax_edit.batch import DELETE, INSERT_AFTER, INSERT_FIRST, REPLACE, REPLACE_ALL, Batch
from syntax_edit.changes import in_order, range_of, recorded
from syntax_edit.shape import Shape
from syntax_edit.tree import Node

CASES = recorded_cases()
ACCEPTED = [(number, it) for number, it in enumerate(CASES) if not it.refusal]

#: How many changes of the accepted cases are discarded, and of how many cases the checker is asked: counted once, to see that the tests go where they say.
DISCARDED, CHECKED = 130, 227


def share_of(answer):
    """The share of the text in changed elements, counted out byte by byte."""
    shape = Shape(answer.elements)
    inside = {at for it in answer.changed for at in range(*shape.range(it))}
    return divmod(1_000 * len(inside), len(answer.text)) if answer.text else (0, 0)


class Recorded(unittest.TestCase):
    def test_counts(self):
        self.assertEqual((len(CASES), len(ACCEPTED), sum(len(it.finds) for it in CASES)), (609, 326, 1_010))

    def test_every_byte(self):
        result, work, longest = filled(65_536), raw.work(), 0
        for number, case in enumerate(CASES):
            with self.subTest(case=number):
                before = bytes(result)
                answer = raw.edit(case.choices, case.batch, result, work)
                self.assertTrue(cleared(work))
                self.assertEqual(answer, -case.refusal or len(case.result))
                self.assertEqual(bytes(result), case.result + before[len(case.result) :])
                if case.refusal == 13:
                    longest = max(longest, raw.edit(case.choices, case.batch, raw.room(raw.MOST_ANSWER), work))
        self.assertEqual(longest, raw.MOST_ANSWER)

    def test_answers_and_found_elements(self):
        for number, case in enumerate(CASES):
            editor = Editor(*case.choices)
            with self.subTest(case=number):
                if case.refusal == 13:  # An editor has room for every answer.
                    continue
                if case.refusal:
                    self.assertEqual(number_of(lambda: editor.edit(case.batch)), case.refusal)
                else:
                    self.assertEqual(editor.edit(case.batch), Answer.read(case.result))
                for old, new in case.finds:
                    self.assertEqual(editor.find_element(case.batch, old), new)


class Accounts(unittest.TestCase):
    def test_refusals(self):
        """The same numbers, and of 8 a pair of changes. 13 is the account's, as the programs', however much room it has; shares and pairs have no long result."""
        for number, case in enumerate(CASES):
            editor = Editor(*case.choices)
            if not case.refusal:
                continue
            with self.subTest(case=number):
                for ask in (editor.share, editor.kept):
                    self.assertEqual(number_of(lambda: ask(case.batch)), None if case.refusal == 13 else case.refusal)
                with self.assertRaises(Overlap if case.refusal == 8 else Refusal) as raised:
                    editor.account(case.batch)
                self.assertEqual(raised.exception.number, case.refusal)

    def test_a_line_for_each_recorded_change(self):
        discarded = 0
        for number, case in ACCEPTED:
            with self.subTest(case=number):
                fates = Editor(*case.choices).account(case.batch)
                self.assertEqual(sum(isinstance(it, Discarded) for it in fates), Answer.read(case.result).discarded)
                self.assertEqual(len(fates), len(recorded(Batch.read(case.batch).calls)))
                discarded += sum(isinstance(it, Discarded) for it in fates)
        self.assertEqual(discarded, DISCARDED)

    def test_each_line_fits_its_change(self):
        """The numbers are those of `changes`: by edge rule 0 the named change has the other's range in its own, and is one that can be named so."""
        for number, case in ACCEPTED:
            batch = Batch.read(case.batch)
            shape = Shape(batch.elements)
            changes = in_order(shape, recorded(batch.calls))
            with self.subTest(case=number):
                for change, fate in zip(changes, Editor(*case.choices).account(case.batch)):
                    if not isinstance(fate, Own):
                        self.fits(shape, batch, change, changes[fate.change], fate, case.choices.edge)

    def fits(self, shape, batch, change, over, fate, edge):
        self.assertEqual(shape.places[change.target].tree, shape.places[over.target].tree)
        self.assertNotIn(over.operation, (INSERT_FIRST, INSERT_AFTER))
        if isinstance(fate, Withdrawn):
            self.assertGreater(over.rule, change.rule)
            return
        if isinstance(fate, Dependent):
            self.assertEqual(over.operation, REPLACE)
            self.assertIsInstance(batch.elements[over.listed[0]], Node)
        self.assertTrue(over.operation == REPLACE_ALL or isinstance(batch.elements[over.target], Node))
        if edge == 0:
            (start, end), (low, high) = range_of(shape, change), range_of(shape, over)
            self.assertTrue(low <= start and end <= high)

    def test_overlaps_name_two_that_overlap(self):
        for case in (it for it in CASES if it.refusal == 8):
            batch = Batch.read(case.batch)
            shape = Shape(batch.elements)
            changes = in_order(shape, recorded(batch.calls))
            with self.assertRaises(Overlap) as raised:
                Editor(*case.choices).account(case.batch)
            overlap = raised.exception
            first, second = changes[overlap.first], changes[overlap.second]
            self.assertLess(overlap.first, overlap.second)
            self.assertGreater(range_of(shape, first)[1], range_of(shape, second)[0])
            self.assertEqual(shape.places[first.target].tree, shape.places[second.target].tree)
            for it in (first, second):
                self.assertIn(it.operation, (REPLACE, DELETE, 4, REPLACE_ALL))


class SharesAndPairs(unittest.TestCase):
    def test_shares(self):
        for number, case in ACCEPTED:
            with self.subTest(case=number):
                self.assertEqual(Editor(*case.choices).share(case.batch), share_of(Answer.read(case.result)))

    def test_pairs(self):
        checked = 0
        for number, case in ACCEPTED:
            with self.subTest(case=number):
                checked += self.pairs_fit(case)
        self.assertEqual(checked, CHECKED)

    def pairs_fit(self, case):
        """Pairs rise and have equal kinds and texts; whether the checker was asked too."""
        editor, answer = Editor(*case.choices), Answer.read(case.result)
        batch = Batch.read(case.batch)
        old = batch.elements[: Shape(batch.elements).places[0].after]
        pairs = editor.kept(case.batch)
        self.assertEqual([it[0] for it in pairs], sorted({it[0] for it in pairs}))
        for i, j in pairs:
            self.assertEqual(old[i].word, answer.elements[j].word)
        if 0 in answer.changed or any(isinstance(it, Dependent) for it in editor.account(case.batch)):
            return False
        claim = Claim(Flat.of(old), answer.tree, [it[0] for it in pairs], [it[1] for it in pairs], answer.changed)
        self.assertTrue(Checker().check(claim))
        return True


if __name__ == "__main__":
    unittest.main()
