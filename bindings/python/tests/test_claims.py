"""The checker: accepted and rejected claims, a claim for each clause that breaks it alone, every refusal, and what is left in every work slice."""

import unittest
from dataclasses import replace
from struct import unpack_from

from support import NODE, PRINTED_CASE, cleared, dirty, example, number_of

from syntax_edit import Checker, Claim, Editor, Flat, raw

#: root(X(a), b) became root(X(a), c, b).
RIGHT = Claim(
    old=Flat((NODE | 1, NODE | 2, 3, 3), (2, 1, 1, 1), b"ab"),
    new=Flat((NODE | 1, NODE | 2, 3, 3, 3), (3, 1, 1, 1, 1), b"acb"),
    olds=(0, 1, 2, 3),
    news=(0, 1, 2, 4),
    changed=(3,),
)

#: root(a, a) stays.
TWINS = Flat((NODE | 1, 3, 3), (2, 1, 1), b"aa")


def told_with(test, claim, more=(0, 0, 0, 0)):
    """What the call tells of a claim; its work slices, full of a pattern, are longer or shorter than they need to be by these numbers."""
    work = dirty([least + by for least, by in zip(raw.CHECKER_LENGTHS, more)])
    old, new = [(it.kinds, it.measures, it.text) for it in (claim.old, claim.new)]
    answer = raw.check(old, new, claim.olds, claim.news, claim.changed, work)
    test.assertTrue(cleared(work))
    return answer


def told(test, claim):
    """What the call tells and what a checker says, which agree."""
    answer = told_with(test, claim)
    test.assertEqual(told_with(test, claim, (1, 100, 7, 4_096)), answer)
    if answer < 0:
        test.assertEqual(number_of(lambda: Checker().check(claim)), -answer)
    else:
        test.assertIs(Checker().check(claim), answer == 1)
    return answer


def read(data):
    """A claim that is laid out as the program reads it."""
    a, b, c, d, e, f, pairs, changed = unpack_from("<8I", data)
    lists, at = [], 32
    for count in (a, b, d, e, pairs, pairs, changed):
        lists.append(unpack_from(f"<{count}I", data, at))
        at += 4 * count
    assert len(data) == at + c + f
    return Claim(Flat(lists[0], lists[1], data[at : at + c]), Flat(lists[2], lists[3], data[at + c :]), *lists[4:])


def wide(tokens):
    """A root of so many empty tokens."""
    return Flat([NODE | 1] + [2] * tokens, [tokens] + [0] * tokens)


class Verdicts(unittest.TestCase):
    def test_accepted(self):
        for claim in [
            RIGHT,
            replace(RIGHT, changed=(3, 3)),
            replace(RIGHT, olds=(3, 2, 1, 0), news=(4, 2, 1, 0)),
            Claim(TWINS, TWINS, (0, 1, 2), (0, 1, 2), ()),
            read(example("dosing_checked.claim")),
        ]:
            self.assertEqual(told(self, claim), 1)

    def test_our_own_output(self):
        """What the editor answers, with the elements that it kept, is accepted."""
        editor = Editor()
        answer, pairs = editor.edit(PRINTED_CASE), editor.kept(PRINTED_CASE)
        claim = Claim(Flat((NODE | 1, 2, 3), (2, 1, 1), b"ab"), answer.tree, [it[0] for it in pairs], [it[1] for it in pairs], answer.changed)
        self.assertEqual((told(self, claim), told(self, replace(claim, changed=()))), (1, 0))

    def test_rejected_by_each_clause(self):
        """Each breaks one clause and no other."""
        new = RIGHT.new
        for clause, claim in [
            (1, replace(RIGHT, olds=(), news=(), changed=(0,))),
            (2, replace(RIGHT, olds=(0, 1, 2, 3, 3), news=(0, 1, 2, 4, 4))),
            (3, replace(RIGHT, new=replace(new, kinds=(NODE | 1, NODE | 2, 3, 3, 4)))),
            (3, replace(RIGHT, new=replace(new, text=b"acd"))),
            (4, replace(RIGHT, new=replace(new, text=b"aab"), news=(0, 1, 3, 4), changed=(2,))),
            (5, Claim(TWINS, TWINS, (0, 1, 2), (0, 2, 1), ())),
            (6, replace(RIGHT, changed=())),
            (6, replace(RIGHT, changed=(3, 4))),
            (6, replace(RIGHT, changed=(0,))),
        ]:
            self.assertEqual(told(self, claim), 0, f"clause {clause}")
        self.assertEqual(told(self, read(example("dosing_dropped.claim"))), 0)


class Refused(unittest.TestCase):
    def test_a_short_work_slice(self):
        """1: the first thing that is looked at."""
        for place, least in enumerate(raw.CHECKER_LENGTHS):
            for less in (1, 4_000, least):
                more = tuple(-less * (i == place) for i in range(4))
                for claim in (RIGHT, Claim(), replace(RIGHT, olds=(0,) * 5_000)):
                    self.assertEqual(told_with(self, claim, more), -1)

    def test_trees_beyond_their_limits(self):
        """3 is over 4,096 elements or 16,384 bytes of text, whichever list says so, of either tree; it comes before 4."""
        most = wide(4_095)
        self.assertEqual(told(self, Claim(most, most, range(4_096), range(4_096), ())), 1)
        full = Flat((NODE | 1, 2), (1, 16_384), b"a" * 16_384)
        self.assertEqual(told(self, Claim(full, full, (0, 1), (0, 1), ())), 1)
        over = wide(4_096)
        for tree in (over, Flat(over.kinds), Flat((), over.measures), Flat((NODE | 1, 2), (1, 16_385), b"a" * 16_385)):
            self.assertEqual(told(self, replace(RIGHT, old=tree)), -3)
            self.assertEqual(told(self, replace(RIGHT, new=tree, olds=())), -3)

    def test_lists_out_of_step(self):
        """4 comes before 5."""
        for claim in [
            replace(RIGHT, old=replace(RIGHT.old, measures=(2, 1, 1))),
            replace(RIGHT, new=replace(RIGHT.new, kinds=())),
            replace(RIGHT, olds=(0, 1, 2)),
            replace(RIGHT, old=Flat(), news=()),
        ]:
            self.assertEqual(told(self, claim), -4)

    def test_trees_that_are_not_spelled(self):
        """5 comes before 19; a tree of no element is one that is not spelled."""
        for tree in [
            Flat(),
            Flat((3,), (1,), b"a"),
            replace(RIGHT.old, measures=(2, 1, 1, 2)),
            replace(RIGHT.old, measures=(3, 1, 1, 1)),
            replace(RIGHT.old, text=b"abc"),
            replace(RIGHT.old, kinds=(NODE | 1, NODE | 2, 1 << 16 | 3, 3)),
        ]:
            self.assertEqual(told(self, replace(RIGHT, old=tree)), -5)
            self.assertEqual(told(self, replace(RIGHT, new=tree, changed=(9,))), -5)

    def test_a_claim_that_names_no_element(self):
        """19 comes before any clause."""
        for claim in [
            replace(RIGHT, olds=(0, 1, 2, 4)),
            replace(RIGHT, news=(0, 1, 2, 5)),
            replace(RIGHT, changed=(3, 5)),
            replace(RIGHT, olds=(2**32 - 1,), news=(0,), changed=()),
        ]:
            self.assertEqual(told(self, claim), -19)


if __name__ == "__main__":
    unittest.main()
