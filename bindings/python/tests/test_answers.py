"""The printed case, the marked examples of document 01 and those of document 02, through `Editor`."""

import unittest

from support import PRINTED_CASE, S, number_of, printed_case, text_of, told

from syntax_edit import Answer, BatchBuilder, Dependent, Discarded, Editor, Node, Note, Overlap, Own, Refusal, Share, Token, Withdrawn


class PrintedCase(unittest.TestCase):
    def test_printed(self):
        batch = printed_case().finish()
        self.assertEqual(batch.bytes, PRINTED_CASE)
        answer = Editor().edit(batch)
        self.assertEqual(str(answer), "ok 4 3 1 1 0 0\nn 1 3\nt 2 1\nt 4 1\nt 3 1\ntext 616362\nchanged 2 0\nnote 9 2\n")
        self.assertEqual(answer.elements, (Node(1, 3), Token(2, b"a"), Token(4, b"c"), Token(3, b"b")))
        self.assertEqual((answer.changed, answer.rules, answer.notes), ((2,), (0,), (Note(9, 2),)))
        self.assertEqual((answer.text, answer.discarded, answer.climb_steps), (b"acb", 0, 0))

    def test_other_calls(self):
        editor, batch = Editor(), printed_case().finish()
        self.assertEqual(editor.account(batch), [Own()])
        self.assertEqual(editor.share(batch), Share(333, 1))
        self.assertEqual(editor.kept(batch), [(0, 0), (1, 1), (2, 3)])
        self.assertEqual([editor.find_element(batch, it) for it in (0, 1, 3, 9_999, 1 << 70, -1)], [0, None, None, None, None, None])

    def test_bytes_are_taken_too(self):
        for held in (PRINTED_CASE, bytearray(PRINTED_CASE), memoryview(PRINTED_CASE)):
            self.assertEqual(Editor().edit(held).text, b"acb")

    def test_empty_text(self):
        batch = BatchBuilder()
        with batch.node(1):
            pass
        self.assertEqual(str(Editor().edit(batch.finish())), "ok 1 0 0 0 0 0\nn 1 0\ntext\n")
        self.assertEqual(Editor().share(batch.finish()), (0, 0))

    def test_bytes_that_are_no_answer(self):
        words = [1, 1, 0, 0, 0, 0, 2, 2**32 - 1]
        token = b"".join(it.to_bytes(4, "little") for it in words) + b"\0"
        for data in (b"", bytes(23), b"\xff" * 24, token):
            self.assertIsNone(Answer.read(data))


class Insertions(unittest.TestCase):
    def test_marked_examples(self):
        def first_and_run(it):
            it.batch.insert_first(it.x, [it.c, it.d])
            it.batch.next_editor()
            it.batch.replace_all(it.x, it.x, [it.d])

        self.assertEqual(text_of(told(lambda it: (it.batch.insert_after(it.x, [it.c]), it.batch.insert_after(it.x, [it.d])))), ("adcb", 0))
        self.assertEqual(text_of(told(lambda it: (it.batch.delete(it.x), it.batch.insert_after(it.x, [it.c])))), ("b", 1))
        self.assertEqual(text_of(told(lambda it: (it.batch.delete(it.a), it.batch.insert_after(it.a, [it.c])))), ("cb", 0))
        self.assertEqual(text_of(told(lambda it: (it.batch.delete(it.x), it.batch.insert_after(it.b, [it.c])))), ("bc", 0))
        self.assertEqual(text_of(told(first_and_run)), ("db", 1))

    def test_an_empty_node_takes_insertions(self):
        def template(calls):
            batch = BatchBuilder()
            with batch.node(1):
                with batch.node(2) as z:
                    pass
                batch.token(3, "b")
            with batch.node(1):
                c, d = batch.token(3, "c"), batch.token(3, "d")
            calls(batch, z, c, d)
            answer = Editor().edit(batch.finish())
            return answer.text, answer.discarded

        self.assertEqual(template(lambda it, z, c, d: it.insert_first(z, [c])), (b"cb", 0))
        self.assertEqual(template(lambda it, z, c, d: (it.insert_first(z, [c]), it.insert_first(z, [d]))), (b"dcb", 0))
        self.assertEqual(template(lambda it, z, c, d: (it.insert_first(z, [c]), it.delete(z))), (b"b", 1))

    def test_at_the_edge(self):
        """The closing call: the block's last statement is deleted, c goes in after the block, and both end at one offset."""
        batch = BatchBuilder()
        with batch.node(1):
            with batch.node(2) as block:
                batch.token(3, "s")
                with batch.node(4) as t:
                    batch.token(3, "t")
            batch.token(3, "u")
        with batch.node(1):
            c = batch.token(3, "c")
        batch.delete(t)
        batch.insert_after(block, [c])
        held = batch.finish()
        self.assertEqual([Editor(edge).edit(held).text for edge in (0, 1)], [b"su", b"scu"])
        self.assertEqual([Editor(edge).account(held) for edge in (0, 1)], [[Own(), Discarded(0)], [Own(), Own()]])


class Replacements(unittest.TestCase):
    def test_marked_examples(self):
        self.assertEqual(text_of(told(lambda it: (it.batch.replace(it.x, it.c), it.batch.delete(it.x)))), ("b", 0))
        self.assertEqual(text_of(told(lambda it: (it.batch.delete(it.x), it.batch.replace(it.x, it.c)))), ("b", 0))
        self.assertEqual(text_of(told(lambda it: (it.batch.replace_with_many(it.x, [it.d]), it.batch.replace(it.a, it.c)))), ("db", 1))
        self.assertEqual(text_of(told(lambda it: (it.batch.replace_all(it.x, it.b, []), it.batch.replace(it.b, it.c)))), 8)
        self.assertEqual(text_of(told(lambda it: (it.batch.replace(it.root, it.c - 1), it.batch.replace(it.x, it.d)))), 8)

    def replaced_by_r(self, mapped):
        """X by R(X'(a)), c after a; X mapped to X' or not."""
        it = S()
        with it.batch.node(4) as r:
            with it.batch.node(2) as inner:
                it.batch.token(3, "a")
        it.batch.replace(it.x, r)
        it.batch.insert_after(it.a, [it.c])
        if mapped:
            it.batch.map(it.x, inner)
        return it

    def test_a_dependent_follows_its_mapping(self):
        it = self.replaced_by_r(True)
        self.assertEqual(text_of(it), ("acb", 0))
        batch, editor = it.batch.finish(), Editor()
        answer = editor.edit(batch)
        self.assertEqual((answer.changed, answer.climb_steps), ((1,), 1))
        self.assertEqual(editor.account(batch), [Own(), Dependent(0)])
        # The root is found where it was; X's kind and start are X''s now; tokens and other trees' nodes are none.
        self.assertEqual([editor.find_element(batch, it) for it in (0, 1, 2, 4, 9_999)], [0, 2, None, None, None])
        self.assertEqual(text_of(self.replaced_by_r(False)), 9)


class Accounts(unittest.TestCase):
    def accounted(self, calls, edge=0, stronger=0):
        return Editor(edge, stronger).account(told(calls).batch.finish())

    def test_fates(self):
        self.assertEqual(self.accounted(lambda it: None), [])
        self.assertEqual(self.accounted(lambda it: (it.batch.delete(it.x), it.batch.insert_after(it.x, [it.c]))), [Own(), Discarded(0)])
        # The change of b empties the stack: c is performed on its own, and lost with X.
        lost = lambda it: (it.batch.delete(it.x), it.batch.replace(it.b, it.d), it.batch.insert_after(it.a, [it.c]))  # noqa: E731
        self.assertEqual(self.accounted(lost), [Own()] * 3)
        self.assertEqual(text_of(told(lost)), ("d", 0))
        self.assertEqual([str(it) for it in (Own(), Dependent(3), Discarded(4), Withdrawn(0))], ["own", "dependent 3", "discarded 4", "withdrawn 0"])

    def test_an_overlap_names_the_pair(self):
        def calls(it):
            it.batch.insert_first(it.root, [it.c])
            it.batch.replace_all(it.x, it.b, [])
            it.batch.replace(it.b, it.d)

        with self.assertRaises(Overlap) as raised:
            self.accounted(calls)
        overlap = raised.exception
        self.assertEqual((overlap.first, overlap.second, overlap.number, overlap.meaning), (1, 2, 8, "replacements overlap"))
        self.assertEqual(str(overlap), "changes 1 and 2 overlap")
        self.assertEqual(number_of(lambda: Editor().account(b"")), 2)


class Rules(unittest.TestCase):
    def ruled(self, it):
        """The changed elements, each with its rule number."""
        answer = Editor().edit(it.batch.finish())
        return list(zip(answer.changed, answer.rules))

    def test_told_with_what_they_changed(self):
        it = S()
        it.batch.rule(3).insert_after(it.b, [it.c, it.d])
        it.batch.rule(2).insert_first(it.x, [it.c])
        it.batch.rule(0).insert_after(it.x, [it.d])
        self.assertEqual(self.ruled(it), [(2, 2), (4, 0), (6, 3), (7, 3)])
        self.assertTrue(str(Editor().edit(it.batch.finish())).endswith("changed 2 2\nchanged 4 0\nchanged 6 3\nchanged 7 3\n"))

    def test_by_rule_lends_its_number(self):
        it = S()
        it.batch.rule(7)
        with it.batch.by_rule(9) as builder:
            builder.insert_after(it.x, [it.c])
            with builder.by_rule(4_095):
                builder.replace(it.b, it.d)
        it.batch.insert_first(it.x, [it.d])
        self.assertEqual(self.ruled(it), [(2, 7), (4, 9), (5, 4_095)])

    def test_by_rule_ends_with_a_fault_too(self):
        it = S()
        with self.assertRaises(KeyError), it.batch.by_rule(9):
            raise KeyError
        it.batch.insert_after(it.x, [it.c])
        self.assertEqual(self.ruled(it), [(3, 0)])

    def test_merging_keeps_the_number_of_the_last_effect(self):
        def merged(*by):
            it = S()
            for rule, which in by:
                it.batch.rule(rule).replace(it.x, it.c if which == "c" else it.d)
            return self.ruled(it)

        self.assertEqual(merged((1, "c"), (2, "d"), (3, "c")), [(1, 3)])
        self.assertEqual(merged((1, "c"), (2, "c")), [(1, 1)])
        self.assertEqual(merged((2, "c"), (0, "d")), [(1, 0)])

    def test_a_further_editor_has_no_number_and_does_not_merge(self):
        it = S()
        it.batch.rule(1).insert_after(it.x, [it.c])
        it.batch.next_editor()
        it.batch.insert_after(it.x, [it.c])
        it.batch.rule(2).insert_after(it.x, [it.d])
        self.assertEqual(self.ruled(it), [(3, 2), (4, 1), (5, 1)])


class StrongerRulesFirst(unittest.TestCase):
    def two_books(self, first, second):
        """Two rule books, each with an editor of its own, replace X."""
        it = S()
        it.batch.rule(first).replace(it.x, it.c)
        it.batch.next_editor()
        it.batch.rule(second).replace(it.x, it.d)
        return it

    def chosen(self, it, edge, stronger):
        """The text, or the refusal's number; and the account."""
        try:
            return text_of(it, edge, stronger), Editor(edge, stronger).account(it.batch.finish())
        except Overlap as overlap:
            return text_of(it, edge, stronger), (overlap.first, overlap.second)

    def test_of_two_rule_books_the_stronger_one_wins(self):
        for edge in (0, 1):
            for first, second in ((1, 2), (2, 1), (2, 2), (0, 4_095)):
                self.assertEqual(self.chosen(self.two_books(first, second), edge, 0), (8, (0, 1)))
            self.assertEqual(self.chosen(self.two_books(1, 2), edge, 1), (("db", 0), [Withdrawn(1), Own()]))
            self.assertEqual(self.chosen(self.two_books(2, 1), edge, 1), (("cb", 0), [Own(), Withdrawn(0)]))
            self.assertEqual(self.chosen(self.two_books(0, 4_095), edge, 1), (("db", 0), [Withdrawn(1), Own()]))
            # Of one number neither is withdrawn.
            self.assertEqual(self.chosen(self.two_books(2, 2), edge, 1), (8, (0, 1)))

    def test_what_is_withdrawn_is_not_told_as_changed(self):
        batch, editor = self.two_books(1, 2).batch.finish(), Editor(stronger=1)
        answer = editor.edit(batch)
        self.assertEqual((answer.changed, answer.rules), ((1,), (2,)))
        self.assertEqual((editor.find_element(batch, 0), editor.share(batch), editor.kept(batch)), (0, (500, 0), [(0, 0), (3, 2)]))


class Survivors(unittest.TestCase):
    def test_pairs(self):
        def kept(calls):
            return Editor().kept(told(calls).batch.finish())

        self.assertEqual(kept(lambda it: None), [(0, 0), (1, 1), (2, 2), (3, 3)])
        self.assertEqual(kept(lambda it: it.batch.delete(it.x)), [(0, 0), (3, 1)])
        self.assertEqual(kept(lambda it: it.batch.replace(it.a, it.c)), [(0, 0), (1, 1), (3, 3)])
        self.assertEqual(kept(lambda it: it.batch.insert_after(it.x, [it.c, it.d])), [(0, 0), (1, 1), (2, 2), (3, 5)])
        # A copy is no survivor: X goes, and what is put in for it is new.
        self.assertEqual(kept(lambda it: it.batch.replace(it.x, it.x)), [(0, 0), (3, 3)])
        self.assertEqual(kept(lambda it: it.batch.replace(it.root, it.c - 1)), [])

    def test_refusals_are_raised_by_each_call(self):
        batch, editor = self.two_replace(), Editor()
        for ask in (editor.edit, editor.account, editor.share, editor.kept, lambda it: editor.find_element(it, 0)):
            with self.assertRaises(Refusal) as raised:
                ask(batch)
            self.assertEqual(raised.exception.number, 8)

    def two_replace(self):
        return told(lambda it: (it.batch.replace_all(it.x, it.b, []), it.batch.replace(it.b, it.c))).batch.finish()


if __name__ == "__main__":
    unittest.main()
