"""Batches read back and written again, and loads."""

import sys
import unittest
from struct import pack

from support import DOSING, PRINTED_CASE, ROOT, S, example, number_of, recorded_cases

from syntax_edit import Batch, BatchBuilder, Call, Flat, Node, Note, Sizes, Token

sys.path.insert(0, str(ROOT / "oracle"))

import load  # noqa: E402


class Reading(unittest.TestCase):
    def test_the_printed_case(self):
        it = Batch.read(PRINTED_CASE)
        self.assertEqual(it.sizes, Sizes(trees=2, elements=5, text=3, calls=1, listed=1, mappings=0, notes=1))
        self.assertEqual(it.elements, (Node(1, 2), Token(2, b"a"), Token(3, b"b"), Node(1, 1), Token(4, b"c")))
        self.assertEqual((it.calls, it.calls[0].count), ((Call(1, 1, (4,), 0),), 1))
        self.assertEqual((it.mappings, it.notes), ((), (Note(9, 4),)))

    def test_calls_of_every_operation(self):
        it = S()
        it.batch.rule(4_095).insert_first(it.x, [])
        it.batch.insert_after(it.b, [it.c] * 41)
        with it.batch.by_rule(0):
            it.batch.replace(it.a, it.d)
        it.batch.next_editor()
        it.batch.rule(7).delete(it.x)
        it.batch.replace_with_many(it.x, [it.c, it.d])
        it.batch.replace_all(it.x, it.b, [it.c])
        it.batch.map(it.root, it.x)
        wanted = [(0, 0, 4_095), (1, 41, 4_095), (2, 1, 0), (6, 0, 0), (3, 0, 7), (4, 2, 7), (5, 2, 7)]
        batch = it.batch.finish()
        read = Batch.read(batch)
        self.assertEqual([(call.operation, call.count, call.rule) for call in read.calls], wanted)
        self.assertEqual([call.target for call in read.calls], [it.x, it.b, it.a, 0, it.x, it.x, it.x])
        self.assertEqual((read.calls[5].listed, read.calls[6].listed), ((it.c, it.d), (it.b, it.c)))
        self.assertEqual(read.mappings, ((it.root, it.x),))
        self.assertEqual(read.write(), batch)

    def test_examples_are_written_again(self):
        for path in sorted((ROOT / "examples").glob("*.batch")):
            data = example(path.name)
            self.assertEqual(Batch.read(data).write().bytes, data, path.name)

    def test_recorded_batches_are_written_again(self):
        """Byte for byte, if lines 2 to 7 and 16 pass them; else reading raises what refuses them."""
        written = 0
        for number, case in enumerate(recorded_cases()):
            with self.subTest(case=number):
                if case.refusal in (2, 3, 4, 5, 6, 7, 16):
                    self.assertEqual(number_of(lambda: Batch.read(case.batch)), case.refusal)
                else:
                    self.assertEqual(Batch.read(case.batch).write().bytes, case.batch)
                    written += 1
        self.assertEqual(written, 470)

    def test_a_builder_lays_out_what_was_read(self):
        """The elements told one by one, and as whole trees."""
        it = Batch.read(DOSING)
        one_by_one, whole = BatchBuilder(), BatchBuilder()
        tell(one_by_one, it.elements)
        at = 0
        for root, after in trees(it.elements):
            whole.tree(Flat.of(it.elements[root:after]))
            at = after
        self.assertEqual(at, len(it.elements))
        for batch in (one_by_one, whole):
            batch.replace(6, 13)
            batch.insert_after(9, [16])
            for note in it.notes:
                batch.note(note.element, note.number)
            self.assertEqual(batch.finish().bytes, DOSING)

    def test_values(self):
        batch = Batch(bytearray(PRINTED_CASE))
        self.assertEqual((batch, hash(batch), repr(batch)), (Batch(PRINTED_CASE), hash(Batch(PRINTED_CASE)), "Batch(of 91 bytes)"))
        self.assertNotEqual(batch, PRINTED_CASE)
        self.assertEqual(Batch.read(batch), Batch.read(PRINTED_CASE))


def tell(batch, elements, at=0, count=None):
    """Tells a builder so many trees or children from an element on, all of them without a count; where they end."""
    while at < len(elements) and count != 0:
        it = elements[at]
        at += 1
        if isinstance(it, Token):
            batch.token(it.kind, it.text)
        else:
            with batch.node(it.kind):
                at = tell(batch, elements, at, it.children) if it.children else at
        count = None if count is None else count - 1
    return at


def trees(elements):
    """Of each tree its root and the number after its last element."""
    found, at = [], 0
    while at < len(elements):
        root, owed = at, 1
        while owed:
            owed += elements[at].measure - 1 if isinstance(elements[at], Node) else -1
            at += 1
        found.append((root, at))
    return found


class Loads(unittest.TestCase):
    def test_as_the_page_says(self):
        """Beside oracle/load.py, which is written from docs/LOAD.md alone."""
        for start in [*range(64), 12_345, 2**31, 2**32 - 1]:
            self.assertEqual(Batch.load(start).bytes, load.load(start))

    def test_read_and_written_again(self):
        batch = Batch.load(7)
        read = Batch.read(batch)
        self.assertEqual((read.sizes.trees, read.sizes.elements, read.sizes.calls, read.sizes.notes), (3, 792, 96, 8))
        self.assertEqual(read.write(), batch)
        self.assertEqual(pack("<7I", *read.sizes), batch.bytes[:28])


if __name__ == "__main__":
    unittest.main()
