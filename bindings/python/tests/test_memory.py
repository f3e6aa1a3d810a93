"""What the calls leave in every slice, of any length: demand 1, with refusals 1, 13, 14, 15, 17 and 18."""

import unittest

from support import DOSING, NODE, OVERLAP, PRINTED_CASE, RULE_0, cleared, dirty, filled

from syntax_edit import raw

#: The printed case as lists.
LISTS = raw.Lists(2, [NODE | 1, 2, 3, NODE | 1, 4], [2, 1, 1, 1, 1], b"abc", [1], [1], [0], [1], [4], [], [], [4], [9])

#: The calls that write into a result slice, and those that do not.
WRITING = (raw.edit, raw.account, raw.kept)
TELLING = (lambda choices, batch, work: raw.find_element(choices, batch, 0, work), raw.share)


def lengths(place=None, by=0):
    """The lengths of the work slices, one of them another."""
    return [least + by * (i == place) for i, least in enumerate(raw.LENGTHS)]


class Memory(unittest.TestCase):
    def asked(self, call, batch, result, work, choices=RULE_0):
        """What a call tells; its work slices end as zeros, and the batch is as it was."""
        before = bytes(bytearray(batch))
        told = call(choices, batch, result, work)
        self.assertTrue(cleared(work))
        self.assertEqual(batch, before)
        return told

    def test_an_answer_leaves_the_rest_of_the_result(self):
        for call in WRITING:
            for batch in (PRINTED_CASE, DOSING):
                result = filled(70_000)
                length = self.asked(call, batch, result, dirty(raw.LENGTHS))
                self.assertGreater(length, 0)
                self.assertEqual(bytes(result)[length:], b"\xa5" * (70_000 - length))
                # Just enough room, with nothing beyond it; and less, which is 13 and writes nothing.
                exact = filled(length, 0)
                self.assertEqual(self.asked(call, batch, exact, dirty(raw.LENGTHS)), length)
                self.assertEqual(bytes(exact), bytes(result)[:length])
                for room in {0, 1, length // 2, length - 1}:
                    short = filled(room, 0x5A)
                    self.assertEqual(self.asked(call, batch, short, dirty(raw.LENGTHS)), -13)
                    self.assertEqual(bytes(short), b"\x5a" * room)

    def test_an_account_and_pairs(self):
        for batch, text in ((PRINTED_CASE, b"0 own\n"), (OVERLAP, b"overlap 0 1\n")):
            result = filled(100)
            self.assertEqual(self.asked(raw.account, batch, result, dirty(raw.LENGTHS)), len(text))
            self.assertEqual(bytes(result), text + b"\xa5" * (100 - len(text)))
        result = filled(100)
        self.assertEqual(self.asked(raw.kept, PRINTED_CASE, result, dirty(raw.LENGTHS)), 24)
        self.assertEqual(bytes(result), b"".join(it.to_bytes(4, "little") for it in (0, 1, 2, 0, 1, 3)) + b"\xa5" * 76)

    def test_a_refusal_leaves_the_result(self):
        for batch, number in ((OVERLAP, -8), (b"", -2), (b"\7" * 1_000, -3), (PRINTED_CASE[:-1], -4)):
            for call in WRITING:
                if (call, number) == (raw.account, -8):
                    continue
                result = filled(1_000)
                self.assertEqual(self.asked(call, batch, result, dirty(raw.LENGTHS)), number)
                self.assertEqual(bytes(result), b"\xa5" * 1_000)
            for call in TELLING:
                work = dirty(raw.LENGTHS)
                self.assertEqual(call(RULE_0, batch, work), number)
                self.assertTrue(cleared(work))

    def test_a_short_work_slice_is_refused_and_cleared(self):
        for place, least in enumerate(raw.LENGTHS):
            for by in (-1, 1 - least, -least):
                for call in WRITING:
                    result = filled(1_000)
                    self.assertEqual(self.asked(call, PRINTED_CASE, result, dirty(lengths(place, by))), -1)
                    self.assertEqual(bytes(result), b"\xa5" * 1_000)
                for call in TELLING:
                    work = dirty(lengths(place, by))
                    self.assertEqual(call(RULE_0, PRINTED_CASE, work), -1)
                    self.assertTrue(cleared(work))

    def test_a_longer_work_slice_is_cleared_whole(self):
        longer = [least + 1 + 100 * i for i, least in enumerate(raw.LENGTHS)]
        for call in WRITING:
            self.assertGreater(self.asked(call, PRINTED_CASE, filled(1_000), dirty(longer)), 0)
        for call in TELLING:
            work = dirty(longer)
            self.assertGreaterEqual(call(RULE_0, PRINTED_CASE, work), 0)
            self.assertTrue(cleared(work))

    def test_a_wrong_edge_rule_first_and_then_a_wrong_choice(self):
        most = (1 << 64) - 1
        for edge, stronger, number in [
            (0, 0, -1), (1, 0, -1), (0, 1, -1), (1, 1, -1), (2, 0, -17), (most, 1, -17), (2, 2, -17), (most, most, -17), (0, 2, -18), (1, 10, -18), (1, most, -18),
        ]:  # fmt: skip
            choices = raw.Choices(edge, stronger)
            for call in WRITING:
                result = filled(1_000)
                self.assertEqual(self.asked(call, b"", result, dirty(lengths(4, -1)), choices), number)
                self.assertEqual(bytes(result), b"\xa5" * 1_000)
            for call in TELLING:
                work = dirty(lengths(4, -1))
                self.assertEqual(call(choices, b"", work), number)
                self.assertTrue(cleared(work))

    def test_a_share_is_one_number(self):
        self.assertEqual(raw.share(RULE_0, DOSING, raw.work()), 513 * raw.THOUSANDTH + 19)


class Writer(unittest.TestCase):
    def written(self, lists, room, more=(0, 0, 0)):
        """What the writer tells and leaves in a destination; the work slices are longer or shorter than they need to be by these numbers."""
        destination, draft = filled(room), filled(max(raw.DRAFT + more[0], 0))
        work = (draft, *dirty([raw.LENGTHS[0] + more[1], raw.LENGTHS[1] + more[2]]))
        told = raw.write(lists, destination, work)
        self.assertTrue(cleared(work))
        return told, bytes(destination)

    def test_a_batch_leaves_the_rest_of_the_destination(self):
        for room, more in ((91, (0, 0, 0)), (92, (1, 7, 100)), (65_536, (0, 0, 0))):
            self.assertEqual(self.written(LISTS, room, more), (91, PRINTED_CASE + b"\xa5" * (room - 91)))

    def test_a_rule_number_goes_into_the_call_word(self):
        for rule in (0, 1, 255, 256, 4_094, 4_095):
            wanted = PRINTED_CASE[:68] + (1 | 1 << 8 | rule << 20).to_bytes(4, "little") + PRINTED_CASE[72:]
            self.assertEqual(self.written(LISTS._replace(rules=[rule]), 91), (91, wanted))

    def refuses(self, lists, room, number, more=(0, 0, 0)):
        self.assertEqual(self.written(lists, room, more), (-number, b"\xa5" * room))

    def test_a_refused_write_leaves_the_destination(self):
        for room in range(91):
            self.refuses(LISTS, room, 15)
        for less in (-1, -60_000):
            for place in range(3):
                more = tuple(less * (i == place) for i in range(3))
                self.refuses(LISTS, 91, 1, more)
                self.refuses(raw.Lists(), 0, 1, more)

    def test_14_comes_before_15(self):
        """Lists out of step, parts that do not fit their word, sizes out of their limits, what lines 5 to 7 refuse."""
        it = LISTS._replace
        for lists in [
            it(measures=[2, 1, 1, 1]),
            it(counts=[]),
            it(rules=[]),
            it(targets=[1, 1]),
            it(outputs=[0]),
            it(numbers=[]),
            it(operations=[257], counts=[0], listed=[4]),
            it(counts=[1 << 12 | 1]),
            it(rules=[4_096]),
            it(rules=[2**32 - 1]),
            it(rules=[0, 0]),
            it(operations=[6], counts=[0], rules=[1], targets=[0], listed=[]),
            it(trees=1 << 32 | 2),
            it(trees=1 << 64 | 2),
            it(text=bytes(16_385)),
            it(trees=3),
            it(targets=[0]),
            it(noted=[5]),
            raw.Lists(),
        ]:
            self.refuses(lists, 91, 14)
            self.refuses(lists, 0, 14)

    def test_a_load_leaves_the_rest_of_the_destination(self):
        destination, work = filled(raw.MOST_LOAD + 9), raw.writer_work()
        length = raw.load(2**32 - 1, destination, work)
        self.assertTrue(cleared(work))
        self.assertEqual(bytes(destination)[length:], b"\xa5" * (raw.MOST_LOAD + 9 - length))
        short = filled(length - 1)
        self.assertEqual(raw.load(2**32 - 1, short, work), -15)
        self.assertEqual(bytes(short), b"\xa5" * (length - 1))
        self.assertGreater(raw.edit(RULE_0, bytes(destination)[:length], raw.room(raw.MOST_ANSWER), raw.work()), 0)


if __name__ == "__main__":
    unittest.main()
