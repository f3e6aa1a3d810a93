"""Answers of a program held against the Rust's, counted, and told as a table."""

from collections import Counter

from agree import AGREED, DIFFERENT, NOTES, expected, expected_finds, source, verdict
from batches import decode_arrays, word_parts
from program import Stream
from rust import Rust
from shrink import describe, shrink

LABELS = ["ok"] + ["refused %d" % number for number in (*range(2, 14), 16)]


def label(printed):
    words = printed.split()
    return " ".join(words[:2]) if words[:1] == ["refused"] else " ".join(words[:1])


class Comparison:
    def __init__(self, program, find):
        self.rust, self.program, self.find = Rust(), program, find
        self.table, self.facts, self.smallest = Counter(), Counter(), {}

    def differs(self, batch):
        return verdict(batch, self.rust.answer(batch), self.program(batch)) == DIFFERENT

    def one(self, number, batch):
        answer, printed = self.rust.answer(batch), self.program(batch)
        self.judge(number, batch, answer, printed, getattr(self.program, "found", None))

    def many(self, numbered):
        """Batches with their numbers; a program that stays gets them in parts (of 16 KiB and one batch more), and works on one while the Rust does."""
        if not isinstance(self.program, Stream):
            for number, batch in numbered:
                self.one(number, batch)
            return
        part, size = [], 0
        for it in numbered:
            part.append(it)
            size += 4 + len(it[1])
            if size > 16384:
                self.together(part)
                part, size = [], 0
        self.together(part)

    def together(self, numbered):
        batches = [batch for _, batch in numbered]
        self.program.ask(batches)
        self.rust.ask(batches)
        told = [(self.program.told(), self.program.found) for _ in batches]
        answers = [self.rust.told() for _ in batches]
        for (number, batch), answer, (printed, streamed) in zip(numbered, answers, told):
            self.judge(number, batch, answer, printed, streamed)

    def judge(self, number, batch, answer, printed, streamed):
        how = verdict(batch, answer, printed)
        self.table[label(printed)] += 1
        self.note(batch, answer, printed, how)
        if how == DIFFERENT:
            small = shrink(batch, self.differs)
            self.smallest.setdefault(small, []).append(number)
        elif how == AGREED and printed.startswith("ok"):
            for old, got, new in self.finds(number, batch, expected_finds(batch, answer), streamed):
                self.facts["find_element calls compared"] += 1
                self.facts["find_element calls that find none"] += got is None
                if got != new:
                    self.smallest.setdefault(batch, []).append("%d, find_element %d" % (number, old))

    def finds(self, number, batch, wanted, streamed):
        """`find_element`: the number asked for, what the program gives, what is wanted. All that a stream tells, where a number that is no node of
        tree 0 gets none; else one node of tree 0 for every fourth batch."""
        if streamed is not None:
            return [(old, got, wanted.get(old)) for old, got in streamed.items()]
        if self.find is None or number % 4:
            return []
        old = list(wanted)[number // 4 % len(wanted)]
        return [(old, self.find(batch, old), wanted[old])]

    def note(self, batch, answer, printed, how):
        facts = self.facts
        facts["judged by " + {"Rust": "the Rust", "reader": "the oracle's reader (lines 2 to 7, 16)",
              "trees": "what the Rust's trees hold (line 12)",
              "model": "the model alone (the Rust fails on comparing a first-child position in a childless node)"}[source(answer)]] += how != NOTES  # fmt: skip
        facts["refused 12 for tracked notes on the way, which the Rust does not show"] += how == NOTES
        facts["overlap whose report itself panics in the Rust"] += answer.remark.startswith("report panicked")
        if printed.startswith("ok"):
            _, _, changed, notes, discarded, climbs = map(int, printed.split("\n", 1)[0].split()[1:])
            facts["accepted with changed elements"] += changed > 0
            facts["accepted with notes"] += notes > 0
            facts["accepted with discarded changes"] += discarded > 0
            facts["accepted with climb steps"] += climbs > 0
            words = [word_parts(word) for word in decode_arrays(batch)[1][2]]
            facts["accepted with rule numbers"] += any(rule for _, _, rule in words)
            for operation in {operation for operation, _, _ in words}:
                facts["accepted with operation %d" % operation] += 1

    def report(self):
        for batch, numbers in sorted(self.smallest.items(), key=lambda it: len(it[0])):
            answer = self.rust.answer(batch)
            print("different at %s" % ", ".join(map(str, numbers)))
            print("  smallest batch, %d bytes: %s" % (len(batch), batch.hex()))
            for line in describe(batch):
                print("    " + line)
            print("  the program: " + self.program(batch).replace("\n", "; "))
            print("  asked for:   " + expected(batch, answer).replace("\n", "; "))
            print("  the Rust:    " + answer.printed.replace("\n", "; ") + answer.remark)
        for name in LABELS + sorted(set(self.table) - set(LABELS)):
            print("%8d  %s" % (self.table[name], "accepted" if name == "ok" else name))
        for name in sorted(name for name, count in self.facts.items() if count):
            print("%8d  %s" % (self.facts[name], name))
