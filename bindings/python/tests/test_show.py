"""Batches as text: the pictures of examples/README.md, the command, and that every recorded case and example can be shown."""

import os
import re
import subprocess
import sys
import tempfile
import unittest
from dataclasses import replace
from pathlib import Path

from support import PRINTED_CASE, ROOT, S, example, recorded_cases, told

from syntax_edit import MEANINGS, BatchBuilder, Editor, words
from syntax_edit.batch import Batch
from syntax_edit.shape import Shape
from syntax_edit.show import marked, picture, show
from syntax_edit.view import View

README = (ROOT / "examples" / "README.md").read_text()


def blocks():
    """The indented blocks of examples/README.md."""
    found = re.findall(r"(?:^    .*\n|^\n(?=    ))+", README, re.M)
    return [re.sub(r"^    ", "", it.strip("\n"), flags=re.M) + "\n" for it in found]


def run(*arguments, stdin=b""):
    """Status and output of Python with these arguments, at the top, as someone would start it there."""
    environment = {**os.environ, "PYTHONPATH": str(ROOT / "bindings" / "python"), "PYTHONDONTWRITEBYTECODE": "1", "PYTHONUTF8": "1"}
    done = subprocess.run([sys.executable, *arguments], input=stdin, capture_output=True, cwd=ROOT, env=environment)
    return done.returncode, done.stdout, done.stderr.decode()


def command(*arguments, stdin=b""):
    status, out, _ = run("-m", "syntax_edit", "show", *arguments, stdin=stdin)
    return status, out.decode()


class Pictures(unittest.TestCase):
    def test_of_the_examples(self):
        """Each block that starts with a command is what the command shows."""
        (script,) = [it for it in blocks() if it.startswith("import sys\n")]
        with tempfile.TemporaryDirectory() as folder:
            path = Path(folder) / "guarded.py"
            path.write_text(script)
            status, batch, fault = run(str(path))
        self.assertEqual((status, fault), (0, ""))
        self.assertIn("    change 3: own, now element 8\n", show(batch, edge=1))
        shown = dict(it[2:].split("\n", 1) for it in blocks() if it.startswith("$ "))
        self.assertEqual(len(shown), 2)
        for line, wanted in shown.items():
            *before, asked = line.split(" | ")
            self.assertEqual(before, ["python3 guarded.py"] * len(before))
            self.assertEqual(command(*asked.split()[4:], stdin=batch if before else b""), (0, wanted), line)

    def test_lines_that_are_told_of(self):
        """The lines of other examples that the README cites."""
        self.assertIn("    change 0: withdrawn under change 1 (call 3, rule 12)\n", show(example("books.batch"), stronger=1))
        self.assertIn("    change 2: own, but nothing of it is in the new tree\n", show(example("lost.batch")))
        for line in ("change 0: withdrawn under change 1 (call 3, rule 12)", "change 2: own, but nothing of it is in the new tree"):
            self.assertIn(f"`{line}`", README)


class Refused(unittest.TestCase):
    def test_an_overlap_as_the_two_calls(self):
        told_here = show(example("books.batch"))
        wanted = (
            "\nrefused 8: replacements overlap\n"
            "    change 0: call 0, rule 7: replace suspend(); (element 6) by measure(); (element 13)\n"
            "    change 1: call 3, rule 12: replace suspend(); (element 6) by resume(); (element 16)\n"
        )
        self.assertTrue(told_here.endswith(wanted), told_here)

    def test_what_is_not_well_formed(self):
        self.assertEqual(show(PRINTED_CASE[:27]), f"refused 2: {MEANINGS[2]}\n")
        self.assertEqual(show(PRINTED_CASE[:-1]), f"refused 4: {MEANINGS[4]}\n")

    def malformed(self, place, word):
        """The last two lines of the printed case with one word replaced: the refusal, and what it is about."""
        lines = show(PRINTED_CASE[: 4 * place] + word.to_bytes(4, "little") + PRINTED_CASE[4 * place + 4 :]).splitlines()
        self.assertEqual(lines[:6], show(PRINTED_CASE).splitlines()[:6])
        return lines[-2:]

    def test_the_first_that_is_not_well_formed(self):
        """The call word is word 17, then its target, what it lists, the note's element and its number."""
        for place, word, number, wanted in [
            (17, 263, 6, "call 0: operation 7, target 1, lists 4"),
            (17, 1, 6, "the counts of the calls do not add up to the listed elements"),
            (17, 513 | 3 << 20, 6, "the counts of the calls do not add up to the listed elements"),
            (18, 0, 6, "call 0: operation 1, target 0, lists 4"),
            (19, 5, 6, "call 0: operation 1, target 1, lists 5"),
            (20, 5, 7, "note 0: number 9 on element 5"),
            (21, 0, 7, "note 0: number 0 on element 4"),
        ]:
            self.assertEqual(self.malformed(place, word), [f"refused {number}: {MEANINGS[number]}", "    " + wanted])

    def test_a_mapping_to_a_root_and_a_call_that_lists_too_many(self):
        it = S()
        it.batch.map(it.root, it.x)
        data = bytearray(it.batch.finish().bytes)
        data[-8:-4] = (it.root).to_bytes(4, "little")
        self.assertIn("\n    mapping 0: element 0 to element ", show(data))
        it = S()
        it.batch.insert_after(it.b, [it.c] * 41)
        it.batch.rule(9).insert_after(it.b, [it.c])
        read = Batch.read(it.batch.finish())
        for calls in ((read.calls[1], read.calls[0]), read.calls):
            data = bytearray(replace(read, calls=calls).write().bytes)
            elements, at = data[4], calls.index(read.calls[0])
            # One more in the size, in the call's word and in the list.
            data[16] += 1
            data[4 * (7 + 2 * elements + at) + 1] += 1
            where = 4 * (7 + 2 * elements + 4)
            data[where:where] = it.c.to_bytes(4, "little")
            self.assertTrue(show(data).endswith(f"\nrefused 16: {MEANINGS[16]}\n    call {at}: operation 1, target 3, lists 42 elements\n"))

    def test_choices(self):
        for edge, stronger, number in ((2, 0, 17), (0, 2, 18)):
            text, refusal = picture(PRINTED_CASE, edge, stronger)
            self.assertEqual(refusal.number, number)
            self.assertTrue(text.endswith(f"\n\nrefused {number}: {MEANINGS[number]}\n"))
            self.assertIn("call 0: insert c (element 4) after a (element 1)\n", text)


class Calls(unittest.TestCase):
    def lines(self, calls, **choices):
        """The lines of calls and changes."""
        return [it for it in show(told(calls).batch.finish(), **choices).splitlines() if it.startswith(("call ", "    change "))]

    def test_in_words(self):
        def calls(it):
            it.batch.rule(7).insert_first(it.x, [it.c, it.d, it.c])
            it.batch.insert_after(it.x, [it.c])
            it.batch.rule(0).replace_with_many(it.b, [])
            it.batch.next_editor()
            it.batch.replace_all(it.a, it.a, [it.d])

        self.assertEqual(
            self.lines(calls),
            [
                "call 0, rule 7: insert c (element 5), d (element 7) and c (element 5) first into a (element 1)",
                "    change 0: own, now elements 2, 3 and 4",
                "call 1, rule 7: insert c (element 5) after a (element 1)",
                "    change 2: own, now element 6",
                "call 2: replace b (element 3) by nothing",
                "    change 3: own",
                "call 3: a further editor starts",
                "call 4: replace the run from a (element 2) to a (element 2) by d (element 7)",
                "    change 1: own, now element 5",
            ],
        )

    def test_merged_calls(self):
        def calls(it):
            it.batch.rule(1).replace(it.x, it.c)
            it.batch.rule(2).replace(it.x, it.d)
            it.batch.rule(3).replace(it.x, it.d)

        self.assertEqual(
            [it for it in self.lines(calls) if it.startswith("  ")],
            ["    change 0: call 1 has the last effect", "    change 0: own, now element 1", "    change 0: call 1 has the last effect"],
        )

    def test_a_change_of_another_tree(self):
        """The root of tree 1 goes into tree 0; then d is put behind c, in tree 1."""
        lines = self.lines(lambda it: (it.batch.insert_after(it.c, [it.d]), it.batch.insert_after(it.b, [it.c - 1])))
        self.assertEqual([it for it in lines if it.startswith("  ")], ["    change 0: own, in tree 1", "    change 1: own, now element 4"])

    def test_nothing_to_do(self):
        text = show(S().batch.finish())
        self.assertNotIn("call", text.replace("calls", ""))
        self.assertIn("\nold text\nab\n\nnew text\nab\n", text)


class Texts(unittest.TestCase):
    def test_in_a_line(self):
        for text, wanted in [
            (b"a", "a"), (b"", '""'), (b"a b", '"a b"'), (b'a"\n\t', '"a\\"\\n\\t"'), (b"\xff\x1b", "\\xff\\x1b"), ("é".encode(), "é"), (b"x" * 50, "x" * 38 + ".."),
        ]:  # fmt: skip
            self.assertEqual(words.shown(text), wanted)

    def test_lines_stay_lines(self):
        batch = BatchBuilder()
        with batch.node(1):
            a = batch.token(2, "one\n")
            batch.token(2, "two\n")
        with batch.node(1):
            c = batch.token(2, "\tand\n")
            empty = batch.token(2)
        batch.rule(4).insert_after(a, [c, empty])
        self.assertIn("\nold text\none\ntwo\n\nnew text\none\n[4:\tand\n][4:]two\n\n", show(batch.finish()))

    def test_marks_inside_marks(self):
        it = Shape(Batch.read(S().batch.finish()).elements)
        self.assertEqual(marked(it, {0: "", 1: "1:", 2: "2:", 3: "-"}), "[[1:[2:a]][-b]]")


class Whole(unittest.TestCase):
    def test_every_recorded_case(self):
        """Each can be shown; without the marks the new text is the answer's, and the last line says which it is: an answer or a refusal."""
        for number, case in enumerate(recorded_cases()):
            with self.subTest(case=number):
                text, refusal = picture(case.batch, *case.choices)
                if case.refusal:
                    self.assertEqual(refusal.number, case.refusal)
                    self.assertIn(f"refused {case.refusal}: {MEANINGS[case.refusal]}\n", text)
                    # Of 6, 7 and 16 the last line says what is not well formed.
                    last = text.splitlines()[-1]
                    self.assertEqual(case.refusal in (6, 7, 16), last.startswith(("    call ", "    mapping ", "    note ", "    the counts ")))
                else:
                    self.assertIsNone(refusal)
                    self.assertTrue(text.splitlines()[-1].startswith(f"{len(Editor(*case.choices).edit(case.batch).elements)} elements, "))

    def test_what_calls_put_in_is_all_that_is_changed(self):
        """Every changed element is some call's, whose change is performed on its own, by the rule that the answer tells; no change that is not has any."""
        for number, case in enumerate(recorded_cases()):
            if case.refusal:
                continue
            with self.subTest(case=number):
                view = View(case.batch, *case.choices)
                put_in = sorted((element, view.calls[call].rule) for call, elements in view.put_in.items() for element in elements)
                self.assertEqual(put_in, sorted(zip(view.answer.changed, view.answer.rules)))
                for call in view.put_in:
                    change = view.change_of[call]
                    self.assertEqual((str(view.fates[change]), view.changes[change].effect), ("own", call))

    def test_loads(self):
        for start in range(8):
            text, refusal = picture(Batch.load(start))
            self.assertIsNone(refusal)
            self.assertIn("\ncall 95, rule ", text)


class Command(unittest.TestCase):
    def test_file_and_standard_input(self):
        self.assertEqual(command("examples/rules.batch"), (0, show(example("rules.batch"))))
        self.assertEqual(command("-", stdin=example("rules.batch")), (0, show(example("rules.batch"))))

    def test_choices(self):
        self.assertEqual(command("examples/closing.batch", "--edge", "1"), (0, show(example("closing.batch"), edge=1)))
        self.assertEqual(command("examples/books.batch", "--stronger", "1"), (0, show(example("books.batch"), stronger=1)))
        self.assertEqual(command("examples/books.batch"), (1, show(example("books.batch"))))
        self.assertEqual(command("--edge", "2", "examples/books.batch")[0], 1)

    def test_a_load(self):
        self.assertEqual(command("--load", "7"), (0, show(Batch.load(7))))

    def test_nothing_to_show(self):
        for arguments in ((), ("-", "--load", "7"), ("no such file",), ("--load", str(1 << 32)), ("--load", "x"), ("-", "--edge", "x")):
            status, out = command(*arguments)
            self.assertEqual((status, out), (2, ""), arguments)

    def test_a_library_that_is_not_built(self):
        environment = {**os.environ, "SYNTAX_EDIT_SHARED": "/no/such/library", "PYTHONPATH": str(ROOT / "bindings" / "python"), "PYTHONDONTWRITEBYTECODE": "1"}
        done = subprocess.run([sys.executable, "-m", "syntax_edit", "show", "-"], input=b"", capture_output=True, env=environment)
        self.assertEqual((done.returncode, done.stderr), (2, b"no /no/such/library: run bindings/python/build\n"))


if __name__ == "__main__":
    unittest.main()
