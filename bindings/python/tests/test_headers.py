"""The declarations and numbers of `raw` beside those of the C headers and the Rust crate, which nothing else holds to one another."""

import ctypes
import re
import unittest

from support import ROOT

from syntax_edit import raw

HEADERS = "".join((ROOT / "bindings" / "c" / name).read_text() for name in ("syntax_edit.h", "syntax_check.h", "syntax_series.h"))
CODE = re.sub(r"/\*.*?\*/", "", HEADERS, flags=re.S)
RUST = (ROOT / "bindings" / "rust" / "src" / "raw.rs").read_text() + (ROOT / "bindings" / "rust" / "src" / "lib.rs").read_text()
TYPES = {"uint64_t": ctypes.c_uint64, "uint32_t": ctypes.c_uint32, "size_t": ctypes.c_size_t}


def declared():
    """Of each function of the headers what it takes."""
    functions = re.findall(r"^int64_t (\w+)\(\n(.*?)\);", CODE, re.M | re.S)
    return {name: tuple(taken(it) for it in parameters.split(",")) for name, parameters in functions}


def taken(parameter):
    return ctypes.c_void_p if "*" in parameter else TYPES[parameter.split()[-2]]


def constants():
    """The numbers of the headers' enums, in which one may stand for another."""
    found = {}
    for name, value in re.findall(r"^\s*(?:enum \{ )?(SYNTAX_\w+) = ([^,\n}]+)", CODE, re.M):
        found[name] = int(value) if re.fullmatch(r"-?\d+", value.strip()) else value.strip()
    found.update((name, int(value)) for name, value in re.findall(r", (SYNTAX_\w+) = (\d+)", CODE))
    return found


class Headers(unittest.TestCase):
    def test_declarations(self):
        self.assertEqual(declared(), raw.CALLS)

    def test_numbers(self):
        it = constants()
        names = ("TABLE", "SOURCE", "CHANGES", "NOTES", "INCOMING", "CHANGED", "MARKS", "ROWS", "PREPARED")
        self.assertEqual(tuple(it["SYNTAX_" + name] for name in names), raw.LENGTHS)
        names = ("OLD", "NEW", "PARTNERS", "MARKS")
        self.assertEqual(tuple(it["SYNTAX_CLAIM_" + name] for name in names), raw.CHECKER_LENGTHS)
        names = "MOST_ANSWER MOST_ACCOUNT MOST_KEPT DRAFT MOST_RULE MOST_LOAD NONE START_ROWS MOST_TREE MOST_BOOKMARKS SLOT LONGEST_PATH ACCEPTED"
        for name in names.split():
            self.assertEqual(it["SYNTAX_" + name], getattr(raw, name), name)
        self.assertEqual(it["SYNTAX_MOST_BATCH"], raw.DRAFT)

    def test_numbers_of_the_rust_crate(self):
        for name, value in re.findall(r"pub const (\w+): (?:usize|i64) = (-?[\d_]+);", RUST):
            self.assertEqual(int(value), getattr(raw, name), name)
        lists = {name: tuple(int(it) for it in held.split(", ")) for name, held in re.findall(r"pub const (\w+): \[usize; \d\] = \[(.*)\];", RUST)}
        self.assertEqual(lists, {"LENGTHS": raw.LENGTHS, "CHECKER_LENGTHS": raw.CHECKER_LENGTHS})

    def test_a_call_takes_no_more_and_no_less(self):
        work = raw.work()
        for lent in (work[:8], work + work[:1]):
            self.assertRaises(TypeError, raw.edit, raw.Choices(), b"", raw.room(0), lent)


if __name__ == "__main__":
    unittest.main()
