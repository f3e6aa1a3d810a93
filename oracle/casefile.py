"""The recorded cases: one file of bytes, and an index in text.

All words are 32-bit little-endian. The file starts with the count of cases. A case is: the edge rule and the choice of stronger rules first; the batch's length and bytes; the refusal's number, 0 if
the batch is accepted; the result's length (0 for a refusal) and bytes, as the documents lay a result out; the count of `find_element` calls, and
for each of them the element asked for and the element found, 2^32 - 1 for none."""

from collections import namedtuple
from pathlib import Path
from struct import pack, unpack_from

FOLDER = Path(__file__).resolve().parent / "cases"
# The bytes stand where the program `replay` reads them.
CASES, INDEX = FOLDER.parent.parent / "crates" / "replay" / "stdin", FOLDER / "index.txt"
NONE = 2**32 - 1
NODE = 1 << 31

# `choices` are the edge rule and stronger rules first, `finds` pairs of element numbers, the second None for none.
Case = namedtuple("Case", "choices batch refusal result finds")
DEFAULT = (0, 0)


def result_bytes(printed):
    """The result's bytes of an accepted batch, from what is printed for it."""
    lines = printed.splitlines()
    sizes = list(map(int, lines[0].split()[1:]))
    elements = [line.split() for line in lines[1 : 1 + sizes[0]]]
    text = bytes.fromhex(lines[1 + sizes[0]][5:])
    rest = [list(map(int, line.split()[1:])) for line in lines[2 + sizes[0] :]]
    changed, notes = rest[: sizes[2]], rest[sizes[2] :]
    words = sizes + [int(kind) | NODE * (sort == "n") for sort, kind, _ in elements]
    words += [int(measure) for _, _, measure in elements] + [number for number, _ in changed] + [rule for _, rule in changed]
    words += [number for number, _ in notes] + [element for _, element in notes]
    return pack("<%dI" % len(words), *words) + text


def printed_form(case):
    """What the edit program prints for a case."""
    if case.refusal:
        return "refused %d\n" % case.refusal
    n, b, c, a = unpack_from("<4I", case.result)
    words = unpack_from("<%dI" % (6 + 2 * n + 2 * c + 2 * a), case.result)
    lines = ["ok " + " ".join(map(str, words[:6]))]
    lines += ["%s %d %d" % ("tn"[kind >> 31], kind & 0xFFFF, measure) for kind, measure in zip(words[6:], words[6 + n : 6 + 2 * n])]
    lines.append(("text " + case.result[4 * len(words) :].hex()).rstrip())
    at = 6 + 2 * n
    lines += ["changed %d %d" % pair for pair in zip(words[at : at + c], words[at + c : at + 2 * c])]
    at += 2 * c
    lines += ["note %d %d" % pair for pair in zip(words[at : at + a], words[at + a :])]
    return "\n".join(lines) + "\n"


def write_cases(cases):
    out = [pack("<I", len(cases))]
    for case in cases:
        out += [pack("<III", *case.choices, len(case.batch)), case.batch, pack("<II", case.refusal, len(case.result)), case.result, pack("<I", len(case.finds))]
        out += [pack("<II", old, NONE if new is None else new) for old, new in case.finds]
    return b"".join(out)


def read_cases(data):
    at = 0

    def word():
        nonlocal at
        at += 4
        return unpack_from("<I", data, at - 4)[0]

    def part(length):
        nonlocal at
        at += length
        return data[at - length : at]

    cases = []
    for _ in range(word()):
        choices = (word(), word())
        batch, refusal = part(word()), word()
        result = part(word())
        finds = [(word(), word()) for _ in range(word())]
        cases.append(Case(choices, batch, refusal, result, [(old, None if new == NONE else new) for old, new in finds]))
    assert at == len(data)
    return cases
