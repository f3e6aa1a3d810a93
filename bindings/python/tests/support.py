"""What the tests share. Each imports this first: the package stands in the folder above."""

from __future__ import annotations

import ctypes
import sys
from pathlib import Path
from typing import Any, Callable, List, NamedTuple, Optional, Sequence, Tuple

sys.dont_write_bytecode = True
HERE = Path(__file__).resolve().parent
ROOT = HERE.parents[2]
sys.path.insert(0, str(HERE.parent))

from syntax_edit import BatchBuilder, Editor, Refusal, raw  # noqa: E402

NODE = 1 << 31
RULE_0 = raw.Choices(0, 0)
RECORDED = ROOT / "crates" / "replay" / "stdin"


def example(name: str) -> bytes:
    """The bytes of an example."""
    return (ROOT / "examples" / name).read_bytes()


PRINTED_CASE = example("printed_case.batch")
DOSING = example("dosing.batch")
OVERLAP = example("overlap.batch")


class S:
    """S, root(X(a), b), with c and d as tokens of other trees."""

    def __init__(self) -> None:
        self.batch = BatchBuilder()
        with self.batch.node(1) as self.root:
            with self.batch.node(2) as self.x:
                self.a = self.batch.token(3, "a")
            self.b = self.batch.token(3, "b")
        with self.batch.node(1):
            self.c = self.batch.token(3, "c")
        with self.batch.node(1):
            self.d = self.batch.token(3, "d")


def told(calls: Callable[[S], Any]) -> S:
    """S with these calls."""
    it = S()
    calls(it)
    return it


def number_of(ask: Callable[[], Any]) -> Optional[int]:
    """The number of the refusal that is raised, `None` if there is none."""
    try:
        ask()
    except Refusal as refusal:
        return refusal.number
    return None


def text_of(it: S, edge: int = 0, stronger: int = 0) -> Any:
    """The text and the discarded changes, or the refusal's number."""
    try:
        answer = Editor(edge, stronger).edit(it.batch.finish())
    except Refusal as refusal:
        return refusal.number
    return answer.text.decode(), answer.discarded


def printed_case() -> BatchBuilder:
    """Document 01's printed case."""
    batch = BatchBuilder()
    with batch.node(1):
        a = batch.token(2, "a")
        batch.token(3, "b")
    with batch.node(1):
        c = batch.token(4, "c")
    batch.insert_after(a, [c])
    batch.note(c, 9)
    return batch


class Case(NamedTuple):
    """A recorded case: the choices, the batch, the refusal's number or 0, the result's bytes, pairs of an element asked for and the one found."""

    choices: raw.Choices
    batch: bytes
    refusal: int
    result: bytes
    finds: Sequence[Tuple[int, Optional[int]]]


class Reader:
    """Bytes that are read from the front, in words and in parts with their length before them."""

    def __init__(self, data: bytes) -> None:
        self.data, self.at = data, 0

    def word(self) -> int:
        self.at += 4
        return int.from_bytes(self.data[self.at - 4 : self.at], "little")

    def part(self) -> bytes:
        length = self.word()
        self.at += length
        return self.data[self.at - length : self.at]

    def whole(self) -> bool:
        """Whether all is read."""
        return self.at == len(self.data)


def recorded_cases() -> List[Case]:
    """The recorded cases, as `oracle/casefile.py` lays them out."""
    it = Reader(RECORDED.read_bytes())
    cases = []
    for _ in range(it.word()):
        choices = raw.Choices(it.word(), it.word())
        batch, refusal, result = it.part(), it.word(), it.part()
        finds = [(it.word(), it.word()) for _ in range(it.word())]
        cases.append(Case(choices, batch, refusal, result, [(old, None if new == 2**32 - 1 else new) for old, new in finds]))
    assert it.whole()
    return cases


def dirty(lengths: Sequence[int]) -> raw.Work:
    """Work memory full of a pattern, of these lengths in words."""
    return tuple(raw.words([0xDEAD_BEEF] * max(length, 0)) for length in lengths)


def filled(length: int, by: int = 0xA5) -> Any:
    """A slice of bytes that are all this one."""
    held = raw.room(length)
    ctypes.memset(held, by, length)
    return held


def cleared(work: raw.Work) -> bool:
    """Whether all slices are all zeros."""
    return not any(bytes(it).strip(b"\0") for it in work)
