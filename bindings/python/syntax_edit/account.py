"""Accounts, read from their text: what becomes of each change."""

from __future__ import annotations

from dataclasses import dataclass
from typing import List, Optional, Tuple, Union

from .refusal import Overlap


@dataclass(frozen=True)
class Own:
    """The change is performed on its own."""

    def __str__(self) -> str:
        """The words of the account."""
        return "own"


@dataclass(frozen=True)
class Dependent:
    """The change is performed as dependent of this change. A number is that of a change in sorted order, from 0."""

    change: int

    def __str__(self) -> str:
        """The words of the account."""
        return f"dependent {self.change}"


@dataclass(frozen=True)
class Discarded:
    """The change is discarded under this change."""

    change: int

    def __str__(self) -> str:
        """The words of the account."""
        return f"discarded {self.change}"


@dataclass(frozen=True)
class Withdrawn:
    """The change is withdrawn under this change, which has a higher rule number; only with stronger rules first."""

    change: int

    def __str__(self) -> str:
        """The words of the account."""
        return f"withdrawn {self.change}"


Fate = Union[Own, Dependent, Discarded, Withdrawn]

_UNDER = {"dependent": Dependent, "discarded": Discarded, "withdrawn": Withdrawn}


def read(text: str) -> Union[List[Fate], Overlap]:
    """What this account says: the fates in sorted order, or the pair that overlaps. `ValueError` if it is none."""
    lines = text.splitlines()
    if lines and lines[0].startswith("overlap "):
        _, first, second = lines[0].split(" ")
        return Overlap(int(first), int(second))
    return [_fate(number, line) for number, line in enumerate(lines)]


def _fate(number: int, line: str) -> Fate:
    """The fate on the line of this number."""
    first, word, change = _parts(line)
    if first != number or (word == "own") != (change is None):
        raise ValueError(f"no line {number} of an account: {line}")
    return Own() if change is None else _UNDER[word](change)


def _parts(line: str) -> Tuple[int, str, Optional[int]]:
    """Number, word and, behind some words, a further number."""
    first, word, *rest = line.split(" ")
    return int(first), word, int(rest[0]) if rest else None
