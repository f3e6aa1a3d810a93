"""Refusals: the numbers by which the library says no, in words."""

from __future__ import annotations

#: The refusals, each with its number, in the words of the Rust crate.
MEANINGS = {
    1: "a work slice is too short",
    2: "the batch has under 28 bytes",
    3: "a size is out of its limits",
    4: "the length differs from what the sizes give, or lists in step differ in length",
    5: "the elements do not spell the trees",
    6: "a call is not well formed",
    7: "a mapping or a note is not well formed",
    8: "replacements overlap",
    9: "a dependent call or a note cannot be mapped",
    10: "a climb never ends",
    11: "a step's target is gone",
    12: "the trees outgrow their limits",
    13: "the result buffer, or the memory of a series, is too short",
    14: "the lists differ in length or make a batch that is not well formed",
    15: "the destination is too short",
    16: "a call lists more than 41 elements",
    17: "an edge rule is neither 0 nor 1",
    18: "the choice of stronger rules first is neither 0 nor 1",
    19: "a claim names no element of its tree",
    20: "there are more than 256 bookmarks, or a number is given twice",
    21: "the path of a bookmark finds no element",
    22: "tree 0 is not the tree that the batch before left",
}


class Refusal(Exception):
    """Why a batch got no answer, lists made no batch, a claim got no verdict or a series did not begin.

    ``number`` is that of the list of refusals, ``meaning`` says it in words.
    """

    def __init__(self, number: int) -> None:
        """The refusal of this number, 1 to 22."""
        super().__init__(number)
        self.number = number
        self.meaning = MEANINGS[number]

    def __str__(self) -> str:
        """In words."""
        return f"refused {self.number}: {self.meaning}"


class Overlap(Refusal):
    """Refusal 8 as an account tells it: changes ``first`` and ``second``, in sorted order, overlap, and none overlaps an earlier one before the second does."""

    def __init__(self, first: int, second: int) -> None:
        """The overlap of these two."""
        super().__init__(8)
        self.args = (first, second)
        self.first = first
        self.second = second

    def __str__(self) -> str:
        """In words."""
        return f"changes {self.first} and {self.second} overlap"


class Unfit(Exception):
    """Why a builder gives no batch although the library was not asked: its trees are not told whole."""


class Unbalanced(Unfit):
    """A node was opened and not closed, or closed and not opened."""

    def __str__(self) -> str:
        """In words."""
        return "nodes are not opened and closed in pairs"


class Loose(Unfit):
    """A token stands outside every tree."""

    def __str__(self) -> str:
        """In words."""
        return "a token stands outside every tree"


def told(answer: int) -> int:
    """What the library's number says: the number itself, or the refusal that it is with a minus."""
    if answer < 0:
        raise Refusal(-answer)
    return answer
