"""Checking another editor's output."""

from __future__ import annotations

from dataclasses import dataclass, field
from typing import Sequence

from . import raw
from .refusal import told
from .tree import Flat


@dataclass(frozen=True)
class Claim:
    """What an editor claims: that it made the new tree out of the old one, kept these elements and changed those."""

    old: Flat = field(default_factory=Flat)
    new: Flat = field(default_factory=Flat)
    #: Of each kept element its number in the old tree ..
    olds: Sequence[int] = ()
    #: .. and in the new one.
    news: Sequence[int] = ()
    #: The changed elements, by their numbers in the new tree.
    changed: Sequence[int] = ()


class Checker:
    """The checker with its work memory, 160 KiB. One for each thread that checks at the same time."""

    def __init__(self) -> None:
        """A checker with its own work memory."""
        self._work = raw.checker_work()

    def check(self, claim: Claim) -> bool:
        """Whether a claim is accepted. Raises its `Refusal`: 3, 4, 5 or 19.

        It is accepted exactly if the roots are paired; no element is paired twice; paired elements have equal kinds and, for tokens, equal text; the parents of others than the
        roots are a pair; paired siblings stand in the same order in both trees; and every unpaired new element is at or below a changed one, and no paired one is.
        """
        old, new = [(it.kinds, it.measures, bytes(it.text)) for it in (claim.old, claim.new)]
        return told(raw.check(old, new, claim.olds, claim.news, claim.changed, self._work)) == raw.ACCEPTED
