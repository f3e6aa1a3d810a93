"""Answers, read from the result's bytes."""

from __future__ import annotations

from dataclasses import dataclass
from struct import unpack_from
from typing import List, Optional, Tuple

from .tree import NODE, Element, Flat, Node, Note, elements_of


@dataclass(frozen=True)
class Answer:
    """The new tree with its changed elements and its notes. ``str`` gives the printed form of document 01."""

    #: The elements of the new tree in preorder.
    elements: Tuple[Element, ...]
    #: The numbers of the changed elements, by text start.
    changed: Tuple[int, ...]
    #: Of each changed element the number of the rule that put it in, 0 for none; in the same order.
    rules: Tuple[int, ...]
    #: The notes, by number, queue place and text start.
    notes: Tuple[Note, ...]
    #: The text of the new tree.
    text: bytes
    #: How many changes were discarded.
    discarded: int
    #: How many climb steps were taken.
    climb_steps: int

    @classmethod
    def read(cls, data: bytes) -> Optional[Answer]:
        """The answer that these bytes are, if they are as long as its sizes tell and the tokens share out the text."""
        if len(data) < 24:
            return None
        elements, length, changed, notes, discarded, climbs = unpack_from("<6I", data)
        counts = (elements, elements, changed, changed, notes, notes)
        if len(data) != 24 + 4 * sum(counts) + length:
            return None
        kinds, measures, changed_, rules, numbers, noted = _arrays(data, counts)
        text = data[len(data) - length :]
        if sum(measure for kind, measure in zip(kinds, measures) if not kind & NODE) != length:
            return None
        told = tuple(Note(number, element) for number, element in zip(numbers, noted))
        return cls(elements_of(kinds, measures, text), changed_, rules, told, text, discarded, climbs)

    @property
    def tree(self) -> Flat:
        """The new tree as lists, for a `Claim` or for the next batch."""
        return Flat.of(self.elements)

    def __str__(self) -> str:
        """Document 01's printed form."""
        sizes = (len(self.elements), len(self.text), len(self.changed), len(self.notes), self.discarded, self.climb_steps)
        lines = ["ok " + " ".join(map(str, sizes))]
        lines += [f"{'n' if isinstance(it, Node) else 't'} {it.kind} {it.measure}" for it in self.elements]
        lines.append(f"text {self.text.hex()}" if self.text else "text")
        lines += [f"changed {element} {rule}" for element, rule in zip(self.changed, self.rules)]
        lines += [f"note {it.number} {it.element}" for it in self.notes]
        return "".join(line + "\n" for line in lines)


def _arrays(data: bytes, counts: Tuple[int, ...]) -> List[Tuple[int, ...]]:
    """The arrays of so many words that follow the six sizes."""
    arrays, at = [], 24
    for count in counts:
        arrays.append(unpack_from(f"<{count}I", data, at))
        at += 4 * count
    return arrays
