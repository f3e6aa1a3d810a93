"""What the elements of one tree or of several spell: parents, depths, text ranges."""

from __future__ import annotations

from typing import List, NamedTuple, Optional, Sequence, Tuple

from .tree import Element, Token


class Place(NamedTuple):
    """Where an element stands.

    ``start`` and ``end`` are byte offsets in its own tree, ``depth`` counts ancestors with the element itself, ``after`` is the number after all below it.
    """

    tree: int
    parent: Optional[int]
    depth: int
    start: int
    end: int
    after: int


class Shape:
    """Elements in preorder, tree after tree, with the place of each. They must spell whole trees, as those of a well-formed batch and of an answer do."""

    def __init__(self, elements: Sequence[Element]) -> None:
        """The places of these elements."""
        self.elements = elements
        self.places: List[Place] = []
        self._text = b"".join(it.text for it in elements if isinstance(it, Token))
        #: Where the text of each tree starts in that of all.
        self._starts: List[int] = []
        at = 0
        while len(self.places) < len(elements):
            self._starts.append(at)
            self._spell(len(self._starts) - 1, None, 1, 0)
            at += self.places[self.roots[-1]].end

    @property
    def roots(self) -> List[int]:
        """The root of each tree."""
        return [i for i, it in enumerate(self.places) if it.depth == 1]

    def _spell(self, tree: int, parent: Optional[int], depth: int, start: int) -> int:
        """Places the next element and all below it; where its text ends. No tree is deeper than 64."""
        number = len(self.places)
        self.places.append(Place(tree, parent, depth, start, start, number))
        element, end = self.elements[number], start
        if isinstance(element, Token):
            end += len(element.text)
        else:
            for _ in range(element.children):
                end = self._spell(tree, number, depth + 1, end)
        self.places[number] = Place(tree, parent, depth, start, end, len(self.places))
        return end

    def text(self, number: int) -> bytes:
        """The text of an element."""
        place = self.places[number]
        at = self._starts[place.tree]
        return self._text[at + place.start : at + place.end]

    def range(self, number: int) -> Tuple[int, int]:
        """The text range of an element in its own tree."""
        return self.places[number].start, self.places[number].end
