"""Elements and trees, as batches, answers and claims have them."""

from __future__ import annotations

from array import array
from dataclasses import dataclass
from typing import Iterable, List, Sequence, Tuple, Union

#: The bit of a kind word that says that the element is a node.
NODE = 1 << 31


def node_word(kind: int) -> int:
    """The kind word of a node."""
    return NODE | token_word(kind)


def token_word(kind: int) -> int:
    """The kind word of a token. A kind that fits no 16 bits raises `OverflowError`: no other kind, and no node, stands for it in silence."""
    return array("H", [kind])[0]


@dataclass(frozen=True)
class Node:
    """A node: its kind, and how many direct children it has."""

    kind: int
    children: int

    @property
    def measure(self) -> int:
        """The count of its children."""
        return self.children

    @property
    def word(self) -> int:
        """Its kind word, with bit 31."""
        return node_word(self.kind)


@dataclass(frozen=True)
class Token:
    """A token: its kind and its text."""

    kind: int
    text: bytes

    @property
    def measure(self) -> int:
        """The count of its text bytes."""
        return len(self.text)

    @property
    def word(self) -> int:
        """Its kind word."""
        return token_word(self.kind)


Element = Union[Node, Token]


@dataclass(frozen=True)
class Note:
    """A note and the element that it is on."""

    number: int
    element: int


@dataclass(frozen=True)
class Flat:
    """A tree as lists: of each element in preorder its kind (a node's with bit 31) and its measure (children of a node, text bytes of a token), and the text."""

    kinds: Sequence[int] = ()
    measures: Sequence[int] = ()
    text: bytes = b""

    @classmethod
    def of(cls, elements: Iterable[Element]) -> Flat:
        """The lists of these elements."""
        held = list(elements)
        text = b"".join(it.text for it in held if isinstance(it, Token))
        return cls(tuple(it.word for it in held), tuple(it.measure for it in held), text)


def elements_of(kinds: Sequence[int], measures: Sequence[int], text: bytes) -> Tuple[Element, ...]:
    """The elements of these lists; a token's text is cut out of the text where the tokens before it end."""
    found: List[Element] = []
    at = 0
    for word, measure in zip(kinds, measures):
        kind = word & 0xFFFF
        if word & NODE:
            found.append(Node(kind, measure))
        else:
            found.append(Token(kind, text[at : at + measure]))
            at += measure
    return tuple(found)
