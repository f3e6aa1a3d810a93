"""Texts, elements and calls in words, for people to read."""

from __future__ import annotations

from typing import Sequence

from .batch import DELETE, INSERT_AFTER, INSERT_FIRST, NEXT_EDITOR, REPLACE_ALL, Call
from .shape import Shape
from .tree import Node

#: The most characters of a text in a line.
LONGEST = 40


def decoded(text: bytes) -> str:
    """A text as it is, but for what no terminal should get: bytes that are no UTF-8 and control characters, which are told by their numbers."""
    held = text.decode("utf-8", "backslashreplace")
    return "".join(it if it.isprintable() or it in "\n\t" else it.encode("unicode_escape").decode() for it in held)


def shown(text: bytes) -> str:
    """A text within a line: bare if it is one word, else in quotes; a long one is cut."""
    held = decoded(text)
    if len(held) > LONGEST:
        held = held[: LONGEST - 2] + ".."
    bare = held.isprintable() and held and not any(it in ' "' for it in held)
    return held if bare else '"' + held.replace("\n", "\\n").replace("\t", "\\t").replace('"', '\\"') + '"'


def sort(shape: Shape, number: int) -> str:
    """Node or token, with the kind."""
    element = shape.elements[number]
    return f"{'node' if isinstance(element, Node) else 'token'} {element.kind}"


def element(shape: Shape, number: int) -> str:
    """An element by its text, or its kind where it has none."""
    text = shape.text(number)
    return f"{shown(text) if text else 'the empty ' + sort(shape, number)} (element {number})"


def elements(shape: Shape, numbers: Sequence[int]) -> str:
    """Several elements, or that there is none."""
    return listed([element(shape, it) for it in numbers]) if numbers else "nothing"


def listed(parts: Sequence[str]) -> str:
    """Parts with commas, and `and` before the last."""
    return " and ".join(it for it in (", ".join(parts[:-1]), parts[-1]) if it)


def numbered(numbers: Sequence[int]) -> str:
    """Elements by their numbers alone."""
    return ("elements " if len(numbers) > 1 else "element ") + listed([str(it) for it in numbers])


def call(shape: Shape, it: Call) -> str:
    """What a call asks for, with its rule."""
    rule = f"rule {it.rule}: " if it.rule else ""
    return rule + _asked(shape, it)


def _asked(shape: Shape, it: Call) -> str:
    """What a call asks for."""
    target = element(shape, it.target)
    if it.operation == INSERT_FIRST:
        return f"insert {elements(shape, it.listed)} first into {target}"
    if it.operation == INSERT_AFTER:
        return f"insert {elements(shape, it.listed)} after {target}"
    if it.operation == DELETE:
        return f"delete {target}"
    if it.operation == REPLACE_ALL:
        return f"replace the run from {target} to {element(shape, it.listed[0])} by {elements(shape, it.listed[1:])}"
    if it.operation == NEXT_EDITOR:
        return "a further editor starts"
    return f"replace {target} by {elements(shape, it.listed)}"
