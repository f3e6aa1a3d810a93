"""Batches: laid out by the library's writer, and read back."""

from __future__ import annotations

from array import array
from contextlib import contextmanager
from dataclasses import dataclass
from struct import unpack_from
from typing import Iterable, Iterator, List, NamedTuple, Optional, Tuple, Type, Union

from . import raw
from .raw import Choices, Lists
from .refusal import Loose, Refusal, Unbalanced, Unfit, told
from .tree import Element, Flat, Note, elements_of, node_word, token_word

#: The operations of calls, by their numbers.
INSERT_FIRST, INSERT_AFTER, REPLACE, DELETE, REPLACE_WITH_MANY, REPLACE_ALL, NEXT_EDITOR = range(7)


class Sizes(NamedTuple):
    """The seven sizes at the front of a batch."""

    trees: int
    elements: int
    text: int
    calls: int
    listed: int
    mappings: int
    notes: int


@dataclass(frozen=True)
class Call:
    """A call: its operation, its target, the elements that it lists and the number of the rule that queued it, 0 for none."""

    operation: int
    target: int
    listed: Tuple[int, ...]
    rule: int = 0

    @property
    def count(self) -> int:
        """How many elements it lists."""
        return len(self.listed)


@dataclass(frozen=True)
class Contents:
    """What a batch says: how many trees, the elements of all of them in preorder, calls, mappings (input, output) and notes. `Batch.read` gives it."""

    trees: int
    elements: Tuple[Element, ...]
    calls: Tuple[Call, ...] = ()
    mappings: Tuple[Tuple[int, int], ...] = ()
    notes: Tuple[Note, ...] = ()

    @property
    def sizes(self) -> Sizes:
        """The seven sizes."""
        text = len(Flat.of(self.elements).text)
        listed = sum(it.count for it in self.calls)
        return Sizes(self.trees, len(self.elements), text, len(self.calls), listed, len(self.mappings), len(self.notes))

    def lists(self) -> Lists:
        """The lists, as the writer takes them."""
        tree = Flat.of(self.elements)
        return Lists(
            self.trees,
            tree.kinds,
            tree.measures,
            tree.text,
            [it.operation for it in self.calls],
            [it.count for it in self.calls],
            [it.rule for it in self.calls],
            [it.target for it in self.calls],
            [element for it in self.calls for element in it.listed],
            [it[0] for it in self.mappings],
            [it[1] for it in self.mappings],
            [it.element for it in self.notes],
            [it.number for it in self.notes],
        )

    def write(self) -> Batch:
        """The batch as the library's writer lays it out: byte for byte the one that it was read from. Raises the writer's `Refusal` (14)."""
        return _written(self.lists())


class Batch:
    """A batch as bytes. Any bytes may be one: an editor answers or refuses them."""

    def __init__(self, data: bytes) -> None:
        """A batch of these bytes, which are copied."""
        self.bytes = bytes(memoryview(data))

    def __eq__(self, other: object) -> bool:
        """Batches are equal if their bytes are."""
        return isinstance(other, Batch) and self.bytes == other.bytes

    def __hash__(self) -> int:
        """That of the bytes."""
        return hash(self.bytes)

    def __repr__(self) -> str:
        """How long it is."""
        return f"Batch(of {len(self.bytes)} bytes)"

    @staticmethod
    def load(start: int) -> Batch:
        """The load of a starting number of 32 bits (docs/LOAD.md), which every editor accepts."""
        destination = raw.room(raw.MOST_LOAD)
        length = told(raw.load(start, destination, raw.writer_work()))
        return Batch(bytes(destination)[:length])

    @staticmethod
    def read(data: Union[Batch, bytes]) -> Contents:
        """What the batch of these bytes says. Raises its `Refusal` where lines 2 to 7 or 16 refuse it; that is the library's to judge."""
        held = as_bytes(data)
        _judge(held)
        return taken_apart(held)


def as_bytes(batch: Union[Batch, bytes]) -> bytes:
    """The bytes of a batch, however it is told."""
    return batch.bytes if isinstance(batch, Batch) else Batch(batch).bytes


def _judge(data: bytes) -> None:
    """Raises what lines 2 to 7 and 16 refuse. What the later lines refuse is well formed."""
    answer = raw.share(Choices(), data, raw.work())
    if -answer in (2, 3, 4, 5, 6, 7, 16):
        raise Refusal(-answer)


def taken_apart(data: bytes) -> Contents:
    """What a batch says that lines 2 to 5 pass: nine arrays behind the sizes, then the text. Its calls may name what there is not."""
    sizes = Sizes(*unpack_from("<7I", data))
    arrays, at = [], 28
    e, c, m, a = sizes.elements, sizes.calls, sizes.mappings, sizes.notes
    for count in (e, e, c, c, sizes.listed, m, m, a, a):
        arrays.append(unpack_from(f"<{count}I", data, at))
        at += 4 * count
    kinds, measures, words, targets, listed, inputs, outputs, noted, numbers = arrays
    notes = tuple(Note(number, element) for number, element in zip(numbers, noted))
    return Contents(sizes.trees, elements_of(kinds, measures, data[at:]), _calls(words, targets, listed), tuple(zip(inputs, outputs)), notes)


def _calls(words: Tuple[int, ...], targets: Tuple[int, ...], listed: Tuple[int, ...]) -> Tuple[Call, ...]:
    """The calls of these words, each with its part of the listed elements. A call word is operation, count from bit 8 on, rule number from bit 20 on."""
    calls: List[Call] = []
    at = 0
    for word, target in zip(words, targets):
        count = word >> 8 & 0xFFF
        calls.append(Call(word & 0xFF, target, listed[at : at + count], word >> 20))
        at += count
    return tuple(calls)


def _written(lists: Lists) -> Batch:
    """The batch that the writer lays out, or its refusal."""
    destination = raw.room(raw.DRAFT)
    length = told(raw.write(lists, destination, raw.writer_work()))
    return Batch(bytes(destination)[:length])


class BatchBuilder:
    """Builds a batch.

    Trees are told in preorder by `open`, `token` and `close`, or by ``with batch.node(kind):``, tree 0 (the one that is edited) first; `open` and `token` give the element's
    number, by which calls, mappings and notes name it. Whether all is within its limits and well formed is judged by the writer. A number that fits no 32-bit word, and a kind that
    fits no 16 bits, raises `OverflowError` where it is told.
    """

    def __init__(self) -> None:
        """Without any tree or call."""
        self._trees = 0
        self._kinds = array("I")
        self._measures = array("I")
        self._text = bytearray()
        self._operations = array("I")
        self._counts = array("I")
        self._rules = array("I")
        self._targets = array("I")
        self._listed = array("I")
        self._inputs = array("I")
        self._outputs = array("I")
        self._noted = array("I")
        self._numbers = array("I")
        self._rule = 0
        self._open: List[int] = []
        self._fault: Optional[Type[Unfit]] = None

    # ---- trees

    def open(self, kind: int) -> int:
        """A node begins; all up to its `close` stands below it. Outside every node it is the root of a further tree. Its number."""
        number = self._element(node_word(kind), 0)
        if not self._open:
            self._trees += 1
        self._open.append(number)
        return number

    def close(self) -> None:
        """The node that was opened last and is not closed yet ends."""
        if self._open:
            self._open.pop()
        else:
            self._fault = self._fault or Unbalanced

    @contextmanager
    def node(self, kind: int) -> Iterator[int]:
        """A node around what is told in the ``with`` block, which gets its number: `open` and `close`."""
        number = self.open(kind)
        yield number
        self.close()

    def token(self, kind: int, text: Union[bytes, str] = b"") -> int:
        """A token of this text (a ``str`` goes in as UTF-8). Its number."""
        held = text.encode() if isinstance(text, str) else text
        word = token_word(kind)
        if not self._open:
            self._fault = self._fault or Loose
        number = self._element(word, len(held))
        self._text += held
        return number

    def tree(self, tree: Flat) -> int:
        """A further tree, told whole: the number of its root, which those of its other elements follow in preorder."""
        root = len(self._kinds)
        kinds, measures = array("I", [*tree.kinds]), array("I", [*tree.measures])
        if self._open:
            self._fault = self._fault or Unbalanced
        self._trees += 1
        self._kinds.extend(kinds)
        self._measures.extend(measures)
        self._text += tree.text
        return root

    def _element(self, word: int, measure: int) -> int:
        """A further element, a child of the node that is open. Its number."""
        self._kinds.append(word)
        self._measures.append(measure)
        if self._open:
            self._measures[self._open[-1]] += 1
        return len(self._kinds) - 1

    # ---- calls

    def rule(self, number: int) -> BatchBuilder:
        """The calls that follow are queued by the rule of this number, 0 for none. One above 4,095 is refused when the batch is laid out."""
        self._rule = _word(number)
        return self

    @contextmanager
    def by_rule(self, number: int) -> Iterator[BatchBuilder]:
        """The calls in the ``with`` block are queued by the rule of this number; those after it by the one before."""
        before = self._rule
        self.rule(number)
        try:
            yield self
        finally:
            self._rule = before

    def insert_first(self, parent: int, listed: Iterable[int]) -> None:
        """Call 0: the listed elements become the parent's first children."""
        self._call(INSERT_FIRST, parent, listed)

    def insert_after(self, target: int, listed: Iterable[int]) -> None:
        """Call 1: the listed elements go in after the target."""
        self._call(INSERT_AFTER, target, listed)

    def replace(self, target: int, by: int) -> None:
        """Call 2: the target is replaced by one element."""
        self._call(REPLACE, target, [by])

    def delete(self, target: int) -> None:
        """Call 3: the target goes."""
        self._call(DELETE, target, [])

    def replace_with_many(self, target: int, listed: Iterable[int]) -> None:
        """Call 4: the target is replaced by the listed elements."""
        self._call(REPLACE_WITH_MANY, target, listed)

    def replace_all(self, first: int, last: int, listed: Iterable[int]) -> None:
        """Call 5: the run from ``first`` to ``last`` is replaced by the listed elements."""
        self._call(REPLACE_ALL, first, [last, *listed])

    def next_editor(self) -> None:
        """Call 6: the calls that follow are a further editor's. It has no rule number."""
        with self.by_rule(0):
            self._call(NEXT_EDITOR, 0, [])

    def _call(self, operation: int, target: int, listed: Iterable[int]) -> None:
        """A further call, by the present rule."""
        # What fits no word raises before any list has grown.
        target, held = _word(target), array("I", [*listed])
        self._operations.append(operation)
        self._counts.append(len(held))
        self._rules.append(self._rule)
        self._targets.append(target)
        self._listed.extend(held)

    def map(self, input: int, output: int) -> None:
        """The node ``input`` is mapped to the node ``output``."""
        pair = array("I", [input, output])
        self._inputs.append(pair[0])
        self._outputs.append(pair[1])

    def note(self, element: int, number: int) -> None:
        """A note of this number on an element."""
        pair = array("I", [element, number])
        self._noted.append(pair[0])
        self._numbers.append(pair[1])

    # ---- the batch

    def lists(self) -> Lists:
        """The lists, as the writer takes them."""
        return Lists(
            self._trees,
            self._kinds,
            self._measures,
            bytes(self._text),
            self._operations,
            self._counts,
            self._rules,
            self._targets,
            self._listed,
            self._inputs,
            self._outputs,
            self._noted,
            self._numbers,
        )

    def finish(self) -> Batch:
        """The batch as the library's writer lays it out. Raises `Unfit` if its trees are not told whole, and the writer's `Refusal` (14)."""
        if self._fault:
            raise self._fault()
        if self._open:
            raise Unbalanced()
        return _written(self.lists())


def _word(number: int) -> int:
    """A number that fits a word of 32 bits; any other raises `OverflowError`."""
    return array("I", [number])[0]
