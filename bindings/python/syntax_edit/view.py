"""A batch together with what the library says of it: what a picture shows."""

from __future__ import annotations

from collections import defaultdict
from dataclasses import replace
from typing import Dict, FrozenSet, List, Mapping, Optional, Sequence

from .account import Fate, Withdrawn
from .answer import Answer
from .batch import NEXT_EDITOR, Batch, Call
from .changes import in_order, recorded
from .editor import Editor, Share
from .refusal import Refusal
from .shape import Shape


class View:
    """A well-formed batch and its answer or its refusal. Raises the refusal of one that is not well formed (2 to 7, 16)."""

    def __init__(self, data: bytes, edge: int = 0, stronger: int = 0) -> None:
        """These bytes by these choices."""
        self.contents = Batch.read(data)
        self.shape = Shape(self.contents.elements)
        #: The changes in sorted order, and the place of each call's.
        self.changes = in_order(self.shape, recorded(self.contents.calls))
        self.change_of = {call: i for i, it in enumerate(self.changes) for call in it.calls}
        self.answer: Optional[Answer] = None
        self.refusal: Optional[Refusal] = None
        self.fates: List[Fate] = []
        self.share = Share(0, 0)
        #: New numbers of the survivors by their old ones, the elements of tree 0 that go, and the changed elements that each call put in.
        self.kept: Dict[int, int] = {}
        self.gone: FrozenSet[int] = frozenset()
        self.put_in: Mapping[int, List[int]] = {}
        try:
            self._ask(data, Editor(edge, stronger))
        except Refusal as refusal:
            self.refusal = refusal

    def _ask(self, data: bytes, editor: Editor) -> None:
        """What the library says of the batch."""
        # The account first: of refusal 8 it names the two changes.
        self.fates = editor.account(data)
        assert len(self.fates) == len(self.changes), "an account has a line for each recorded change"
        self.answer = editor.edit(data)
        self.share = editor.share(data)
        self.kept = dict(editor.kept(data))
        self.gone = frozenset(range(self.shape.places[0].after)) - frozenset(self.kept)
        self.put_in = put_in(self, self.answer, editor.choices.edge)

    @property
    def calls(self) -> Sequence[Call]:
        """The calls of the batch."""
        return self.contents.calls


def put_in(view: View, answer: Answer, edge: int) -> Mapping[int, List[int]]:
    """By each call the changed elements that it put in.

    The batch is edited once more, each call as by a rule of its own number: without stronger rules first rule numbers say who put an element in and play no other part. What is
    withdrawn has left before.
    """
    calls = [Call(it.operation, it.target, it.listed, 0 if it.operation == NEXT_EDITOR else i + 1) for i, it in enumerate(view.calls)]
    left = tuple(it for i, it in enumerate(calls) if not _withdrawn(view, i))
    again = Editor(edge).edit(replace(view.contents, calls=left).write())
    assert (again.elements, again.changed) == (answer.elements, answer.changed), "rule numbers play no other part"
    found = defaultdict(list)
    for element, rule in zip(again.changed, again.rules):
        found[rule - 1].append(element)
    return found


def _withdrawn(view: View, call: int) -> bool:
    """Whether the change of a call is withdrawn."""
    change = view.change_of.get(call)
    return change is not None and isinstance(view.fates[change], Withdrawn)
