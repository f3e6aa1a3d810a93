"""The changes that an account numbers, found from a batch's calls.

An account speaks of changes by their place in sorted order. Here calls are recorded and sorted as document 01 says ("Recording", "Planning"), so that each line can be told beside
its calls. Nothing here judges a batch: what becomes of each change is the library's answer.
"""

from __future__ import annotations

from dataclasses import dataclass
from typing import List, Sequence, Tuple

from .batch import DELETE, INSERT_AFTER, INSERT_FIRST, NEXT_EDITOR, REPLACE, REPLACE_ALL, REPLACE_WITH_MANY, Call
from .shape import Shape


@dataclass
class Change:
    """A recorded change: what its calls have come to. ``end`` is the last element of a run, else the target; ``listed`` are the elements that go in."""

    operation: int
    target: int
    end: int
    listed: Tuple[int, ...]
    rule: int
    #: The numbers of its calls, in order: several where calls 2 and 3 on one target merge ..
    calls: List[int]
    #: .. and that of the call with the last effect.
    effect: int


def recorded(calls: Sequence[Call]) -> List[Change]:
    """The changes of all editors' queues, joined in order."""
    joined: List[Change] = []
    queue: List[Change] = []
    for number, call in enumerate(calls):
        if call.operation == NEXT_EDITOR:
            joined, queue = joined + queue, []
        else:
            _record(queue, number, call)
    return joined + queue


def _record(queue: List[Change], number: int, call: Call) -> None:
    """An editor's queue takes a call: into the change that it merges with, or as a change of its own."""
    if call.operation in (REPLACE, DELETE):
        for change in queue:
            if change.operation in (REPLACE, DELETE) and change.target == call.target:
                _merge(change, number, call)
                return
    queue.append(_change(number, call))


def _change(number: int, call: Call) -> Change:
    """A call as a change of its own. A run with equal ends is recorded as call 4."""
    if call.operation != REPLACE_ALL:
        return Change(call.operation, call.target, call.target, call.listed, call.rule, [number], number)
    end = call.listed[0]
    operation = REPLACE_WITH_MANY if end == call.target else REPLACE_ALL
    return Change(operation, call.target, end, call.listed[1:], call.rule, [number], number)


def _merge(change: Change, number: int, call: Call) -> None:
    """A delete stays, and a replacement by the same element leaves the change; else the later call has the last effect, its rule number included."""
    change.calls.append(number)
    if change.operation == DELETE or (call.operation == REPLACE and change.listed == call.listed):
        return
    change.operation, change.listed, change.rule, change.effect = call.operation, call.listed, call.rule, number


def in_order(shape: Shape, changes: Sequence[Change]) -> List[Change]:
    """The changes sorted, stably, by range start, then depth of target parent, then insert, run, replace."""
    return sorted(changes, key=lambda it: (range_of(shape, it)[0], _parent_depth(shape, it), _rank(it)))


def range_of(shape: Shape, change: Change) -> Tuple[int, int]:
    """The text range that a change is about, in its target's tree: an insertion has an empty one, at the start of its parent's first child or at the end of its target."""
    start, end = shape.range(change.target)
    if change.operation == INSERT_FIRST:
        return start, start
    if change.operation == INSERT_AFTER:
        return end, end
    return start, shape.range(change.end)[1]


def _parent_depth(shape: Shape, change: Change) -> int:
    """The depth of the target parent: the target itself under call 0, and of a root."""
    depth = shape.places[change.target].depth
    return depth if change.operation == INSERT_FIRST or depth == 1 else depth - 1


def _rank(change: Change) -> int:
    """Insertions first, then runs, then replacements, which calls 3 and 4 are too."""
    if change.operation in (INSERT_FIRST, INSERT_AFTER):
        return 0
    return 1 if change.operation == REPLACE_ALL else 2
