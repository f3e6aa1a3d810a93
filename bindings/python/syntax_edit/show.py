"""A batch as text: its trees, what became of each call, the new tree, and both texts with what went and what came marked."""

from __future__ import annotations

from collections import defaultdict
from typing import Dict, FrozenSet, List, Mapping, NamedTuple, Optional, Sequence, Union

from . import words
from .account import Dependent, Discarded, Own
from .answer import Answer
from .batch import Batch, as_bytes, taken_apart
from .changes import Change
from .fault import fault
from .refusal import Overlap, Refusal
from .shape import Shape
from .tree import Token
from .view import View


class Picture(NamedTuple):
    """A batch as text, and its refusal if it is refused."""

    text: str
    refusal: Optional[Refusal]


def picture(batch: Union[Batch, bytes], edge: int = 0, stronger: int = 0) -> Picture:
    """The whole picture of a batch; of one that is not well formed only what can be shown, and the refusal."""
    data = as_bytes(batch)
    try:
        view = View(data, edge, stronger)
    except Refusal as refusal:
        return Picture(_text(_malformed(data, refusal)), refusal)
    lines = _trees(view.shape, view.gone) + _mappings(view) + _calls(view)
    lines += _answered(view, view.answer) if view.answer else _refused(view)
    return Picture(_text(lines), view.refusal)


def show(batch: Union[Batch, bytes], edge: int = 0, stronger: int = 0) -> str:
    """The text of the picture."""
    return picture(batch, edge, stronger).text


def _text(lines: Sequence[str]) -> str:
    """The lines as one text."""
    return "".join(line + "\n" for line in lines)


def _malformed(data: bytes, refusal: Refusal) -> List[str]:
    """The refusal in words. What 6, 16 and 7 refuse has trees to show, and a first call, mapping or note that is refused."""
    if refusal.number not in (6, 7, 16):
        return [str(refusal)]
    return _trees(Shape(taken_apart(data).elements), frozenset()) + ["", str(refusal), f"    {fault(data)}"]


def _row(shape: Shape, number: int, width: int) -> str:
    """An element with its number, as far to the right as it is deep."""
    element = shape.elements[number]
    text = f"  {words.shown(element.text)}" if isinstance(element, Token) else ""
    return f"{number:>{width}}  {'  ' * (shape.places[number].depth - 1)}{words.sort(shape, number)}{text}"


def _width(shape: Shape) -> int:
    """How many digits the numbers have."""
    return len(str(len(shape.elements) - 1))


def _trees(shape: Shape, gone: FrozenSet[int]) -> List[str]:
    """The trees of the batch. What of tree 0 does not survive has a minus."""
    lines: List[str] = []
    for number, place in enumerate(shape.places):
        if place.depth == 1:
            title = "tree 0, which is edited" + (" (- goes)" if gone else "")
            lines += ["", f"tree {place.tree}"] if place.tree else [title]
        lines.append(f"  {'-' if number in gone else ' '} {_row(shape, number, _width(shape))}")
    return lines


def _mappings(view: View) -> List[str]:
    """Which node is mapped to which."""
    pairs = [f"  {words.element(view.shape, i)} to {words.element(view.shape, o)}" for i, o in view.contents.mappings]
    return ["", "mapped"] + pairs if pairs else []


def _calls(view: View) -> List[str]:
    """Each call in words, and below it what became of its change."""
    lines = [""] if view.calls else []
    for number, it in enumerate(view.calls):
        lines.append(_call(view, number))
        change = view.change_of.get(number)
        if change is not None and view.answer:
            lines.append(f"    change {change}: {_became(view, number, change)}")
    return lines


def _call(view: View, number: int) -> str:
    """A call with its number and its rule: `call 0, rule 7: insert ..`."""
    it = view.calls[number]
    return f"call {number}{', ' if it.rule else ': '}{words.call(view.shape, it)}"


def _became(view: View, number: int, change: int) -> str:
    """What became of a call's change, told of the call with the last effect."""
    it, fate = view.changes[change], view.fates[change]
    if it.effect != number:
        return f"call {it.effect} has the last effect"
    if isinstance(fate, Own):
        return "own" + _landed(view, it)
    under = f"change {fate.change} ({_by(view, view.changes[fate.change])})"
    if isinstance(fate, Dependent):
        return f"dependent of {under}"
    return f"{'discarded' if isinstance(fate, Discarded) else 'withdrawn'} under {under}"


def _by(view: View, change: Change) -> str:
    """The call with the last effect on a change, and its rule."""
    return f"call {change.effect}" + (f", rule {change.rule}" if change.rule else "")


def _landed(view: View, change: Change) -> str:
    """Where a change on its own put its elements. `own` alone does not say that they are still there."""
    tree = view.shape.places[change.target].tree
    if tree:
        return f", in tree {tree}"
    now = view.put_in.get(change.effect)
    if now:
        return f", now {words.numbered(now)}"
    return ", but nothing of it is in the new tree" if change.listed else ""


def _refused(view: View) -> List[str]:
    """The refusal in words; of an overlap the two changes as calls."""
    refusal = view.refusal
    assert refusal is not None, "a batch is answered or refused"
    lines = ["", f"refused {refusal.number}: {refusal.meaning}"]
    if isinstance(refusal, Overlap):
        lines += [f"    change {it}: {_call(view, view.changes[it].effect)}" for it in (refusal.first, refusal.second)]
    return lines


def _answered(view: View, answer: Answer) -> List[str]:
    """The new tree, its notes, and both texts."""
    shape = Shape(answer.elements)
    # Of what goes, an element below another is not marked once more.
    gone = {it: "-" for it in view.gone if view.shape.places[it].parent not in view.gone}
    came = {it: f"{rule}:" if rule else "" for it, rule in zip(answer.changed, answer.rules)}
    lines = _new_tree(view, answer, shape) + _notes(view, answer)
    lines += ["", "old text"] + marked(view.shape, gone).splitlines() + ["", "new text"] + marked(shape, came).splitlines()
    return lines + ["", _summary(view, answer)]


def _new_tree(view: View, answer: Answer, shape: Shape) -> List[str]:
    """The new tree: of each element the old number, if it survived, and the new one."""
    olds = {new: str(old) for old, new in view.kept.items()}
    wide = max(_width(shape), _width(view.shape))
    told = _told(answer)
    rows = [f"    {olds.get(it, '+'):>{wide}}  {_row(shape, it, wide)}{told.get(it, '')}" for it in range(len(answer.elements))]
    return ["", "new tree (old number or +, new number)"] + rows


def _told(answer: Answer) -> Mapping[int, str]:
    """What is told behind an element: that it is changed, by which rule, and its notes."""
    told: Dict[int, List[str]] = defaultdict(list)
    for element, rule in zip(answer.changed, answer.rules):
        told[element].append(f"changed by rule {rule}" if rule else "changed")
    for note in answer.notes:
        told[note.element].append(f"note {note.number}")
    return {element: "    <- " + ", ".join(parts) for element, parts in told.items()}


def _notes(view: View, answer: Answer) -> List[str]:
    """Each note number: on which elements it was given, and on which it is now."""
    given, now = defaultdict(list), defaultdict(list)
    for note in view.contents.notes:
        given[note.number].append(note.element)
    for note in answer.notes:
        now[note.number].append(note.element)
    told = [f"  note {it}: given to {words.elements(view.shape, given[it])}; now on {words.numbered(now[it]) if now[it] else 'none'}" for it in sorted(given)]
    return ["", "notes"] + told if told else []


def marked(shape: Shape, marks: Mapping[int, str]) -> str:
    """The text of tree 0 with brackets around these elements, each with its mark in front."""
    out: List[str] = []
    ends: List[int] = []
    for number in range(shape.places[0].after):
        while ends and ends[-1] == number:
            out.append("]")
            ends.pop()
        if number in marks:
            out.append("[" + marks[number])
            ends.append(shape.places[number].after)
        element = shape.elements[number]
        if isinstance(element, Token):
            out.append(words.decoded(element.text))
    return "".join(out) + "]" * len(ends)


def _summary(view: View, answer: Answer) -> str:
    """The sizes in a line."""
    counts = f"{len(answer.elements)} elements, {len(answer.text)} bytes, {len(answer.changed)} changed, {answer.discarded} discarded, {answer.climb_steps} climb steps"
    return f"{counts}; {view.share.thousandths} thousandths of the text rewritten, remainder {view.share.remainder}"
