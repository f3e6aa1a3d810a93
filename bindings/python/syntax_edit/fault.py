"""Which call, mapping or note is not well formed, of a batch that 6, 16 or 7 refuses.

The refusal is a number alone. Here the library's writer is asked once more, of one call, mapping or note at a time: the first that it refuses is the one.
"""

from __future__ import annotations

from dataclasses import replace
from struct import unpack_from

from .batch import Call, Contents, Sizes, taken_apart
from .refusal import Refusal
from .words import listed


def fault(data: bytes) -> str:
    """The first call, mapping or note that is refused, by its numbers. Lines 2 to 5 must pass the batch."""
    contents = taken_apart(data)
    bare = replace(contents, calls=(), mappings=(), notes=())
    if not _adds_up(data):
        return "the counts of the calls do not add up to the listed elements"
    for number, call in enumerate(contents.calls):
        if _refused(replace(bare, calls=(call,))):
            return f"call {number}: {_told(call)}"
    for number, pair in enumerate(contents.mappings):
        if _refused(replace(bare, mappings=(pair,))):
            return f"mapping {number}: element {pair[0]} to element {pair[1]}"
    for number, note in enumerate(contents.notes):
        if _refused(replace(bare, notes=(note,))):
            return f"note {number}: number {note.number} on element {note.element}"
    raise AssertionError("what is refused by 6, 16 or 7 has such a call, mapping or note")


def _adds_up(data: bytes) -> bool:
    """Whether the counts in the call words add up to the listed elements. The words stand behind the sizes and two arrays of the elements."""
    sizes = Sizes(*unpack_from("<7I", data))
    words = unpack_from(f"<{sizes.calls}I", data, 28 + 8 * sizes.elements)
    return sum(word >> 8 & 0xFFF for word in words) == sizes.listed


def _refused(contents: Contents) -> bool:
    """Whether the writer refuses these lists."""
    try:
        contents.write()
    except Refusal:
        return True
    return False


def _told(call: Call) -> str:
    """A call by its numbers: it may name what there is not."""
    elements = f"{call.count} elements" if call.count > 41 else listed([str(it) for it in call.listed]) if call.listed else "nothing"
    return f"operation {call.operation}, target {call.target}, lists {elements}" + (f", rule {call.rule}" if call.rule else "")
