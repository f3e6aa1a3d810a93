"""A series of edits: batch after batch on one tree, with bookmarks that follow."""

from __future__ import annotations

import ctypes
from struct import pack, unpack_from
from typing import List, Sequence, Tuple, Union

from . import raw
from .answer import Answer
from .batch import Batch, as_bytes
from .raw import Choices
from .refusal import told
from .tree import Flat

#: A bookmark: its number, and the child number at each step down from the root.
Bookmark = Tuple[int, Sequence[int]]

#: The bytes of the two sizes in front of a tree.
_SIZES = 8


class Series:
    """A series of edits with its memory (the present tree and the bookmarks that are left), its work memory and a result buffer in which every answer fits.

    `Series.start` begins one.
    """

    def __init__(self, tree: raw.Room, bookmarks: raw.Words) -> None:
        """A series with this memory, which `start` has judged."""
        self._tree = tree
        self._bookmarks = bookmarks
        self._work = raw.work()
        self._result = raw.room(raw.MOST_ANSWER)

    @staticmethod
    def start(tree: Flat, bookmarks: Sequence[Bookmark] = ()) -> Series:
        """A series that begins with this tree and these bookmarks. Raises the `Refusal`: 3, 4, 5, 20 or 21."""
        laid, slots = _laid_out(tree), _slots(bookmarks)
        told(raw.series_start(laid, slots, raw.words([0] * raw.START_ROWS)))
        held = raw.room(raw.MOST_TREE)
        ctypes.memmove(held, laid, len(laid))
        return Series(held, slots)

    def follow(self, batch: Union[Batch, bytes], edge: int = 0, stronger: int = 0) -> Answer:
        """The answer of a batch whose tree 0 is the present tree; then the new tree is the present one, and each bookmark has moved with its element or was dropped with it.

        Raises the `Refusal`, 22 if tree 0 is another tree; then the series is as it was. A batch has at most 2,048 elements: once the present tree has more, every batch is
        refused (22).
        """
        length = told(raw.series_follow(Choices(edge, stronger), as_bytes(batch), self._tree, self._bookmarks, self._result, self._work))
        answer = Answer.read(bytes(memoryview(self._result)[:length]))
        assert answer is not None, "an answer is as long as its sizes tell"
        return answer

    @property
    def bookmarks(self) -> List[Tuple[int, Tuple[int, ...]]]:
        """The bookmarks that are left, in the order in which they were given: each with its number and the path of now."""
        slots = (self._bookmarks[1 + raw.SLOT * i : 1 + raw.SLOT * (i + 1)] for i in range(self._bookmarks[0]))
        return [(it[0], tuple(it[2 : 2 + it[1]])) for it in slots]

    @property
    def tree(self) -> Flat:
        """The present tree, for `BatchBuilder.tree`."""
        held = bytes(self._tree)
        elements, text = unpack_from("<2I", held)
        kinds = unpack_from(f"<{elements}I", held, _SIZES)
        measures = unpack_from(f"<{elements}I", held, _SIZES + 4 * elements)
        at = _SIZES + 8 * elements
        return Flat(kinds, measures, held[at : at + text])

    @property
    def kinds(self) -> Sequence[int]:
        """The kinds of the present tree's elements in preorder, a node's with bit 31."""
        return self.tree.kinds

    @property
    def measures(self) -> Sequence[int]:
        """The measures of the present tree's elements: children of a node, text bytes of a token."""
        return self.tree.measures

    @property
    def text(self) -> bytes:
        """The text of the present tree."""
        return self.tree.text


def _laid_out(tree: Flat) -> bytes:
    """A tree as the library takes it. It has one count for kinds and measures: where they differ, the longer list counts, and the bytes are too few for it (4)."""
    held = raw.words([max(len(tree.kinds), len(tree.measures)), len(tree.text), *tree.kinds, *tree.measures])
    return pack(f"<{len(held)}I", *held) + bytes(tree.text)


def _slots(bookmarks: Sequence[Bookmark]) -> raw.Words:
    """Bookmarks as the library takes them, with room for the most. Of a path that is too long for its slot the length is told (21)."""
    held = [len(bookmarks)]
    for number, path in bookmarks:
        front = list(path)[: raw.LONGEST_PATH]
        held += [number, len(path), *front] + [0] * (raw.LONGEST_PATH - len(front))
    return raw.words(held + [0] * (raw.SLOT * (raw.MOST_BOOKMARKS - len(bookmarks))))
