"""The shared library's own calls, over slices of any length.

What is promised of them (and proved of the libraries): the batch and the lists are only read; the result slice (of the writer: the destination) holds the answer (the batch) and
beyond it what it held, or, on refusal, all that it held; every work slice ends as zeros of its own length, whatever it held and however long it is.

A slice is ``bytes`` where it is only read, else an array of ``ctypes``: `words` and `room` make them.
"""

from __future__ import annotations

import ctypes
import functools
import os
from array import array
from pathlib import Path
from typing import Any, Iterable, NamedTuple, Sequence, Tuple

#: The lengths in words that the work slices need, in the order in which they are lent.
LENGTHS = (16_384, 6_147, 3_840, 3_072, 3_072, 1_024, 2_048, 12_291, 12_288)

#: The most bytes of an answer and of an account: a result buffer of this length is never too short.
MOST_ANSWER = 65_560
MOST_ACCOUNT = 8_192

#: The most pairs that survive an edit; each has eight bytes.
MOST_KEPT = 2_048

#: The length in bytes of the writer's draft, which is also the most bytes of a batch. Its table and its source are the editor's first two.
DRAFT = 49_180

#: A rule number is at most this.
MOST_RULE = 4_095

#: The most bytes of a load.
MOST_LOAD = 8_632

#: For how much a whole thousandth counts in the number of a share.
THOUSANDTH = 65_536

#: What `find_element` answers if there is no such element.
NONE = -1000

#: The lengths in words that the checker's work slices need: the old elements, the new ones, partners, marks.
CHECKER_LENGTHS = (16_384, 16_384, 4_096, 4_096)

#: What `check` answers of a claim that is accepted; 0 is rejected.
ACCEPTED = 1

#: The length in words that the work slice of `series_start` needs.
START_ROWS = 12_288

#: The most bytes of a tree in the memory of a series: two sizes, 4,096 kinds and measures, 16,384 bytes of text.
MOST_TREE = 49_160

#: The most bookmarks of a series.
MOST_BOOKMARKS = 256

#: The words of a bookmark in the memory of a series: its number, how many child numbers its path has, and those.
SLOT = 65

#: The most child numbers of a bookmark's path.
LONGEST_PATH = 63

_SLICE = (ctypes.c_void_p, ctypes.c_size_t)
_CHOICES = (ctypes.c_uint64, ctypes.c_uint64)

#: Of each call what it takes: every slice is a pointer and a length. All answer with 64 bits.
CALLS = {
    "syntax_edit": _CHOICES + 11 * _SLICE,
    "syntax_find_element": _CHOICES + _SLICE + (ctypes.c_uint64,) + 9 * _SLICE,
    "syntax_account": _CHOICES + 11 * _SLICE,
    "syntax_share": _CHOICES + 10 * _SLICE,
    "syntax_kept": _CHOICES + 11 * _SLICE,
    "syntax_write": (ctypes.c_size_t,) + 16 * _SLICE,
    "syntax_load": (ctypes.c_uint32,) + 4 * _SLICE,
    "syntax_check": 13 * _SLICE,
    "syntax_series_start": 3 * _SLICE,
    "syntax_series_follow": _CHOICES + 13 * _SLICE,
}


class Choices(NamedTuple):
    """How a batch is edited. The default is what rust-analyzer does.

    ``edge`` is the edge rule, to which replacement or run a change at its edge belongs: 0 by text ranges, 1 by where elements stand in the tree; any other number is refused (17).
    ``stronger`` is stronger rules first, off (0) or on (1): whether a replacement or run is withdrawn that overlaps a kept one of a higher rule number; any other number is refused
    (18).
    """

    edge: int = 0
    stronger: int = 0


class Lists(NamedTuple):
    """The lists of a batch, as the writer takes them.

    Elements of all trees in preorder, tree after tree; of each call its operation, how many elements it lists, its rule number, and its target; the listed elements, call after
    call; of each mapping its input and its output; of each note its element and its number.
    """

    trees: int = 0
    kinds: Sequence[int] = ()
    measures: Sequence[int] = ()
    text: bytes = b""
    operations: Sequence[int] = ()
    counts: Sequence[int] = ()
    rules: Sequence[int] = ()
    targets: Sequence[int] = ()
    listed: Sequence[int] = ()
    inputs: Sequence[int] = ()
    outputs: Sequence[int] = ()
    noted: Sequence[int] = ()
    numbers: Sequence[int] = ()


#: Slices that are written: an array of words or of bytes; and work memory, several of them.
Words = Any
Room = Any
Work = Tuple[Any, ...]


def words(values: Iterable[int]) -> Words:
    """These numbers as a slice of 32-bit words. One that fits no word raises `OverflowError`: none is cut to another number in silence."""
    held = array("I", [*values])
    return (ctypes.c_uint32 * len(held)).from_buffer(held)


def room(length: int) -> Room:
    """A slice of so many bytes, all zeros."""
    return (ctypes.c_uint8 * length)()


def work() -> Work:
    """Work memory of the lengths that are needed, 235 KiB."""
    return tuple((ctypes.c_uint32 * length)() for length in LENGTHS)


def writer_work() -> Work:
    """Work memory of the lengths that the writer needs, 136 KiB: draft, table, source."""
    return (room(DRAFT), (ctypes.c_uint32 * LENGTHS[0])(), (ctypes.c_uint32 * LENGTHS[1])())


def checker_work() -> Work:
    """Work memory of the lengths that the checker needs, 160 KiB."""
    return tuple((ctypes.c_uint32 * length)() for length in CHECKER_LENGTHS)


def path() -> Path:
    """Where the shared library stands: the file that ``SYNTAX_EDIT_SHARED`` names, else where ``bindings/python/build`` writes it."""
    named = os.environ.get("SYNTAX_EDIT_SHARED")
    return Path(named) if named else Path(__file__).resolve().parents[3] / "target" / "python" / "libsyntax.so"


@functools.lru_cache(maxsize=None)
def library() -> ctypes.CDLL:
    """The shared library with its declarations, loaded once."""
    if not path().exists():
        raise OSError(f"no {path()}: run bindings/python/build")
    loaded = ctypes.CDLL(str(path()))
    for name, takes in CALLS.items():
        call = getattr(loaded, name)
        call.argtypes, call.restype = takes, ctypes.c_int64
    return loaded


def _call(name: str, *arguments: Any) -> int:
    """What this call answers. A number passes as it is, a slice as a pointer and its length."""
    passed = []
    for it in arguments:
        passed += [it] if isinstance(it, int) else [it, len(it)]
    if len(passed) != len(CALLS[name]):
        raise TypeError(f"{name} takes {len(CALLS[name])} numbers, pointers and lengths, and got {len(passed)}")
    return getattr(library(), name)(*passed)


def _number(number: int) -> int:
    """A number as 64 bits. One that fits none is as wrong as the greatest one, and stands as that."""
    return number if 0 <= number < 1 << 64 else (1 << 64) - 1


def _by(choices: Choices) -> Tuple[int, int]:
    """Both choices as the library takes them."""
    return _number(choices[0]), _number(choices[1])


def edit(choices: Choices, batch: bytes, result: Room, work: Work) -> int:
    """The length of the answer that now stands at the start of ``result``, or a refusal's number with a minus."""
    return _call("syntax_edit", *_by(choices), batch, result, *work)


def find_element(choices: Choices, batch: bytes, number: int, work: Work) -> int:
    """The number of the element found, `NONE`, or a refusal's number with a minus."""
    return _call("syntax_find_element", *_by(choices), batch, _number(number), *work)


def account(choices: Choices, batch: bytes, result: Room, work: Work) -> int:
    """The length of the account's text that now stands at the start of ``result``, or a refusal's number (never 8) with a minus."""
    return _call("syntax_account", *_by(choices), batch, result, *work)


def kept(choices: Choices, batch: bytes, result: Room, work: Work) -> int:
    """How many bytes the surviving pairs have that now stand at the start of ``result``, all old numbers, then all new ones, a word each; or a refusal's number with a minus."""
    return _call("syntax_kept", *_by(choices), batch, result, *work)


def share(choices: Choices, batch: bytes, work: Work) -> int:
    """The share of the new text that is rewritten, `THOUSANDTH` times the whole thousandths and the remainder, or a refusal's number with a minus."""
    return _call("syntax_share", *_by(choices), batch, *work)


def write(lists: Lists, destination: Room, work: Work) -> int:
    """The length of the batch that now stands at the start of ``destination``, or a refusal's number (1, 14 or 15) with a minus."""
    trees, *held = lists
    slices = [it if isinstance(it, bytes) else words(it) for it in held]
    return _call("syntax_write", _number(trees), *slices, destination, *work)


def load(start: int, destination: Room, work: Work) -> int:
    """The length of the load of a starting number, which now stands at the start of ``destination``, or a refusal's number (1 or 15) with a minus."""
    return _call("syntax_load", words([start])[0], destination, *work)


def check(old: Tuple[Any, ...], new: Tuple[Any, ...], olds: Sequence[int], news: Sequence[int], changed: Sequence[int], work: Work) -> int:
    """`ACCEPTED` or 0 for a claim, or a refusal's number (1, 3, 4, 5 or 19) with a minus. ``old`` and ``new`` are kinds, measures and text each."""
    trees = [it if isinstance(it, bytes) else words(it) for it in (*old, *new)]
    return _call("syntax_check", *trees, words(olds), words(news), words(changed), *work)


def series_start(tree: bytes, bookmarks: Words, rows: Words) -> int:
    """0 if a series may begin with this tree and these bookmarks, or a refusal's number (1, 3, 4, 5, 20 or 21) with a minus. `series_follow` says how both are laid out."""
    return _call("syntax_series_start", tree, bookmarks, rows)


def series_follow(choices: Choices, batch: bytes, tree: Room, bookmarks: Words, result: Room, work: Work) -> int:
    """The length of the answer that now stands at the start of ``result``, the memory then holding the new tree and the bookmarks that survive; or a refusal's number (1 to 13, 16
    to 18 or 20 to 22) with a minus, the memory and the result then being as they were.

    The memory of a series is two slices of any lengths: the tree as bytes (how many elements and how many bytes of text, kinds, measures, text, as in a batch) and the bookmarks
    as words (how many, then `SLOT` words for each: its number, how many child numbers its path has, and those). Beyond that they hold anything.
    """
    return _call("syntax_series_follow", *_by(choices), batch, tree, bookmarks, result, *work)
