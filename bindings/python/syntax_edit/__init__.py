"""A package over the proved syntax tree editor, the checker of another editor's output and series of edits with bookmarks.

A `Batch` (trees, calls, mappings, notes) is told to a `BatchBuilder` and laid out by the library's writer; an `Editor`, which owns the work memory, answers it with an `Answer`
(the new tree, its changed elements, its notes) or raises a `Refusal`: every batch of bytes gets one of the two. A `Checker` judges a `Claim`, what another editor says of its own
output. A `Series` edits batch after batch on the tree that the one before left, and its bookmarks follow. The names are those of the Rust crate in ``bindings/rust``.

``bindings/python/build`` makes the shared library; it is loaded by the first call. ``python3 -m syntax_edit show FILE`` shows a batch as text.
"""

from .account import Dependent, Discarded, Fate, Own, Withdrawn
from .answer import Answer
from .batch import Batch, BatchBuilder, Call, Contents, Sizes
from .checker import Checker, Claim
from .editor import Editor, Share
from .raw import MOST_ACCOUNT, MOST_ANSWER, MOST_KEPT, Choices, Lists
from .refusal import MEANINGS, Loose, Overlap, Refusal, Unbalanced, Unfit
from .series import Series
from .tree import Element, Flat, Node, Note, Token

__all__ = [
    "MEANINGS",
    "MOST_ACCOUNT",
    "MOST_ANSWER",
    "MOST_KEPT",
    "Answer",
    "Batch",
    "BatchBuilder",
    "Call",
    "Checker",
    "Choices",
    "Claim",
    "Contents",
    "Dependent",
    "Discarded",
    "Editor",
    "Element",
    "Fate",
    "Flat",
    "Lists",
    "Loose",
    "Node",
    "Note",
    "Overlap",
    "Own",
    "Refusal",
    "Series",
    "Share",
    "Sizes",
    "Token",
    "Unbalanced",
    "Unfit",
    "Withdrawn",
]
