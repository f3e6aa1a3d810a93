"""The editor: what becomes of a batch."""

from __future__ import annotations

from struct import unpack_from
from typing import List, NamedTuple, Optional, Tuple, Union

from . import account as accounts
from . import raw
from .account import Fate
from .answer import Answer
from .batch import Batch, as_bytes
from .raw import Choices
from .refusal import Overlap, told


class Share(NamedTuple):
    """How much of a new text is rewritten, in thousandths: the exact share of ``all`` bytes is (thousandths + remainder / ``all``) / 1,000. Of an empty text it is 0."""

    thousandths: int
    remainder: int


class Editor:
    """The editor with its choices, its work memory (235 KiB) and a result buffer in which every answer fits. One for each thread that edits at the same time.

    ``edge`` is the edge rule, ``stronger`` the choice of stronger rules first: `Choices` says what they are. Every call takes a `Batch` or its bytes, and answers or raises a
    `Refusal`.
    """

    def __init__(self, edge: int = 0, stronger: int = 0) -> None:
        """An editor by these choices, with its own work memory."""
        self.choices = Choices(edge, stronger)
        self._work = raw.work()
        self._result = raw.room(raw.MOST_ANSWER)

    def edit(self, batch: Union[Batch, bytes]) -> Answer:
        """The answer of a batch."""
        length = told(raw.edit(self.choices, as_bytes(batch), self._result, self._work))
        answer = Answer.read(self._held(length))
        assert answer is not None, "an answer is as long as its sizes tell"
        return answer

    def account(self, batch: Union[Batch, bytes]) -> List[Fate]:
        """What becomes of each change of a batch, in sorted order. Where two overlap it raises `Overlap`, which is refusal 8 and names them.

        A batch whose answer has more than 65,536 bytes is refused (13), as by the programs; `edit` has room for it.
        """
        length = told(raw.account(self.choices, as_bytes(batch), self._result, self._work))
        found = accounts.read(self._held(length).decode("ascii"))
        if isinstance(found, Overlap):
            raise found
        return found

    def share(self, batch: Union[Batch, bytes]) -> Share:
        """How much of the new text lies in changed elements."""
        return Share(*divmod(told(raw.share(self.choices, as_bytes(batch), self._work)), raw.THOUSANDTH))

    def kept(self, batch: Union[Batch, bytes]) -> List[Tuple[int, int]]:
        """The surviving elements of the old tree, each with its number in the new tree, by rising old numbers.

        With these pairs and the changed elements of the answer a `Checker` accepts the answer, if the root was not replaced and no dependent change ended in tree 0.
        """
        length = told(raw.kept(self.choices, as_bytes(batch), self._result, self._work))
        numbers = unpack_from(f"<{length // 4}I", self._held(length))
        half = len(numbers) // 2
        return list(zip(numbers[:half], numbers[half:]))

    def find_element(self, batch: Union[Batch, bytes], number: int) -> Optional[int]:
        """The element of the new tree that ``find_element`` gives for an element of the batch: the first node with its kind and text start, or `None`."""
        answer = raw.find_element(self.choices, as_bytes(batch), number, self._work)
        return None if answer == raw.NONE else told(answer)

    def _held(self, length: int) -> bytes:
        """The front of the result buffer."""
        return bytes(memoryview(self._result)[:length])
