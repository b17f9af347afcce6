"""The statuses with which calls end, and the exceptions of this package."""
from __future__ import annotations

from typing import TYPE_CHECKING, Optional, Tuple

if TYPE_CHECKING:
    from .refusals import Refusal

DONE, REFUSED, WORDS, INPUT, READ, WRITE, MEMORY = range(7)
# The program is not there, or no Python is.
MISSING = 127


class WrongWords(Exception):
    """Words that are none of a command's; the text says which word. It is told in two lines, and the status is 2."""


class Error(Exception):
    """What keeps a source from having a code. `status` is that of the command (README.md, "Statuses")."""

    status = REFUSED


class Refused(Error):
    """A source or a tree is refused.

    `path`, `row`, `column` (None without a place; both from 1 on), `text`, `code` (as `R301`, of `pyc --explain`), `note`.
    """

    def __init__(self, refusal: "Refusal"):
        place = "" if refusal.place is None else "%d:%d: " % refusal.place
        super().__init__("%s:%s%s" % (refusal.path, place or " ", refusal.text))
        self.refusal = refusal
        self.path, self.text, self.code, self.note = refusal.path, refusal.text, refusal.code, refusal.note
        self.row, self.column = refusal.place or (None, None)
        self.status = refusal.status

    @property
    def place(self) -> Optional[Tuple[int, int]]:
        """The row and the column, or None."""
        return self.refusal.place


class NoProgram(Error):
    """The program is not built, or not where it is looked for."""

    status = MISSING


class OutOfMemory(Error):
    """The program had no memory, or what counts as that."""

    status = MEMORY


class Ended(Error):
    """The program ended otherwise than it does, as by a signal."""

    def __init__(self, text: str, status: int):
        super().__init__(text)
        self.status = status


class Failed(Exception):
    """What keeps a file from being read or written: the lines that are told, with their ends, and the status."""

    def __init__(self, text: str, status: int):
        super().__init__(text)
        self.status = status
