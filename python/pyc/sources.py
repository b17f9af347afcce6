"""Reads sources and makes their rows."""
from __future__ import annotations

import os
import sys
from typing import List, Optional

from . import ends, refusals
from . import rows as rows_of_python
from .errors import READ, Failed, Refused
from .refusals import Place, refusal, shown
from .rows import lines_of


def bytes_of(file: str) -> bytes:
    """The bytes of a file, or of standard input for `-`. Raises Failed."""
    try:
        if file == "-":
            return sys.stdin.buffer.read()
        with open(file, "rb") as it:
            return it.read()
    except (OSError, AttributeError) as error:
        why = getattr(error, "strerror", None) or "it is closed"
        raise Failed("%s: %s\n" % (shown(name_of(file)), why), READ) from None


def told(name: str, place: Place, text: str, source: Optional[List[str]]) -> str:
    """The lines that tell a fault at a place of a source, as standard error takes them; the source is None where it is not at
    hand."""
    return refusals.told(refusal(name, place, text, source), ends.width(), ends.is_coloured())


def name_of(file: str) -> str:
    """The name by which a file is told, and which its code bears."""
    return "<stdin>" if file == "-" else file


def text_of_name(name: str) -> Optional[str]:
    """The name of a file as a text, which a code can bear; None where its bytes are not UTF-8."""
    try:
        return os.fsencode(name).decode("utf-8")
    except UnicodeError:
        return None


def rows_of(name: str, data: bytes, mode: str) -> bytes:
    """The bytes of the rows of a source. Raises Refused where it has none."""
    try:
        return rows_of_python.rows_text(data, mode).encode("utf-8")
    except rows_of_python.Fault as fault:
        raise Refused(refusal(name, fault.place, str(fault), lines_of(data))) from None
