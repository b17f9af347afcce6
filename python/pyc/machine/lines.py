"""The table that says of which line of the source each instruction of a code of CPython is."""
from __future__ import annotations

import types
from typing import Iterable, Iterator, Optional, Sequence

# Kinds of entries: a line and no columns, and no line. An entry tells of one to eight units of two bytes.
LINE, NO_LINE, MOST = 13, 15, 8


def number(value: int) -> bytes:
    """A number in groups of six bits, the lowest first; each but the last is marked."""
    found = bytearray()
    while value > 63:
        found.append(0x40 | value & 63)
        value >>= 6
    found.append(value)
    return bytes(found)


def repeated(kind: int, units: int, behind: bytes) -> bytes:
    """Entries of a kind for so many units, each with the same bytes behind it."""
    whole, rest = divmod(units, MOST)
    return (bytes((0x80 | kind << 3 | MOST - 1,)) + behind) * whole + (bytes((0x80 | kind << 3 | rest - 1,)) + behind if rest else b"")


def entries(spans: Iterable[tuple[int, Optional[int]]], first: int) -> Iterator[bytes]:
    """The entries of spans of units, each with its line."""
    last = first
    for units, line in spans:
        if line is None:
            yield repeated(NO_LINE, units, b"")
            continue
        change, last = line - last, line
        some = min(units, MOST)
        yield repeated(LINE, some, number(-change << 1 | 1 if change < 0 else change << 1))
        yield repeated(LINE, units - some, number(0))


def spans_of(code: types.CodeType, rows: Sequence[int]) -> Iterator[tuple[int, Optional[int]]]:
    """The units of a code, in spans of one row each."""
    begin, last, behind = 0, None, 0
    for start, end, line in code.co_lines():
        row = None if line is None else rows[line - 1 if line else 0]
        if row != last:
            if start > begin:
                yield (start - begin) // 2, last
            begin, last = start, row
        behind = end
    yield (behind - begin) // 2, last


def table(code: types.CodeType, rows: Sequence[int], first: int) -> bytes:
    """The table of a code whose lines are to become others: the line n of its text is the row `rows[n - 1]`; before the
    first one it is that of the first."""
    return b"".join(entries(spans_of(code, rows), first))
