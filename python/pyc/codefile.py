"""Reads and writes files of code (crates/py_codefile/README.md has the format).

What `read` gives is written again as the same bytes. Both go through codes and tuples of any depth that a file holds,
without a call within a call.
"""
from __future__ import annotations

import struct
from typing import Any, Callable, Optional

from .code_object import Code, Constant
from .opcodes import NAMES, NUMBERS

MAGIC = b"PYCODE\x00\x01"
# How deep codes and tuples nest: less than this, the outermost code counting one.
DEEPEST = 2**11

NONE, FALSE, TRUE, STR, BYTES, INT, TUPLE, ELLIPSIS, CODE = range(9)
SINGLE = {NONE: None, FALSE: False, TRUE: True, ELLIPSIS: ...}


class BadCode(ValueError):
    """Why bytes are no file of code, and the offset of the first bad field, counted from 0."""

    def __init__(self, cause: str, offset: int):
        super().__init__("bad code file at %d: %s" % (offset, cause))
        self.cause, self.offset = cause, offset


class Open:
    """A tuple or a code whose constants are being read: how many are left, those found, and what a code begins with."""

    __slots__ = ("head", "left", "found")

    def __init__(self, head: Optional[tuple], left: int):
        self.head, self.left, self.found = head, left, []


class Reader:
    """Bytes that are read from left to right, a field at a time."""

    def __init__(self, data: bytes):
        self.data = data
        self.at = 0
        # The offsets of the counts and lengths that were read.
        self.counts: list[int] = []

    def field(self, size: int) -> bytes:
        if len(self.data) - self.at < size:
            raise BadCode("Truncated", self.at)
        self.at += size
        return self.data[self.at - size : self.at]

    def number(self, form: str) -> int:
        return struct.unpack(">" + form, self.field(struct.calcsize(">" + form)))[0]

    def count(self) -> int:
        self.counts.append(self.at)
        return self.number("I")

    def text(self) -> str:
        size = self.count()
        at = self.at
        try:
            return self.field(size).decode("utf-8")
        except UnicodeDecodeError:
            raise BadCode("BadText", at) from None

    def octets(self, size: int) -> bytes:
        """A list of so many bytes, each of which is a field."""
        if len(self.data) - self.at < size:
            raise BadCode("Truncated", len(self.data))
        return self.field(size)

    def items(self, item: Callable[[], Any]) -> tuple:
        return tuple([item() for _ in range(self.count())])

    def unit(self) -> tuple[str, int]:
        at = self.at
        number = self.number("B")
        if number >= len(NAMES):
            raise BadCode("BadOpcode", at)
        return NAMES[number], self.number("B")

    def positive(self) -> int:
        at = self.at
        number = self.number("I")
        if number == 0:
            raise BadCode("ZeroLocation", at)
        return number

    def location(self) -> tuple[int, int]:
        return self.positive(), self.positive()

    def cells(self) -> Optional[tuple]:
        at = self.at
        byte = self.number("B")
        if byte > 1:
            raise BadCode("BadTag", at)
        return self.items(lambda: self.number("i")) if byte else None

    def head(self) -> Open:
        """The fields of a code before its constants."""
        counts = [self.number(form) for form in "HIII"]
        path, line, name = self.text(), self.number("I") or None, self.text()
        fields = (*counts, path, line, name, self.number("I"), self.items(self.unit), self.items(self.location))
        return Open(fields, self.count())

    def closed(self, it: Open) -> Constant:
        """The tuple or the code whose constants are all read."""
        if it.head is None:
            return tuple(it.found)
        tables = [self.items(self.text) for _ in range(4)]
        return Code(*it.head, tuple(it.found), *tables, self.cells())

    def plain(self, kind: int) -> Constant:
        """A constant that holds no others."""
        if kind == STR:
            return self.text()
        if kind == BYTES:
            return self.octets(self.count())
        if kind == INT:
            return int.from_bytes(self.field(16), "big", signed=True)
        return SINGLE[kind]

    def code(self) -> Code:
        """The code that comes next."""
        opened = [self.head()]
        while True:
            last = opened[-1]
            if last.left == 0:
                made = self.closed(opened.pop())
                if not opened:
                    return made
                opened[-1].found.append(made)
                continue
            last.left -= 1
            at = self.at
            kind = self.number("B")
            if kind > CODE:
                raise BadCode("BadTag", at)
            if kind not in (TUPLE, CODE):
                last.found.append(self.plain(kind))
            elif len(opened) + 1 >= DEEPEST:
                raise BadCode("TooDeep", at)
            else:
                opened.append(self.head() if kind == CODE else Open(None, self.count()))

    def file(self) -> Code:
        """The code of the whole file."""
        if self.field(len(MAGIC)) != MAGIC:
            raise BadCode("Magic", 0)
        code = self.code()
        if self.at < len(self.data):
            raise BadCode("Trailing", self.at)
        return code


def read(data: bytes) -> Code:
    """The code that a file of code holds. Raises BadCode where the bytes are none; nothing is verified of the code."""
    return Reader(data).file()


def number(value: int) -> bytes:
    """A count or another number of four bytes."""
    return struct.pack(">I", value)


def text(value: str) -> bytes:
    data = value.encode("utf-8")
    return number(len(data)) + data


def items(spell: Callable[[Any], bytes], values: tuple) -> bytes:
    return number(len(values)) + b"".join(map(spell, values))


def before_constants(code: Code) -> bytes:
    """The fields of a code up to the count of its constants."""
    counts = struct.pack(">HIII", code.flags, code.posonlyarg_count, code.arg_count, code.kwonlyarg_count)
    names = text(code.source_path) + number(code.first_line_number or 0) + text(code.obj_name)
    units = items(lambda it: bytes((NUMBERS[it[0]], it[1])), code.instructions)
    places = items(lambda it: struct.pack(">II", *it), code.locations)
    return counts + names + number(code.max_stackdepth) + units + places + number(len(code.constants))


def behind_constants(code: Code) -> bytes:
    """The fields of a code after its constants."""
    tables = [items(text, it) for it in (code.names, code.varnames, code.cellvars, code.freevars)]
    cells = code.cell2arg
    return b"".join(tables) + (b"\x00" if cells is None else b"\x01" + items(lambda it: struct.pack(">i", it), cells))


def plain(value: Constant) -> bytes:
    """A constant that holds no others."""
    if isinstance(value, str):
        return bytes((STR,)) + text(value)
    if isinstance(value, bytes):
        return bytes((BYTES,)) + number(len(value)) + value
    if isinstance(value, int) and not isinstance(value, bool):
        return bytes((INT,)) + value.to_bytes(16, "big", signed=True)
    for kind, single in SINGLE.items():
        if value is single:
            return bytes((kind,))
    raise ValueError("a file of code holds no %s" % type(value).__name__)


class Spelled(bytes):
    """Bytes that are written as they are, among constants that are still to be spelled."""


def constant(value: Constant) -> bytes:
    """A constant as a file of code spells it. Raises ValueError, OverflowError or struct.error where none does."""
    out, waiting = [], [value]
    while waiting:
        it = waiting.pop()
        if isinstance(it, Spelled):
            out.append(it)
        elif isinstance(it, Code):
            out.append(bytes((CODE,)) + before_constants(it))
            waiting.append(Spelled(behind_constants(it)))
            waiting += reversed(it.constants)
        elif isinstance(it, tuple):
            out.append(bytes((TUPLE,)) + number(len(it)))
            waiting += reversed(it)
        else:
            out.append(plain(it))
    return b"".join(out)


def write(code: Code) -> bytes:
    """The file of code that holds a code. Raises ValueError where none does."""
    try:
        return MAGIC + constant(code)[1:]
    except (struct.error, OverflowError, KeyError) as error:
        raise ValueError("no file of code holds this: %s" % error) from None
