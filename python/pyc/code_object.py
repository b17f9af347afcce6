"""Code objects: what the program makes of a tree, as plain data of Python."""
from __future__ import annotations

import dataclasses
from typing import Iterator, NamedTuple, Optional, Tuple, Union

# What stands in the table of constants. Codes and tuples of constants nest.
Constant = Union[None, bool, int, str, bytes, tuple, "Code", type(...)]


class Unit(NamedTuple):
    """A unit of code: its index, the name of its instruction, a byte of the operand, and its place from 1 on."""

    index: int
    name: str
    byte: int
    row: int
    column: int


@dataclasses.dataclass(frozen=True, eq=False, repr=False)
class Code:
    """The code of a file, a function, a class or a comprehension (docs/LISTING.md).

    Two codes are equal where their files of code hold the same bytes: a constant 1 is none that is True.
    """

    flags: int
    posonlyarg_count: int
    arg_count: int
    kwonlyarg_count: int
    source_path: str
    first_line_number: Optional[int]
    obj_name: str
    max_stackdepth: int
    instructions: Tuple[Tuple[str, int], ...]
    locations: Tuple[Tuple[int, int], ...]
    constants: Tuple[Constant, ...]
    names: Tuple[str, ...]
    varnames: Tuple[str, ...]
    cellvars: Tuple[str, ...]
    freevars: Tuple[str, ...]
    cell2arg: Optional[Tuple[int, ...]]

    @property
    def units(self) -> Iterator[Unit]:
        """The units with their places, in order; the prefixes of an operand (ExtendedArg) are units of their own."""
        for index, ((name, byte), (row, column)) in enumerate(zip(self.instructions, self.locations)):
            yield Unit(index, name, byte, row, column)

    @property
    def codes(self) -> Tuple[Code, ...]:
        """The codes that stand directly among the constants, in their order."""
        return tuple(it for it in self.constants if isinstance(it, Code))

    def to_bytes(self) -> bytes:
        """The file of code that holds this code. Raises ValueError where no file of code holds it."""
        from . import codefile

        return codefile.write(self)

    @classmethod
    def from_bytes(cls, data: bytes) -> Code:
        """The code that a file of code holds; nothing is verified of it. Raises BadCode, with the offset of what is bad."""
        from . import codefile

        return codefile.read(data)

    def to_json(self) -> str:
        """The code as JSON in one line (docs/COMMANDS.md). Raises ValueError where its codes nest too deep for JSON."""
        from . import codejson

        return codejson.as_text(self)

    @classmethod
    def from_json(cls, text: str) -> Code:
        """The code that `to_json` made this text of. Raises ValueError where it is none."""
        from . import codejson

        return codejson.read_text(text)

    def listing(self) -> str:
        """The listing (docs/LISTING.md), which the program makes once the code is verified.

        Raises NoProgram, OutOfMemory, and ValueError where the code does not verify.
        """
        from . import api

        return api.listing(self)

    def __repr__(self) -> str:
        return "<Code %r from %r line %s>" % (self.obj_name, self.source_path, self.first_line_number)

    def __eq__(self, other: object) -> bool:
        return self.to_bytes() == other.to_bytes() if isinstance(other, Code) else NotImplemented

    def __hash__(self) -> int:
        return hash((self.source_path, self.obj_name, self.instructions, self.locations))
