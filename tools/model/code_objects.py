"""The code object, as plain data.

instructions: one (name, byte) pair per unit, prefixes included as ("ExtendedArg", byte).
locations: one (row, column) per unit.
constants: tagged tuples: ('none',) ('true',) ('false',) ('ellipsis',) ('int', 5) ('str', 'x')
('bytes', b'') ('tuple', (c, ..)) ('code', Code). Equality goes by structure.
cell2arg: None or a tuple of ints.
"""
from __future__ import annotations
from dataclasses import dataclass
from typing import Optional

NEW_LOCALS, IS_GENERATOR, HAS_VARARGS, HAS_VARKEYWORDS, IS_OPTIMIZED = 0x01, 0x02, 0x08, 0x10, 0x20
CLOSURE, ANNOTATIONS, KW_ONLY_DEFAULTS, DEFAULTS, TYPE_PARAMS = 0x01, 0x02, 0x04, 0x08, 0x10

NONE, TRUE, FALSE, ELLIPSIS = ("none",), ("true",), ("false",), ("ellipsis",)


@dataclass(frozen=True)
class Code:
    flags: int
    posonlyarg_count: int
    arg_count: int
    kwonlyarg_count: int
    source_path: str
    first_line_number: Optional[int]
    obj_name: str
    max_stackdepth: int
    instructions: tuple  # of (opname, byte)
    locations: tuple  # of (row, column)
    constants: tuple
    names: tuple
    varnames: tuple
    cellvars: tuple
    freevars: tuple
    cell2arg: Optional[tuple]


    def cell_name(self, place: int) -> str:
        cells = self.cellvars + self.freevars
        return cells[place]

    def children(self):
        """The codes that stand directly among the constants, in their order."""
        return [c[1] for c in self.constants if c[0] == "code"]

    def decoded(self):
        """(first unit, unit, opname, whole operand) per instruction, prefixes folded in (last four bytes)."""
        out, arg, first = [], 0, None
        for i, (op, byte) in enumerate(self.instructions):
            if first is None:
                first = i
            arg = ((arg << 8) | byte) & 0xFFFFFFFF
            if op == "ExtendedArg":
                continue
            out.append((first, i, op, arg))
            arg, first = 0, None
        return out


def constant_of_node(n):
    """A constant Node of tree.py as a tagged constant."""
    k = n.kind
    if k in ("none", "true", "false", "ellipsis"):
        return (k,)
    if k == "tuple":
        return ("tuple", tuple(constant_of_node(c) for c in n.v))
    return (k, n.v)
