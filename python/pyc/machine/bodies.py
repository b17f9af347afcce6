"""Codes that are no functions: those of modules, classes and texts. Their names are looked up where they run.

Such a code has no variables of its own in which a stack could be kept. So its stack and its cells stand among its
constants, and for each run a code with fresh ones is made. Until then numbers stand for them, as no code of a program
has a constant that is a float: `STACK`, and for each cell its own number.
"""
from __future__ import annotations

import types
from typing import Any, Optional

# The numbers that stand for objects among constants; n is the number of a helper, a cell, a free cell.
HELPER, OWN_CELL, FREE_CELL, STACK = 0.5, 0.25, 0.125, 0.0625


class Stack(list):
    """The stack of a body, with the unit that comes next, its open blocks, what it answers, and its type parameters."""

    __slots__ = ("at", "blocks", "result", "type_parameters")

    # It stands among the constants of a code, and a code has a hash.
    __hash__ = object.__hash__


def is_body(code: types.CodeType) -> bool:
    """Whether a code is that of a body, and not of a function."""
    return not code.co_flags & 0x01  # CO_OPTIMIZED


def fresh(code: types.CodeType, cells: tuple, type_parameters: Optional[tuple] = None) -> tuple[types.CodeType, Stack]:
    """The code of a body for one run, and its stack."""
    stack, own = Stack(), {}
    stack.result, stack.type_parameters = None, type_parameters

    def standing(value: Any) -> Any:
        if type(value) is not float:
            return value
        if value == STACK:
            return stack
        if value % 1 == OWN_CELL:
            return own.setdefault(value, types.CellType())
        return cells[int(value)]

    return code.replace(co_consts=tuple(map(standing, code.co_consts))), stack


def function_of(
    code: types.CodeType, names: dict, defaults: Optional[tuple], cells: tuple, type_parameters: Optional[tuple]
) -> types.FunctionType:
    """A function of a code, whose module has these names."""
    if is_body(code):
        return types.FunctionType(fresh(code, cells, type_parameters)[0], names, code.co_name)
    return types.FunctionType(code, names, code.co_name, defaults, tuple(cells) if code.co_freevars else None)


def execute(code: types.CodeType, globals: dict, locals: Any = None) -> Any:
    """Runs the outermost code with these names, and gives what it answers."""
    body, stack = fresh(code, ())
    try:
        exec(body, globals, globals if locals is None else locals)
        return stack.result
    finally:
        stack.clear()
