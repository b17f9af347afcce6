"""What is shown of a file: its source, its codes with their listings, blocks and heights, its scopes, or its refusal."""
from __future__ import annotations

import re
from typing import Dict, Iterator, List, NamedTuple, Optional, Tuple

from . import codefile, graph
from .building import compiled
from .code_object import Code
from .errors import Refused
from .graph import Block, Heights
from .refusals import Refusal
from .rows import Fault, text_of
from .freshness import Recipe
from .verified import unpacked

UNIT = re.compile(r"(\d+) (\d+:\d+|-:-) (\w+)(?: (\d+))?(?: (.*))?", re.S)

CELL_INSTRUCTIONS = frozenset("LoadDeref StoreDeref DeleteDeref LoadClassDeref LoadClosure".split())
NEW_LOCALS, IS_GENERATOR = 1, 2

# What a code that has a name in angles is the code of.
KINDS = {
    "<lambda>": "lambda",
    "<listcomp>": "comprehension",
    "<setcomp>": "comprehension",
    "<dictcomp>": "comprehension",
    "<genexpr>": "generator expression",
}


class Line(NamedTuple):
    """The line of a listing for a unit, in its columns."""

    unit: int
    place: str
    """`ROW:COL`."""
    name: str
    byte: str
    """Empty where the instruction has no operand."""
    meaning: str
    """What the whole operand names; empty where that is nothing."""

    @property
    def row(self) -> int:
        """The row of its place; 0 where it has none."""
        row = self.place.partition(":")[0]
        return int(row) if row.isdigit() else 0

    @property
    def text(self) -> str:
        """The line as it stands in the listing."""
        return " ".join(filter(None, (str(self.unit), self.place, self.name, self.byte, self.meaning)))


class Cell(NamedTuple):
    """A variable that codes share."""

    name: str
    is_free: bool
    """Whether it is bound in a code around this one."""
    binder: Optional[Tuple[int, int]]
    """Of a free one, the number of the code that binds it and its place among the cells there."""
    places: Tuple[str, ...]
    """The places of the units that use it, each once."""


class Shown(NamedTuple):
    """A code of a file, with what is shown of it."""

    number: int
    """From 0, in the order of the listing."""
    parent: Optional[int]
    """The number of the code that it is a constant of."""
    depth: int
    """How many codes are around it."""
    kind: str
    code: Code
    head: List[str]
    """The lines of the listing before the units."""
    lines: List[Line]
    blocks: List[Block]
    heights: Heights
    cells: List[Cell]
    children: Dict[int, int]
    """By the place of a constant that is a code, its number."""

    @property
    def goals(self) -> frozenset:
        """The units that an instruction jumps to, or names as a handler."""
        return frozenset(it.target for block in self.blocks for it in block.instructions if it.target is not None)


class View(NamedTuple):
    """A file, with its codes or with its refusal."""

    name: str
    source: Optional[List[str]]
    """Its lines; None where there is no source."""
    codes: List[Shown]
    refusal: Optional[Refusal]


def view_of_source(recipe: Recipe, name: str, source: bytes) -> View:
    """What is shown of a source. Raises as `compiled` does, but for a source that is refused."""
    lines = lines_shown(source)
    try:
        made = compiled(recipe, name, name, source)
    except Refused as refused:
        return View(name, lines, [], refused.refusal)
    return View(name, lines, codes_of(made, unpacked(made, name, recipe.program)), None)


def view_of_code(name: str, data: bytes, program: str) -> View:
    """What is shown of a file of code. Raises as `unpacked` does."""
    return View(name, None, codes_of(data, unpacked(data, name, program)), None)


def lines_shown(source: bytes) -> List[str]:
    """The lines of a source, as far as it has a text."""
    try:
        text = text_of(source)
    except Fault:
        text = source.decode("utf-8", "replace")
    lines = text.replace("\r\n", "\n").replace("\r", "\n").split("\n")
    return lines[:-1] if len(lines) > 1 and not lines[-1] else lines


def codes_of(data: bytes, listing: str) -> List[Shown]:
    """The codes in a file of code, each with its part of the listing."""
    parts = iter(parts_of(listing))
    found: List[Shown] = []
    waiting: List[Tuple[Code, Optional[int], int, int]] = [(codefile.read(data), None, 0, 0)]
    while waiting:
        code, parent, depth, place = waiting.pop()
        number = len(found)
        if parent is not None:
            found[parent].children[place] = number
        head, lines = next(parts)
        units = code.instructions
        cells = cells_of(code, lines, parent, found)
        shown = Shown(number, parent, depth, kind_of(code, parent), code, head, lines, graph.blocks_of(units), graph.heights_of(units), cells, {})
        found.append(shown)
        waiting += [(it, number, depth + 1, at) for at, it in reversed(list(enumerate(code.constants))) if isinstance(it, Code)]
    return found


def parts_of(listing: str) -> Iterator[Tuple[List[str], List[Line]]]:
    """Of each code in a listing the lines before its units, and those of its units."""
    head: List[str] = []
    lines: List[Line] = []
    for line in listing.split("\n")[:-1]:
        found = UNIT.fullmatch(line)
        if found:
            unit, place, name, byte, meaning = found.groups("")
            lines.append(Line(int(unit), place, name, byte, meaning))
            continue
        if line.startswith("code ") and head:
            yield head, lines
            head, lines = [], []
        head.append(line)
    if head:
        yield head, lines


def kind_of(code: Code, parent: Optional[int]) -> str:
    """What a code is the code of."""
    if parent is None:
        return "module"
    if code.obj_name.startswith("<generic parameters"):
        return "type parameters"
    if code.obj_name in KINDS:
        return KINDS[code.obj_name]
    if not code.flags & NEW_LOCALS:
        return "class"
    return "generator" if code.flags & IS_GENERATOR else "function"


def cells_of(code: Code, lines: List[Line], parent: Optional[int], around: List[Shown]) -> List[Cell]:
    """The cells of a code and its free variables, in the order in which operands count them."""
    uses: Dict[int, Dict[str, None]] = {}
    for instruction in graph.instructions_of(code.instructions):
        if instruction.name in CELL_INSTRUCTIONS:
            uses.setdefault(instruction.operand, {})[lines[instruction.unit].place] = None
    found = [Cell(name, False, None, tuple(uses.get(at, ()))) for at, name in enumerate(code.cellvars)]
    first = len(found)
    found += [
        Cell(name, True, binder_of(name, parent, around), tuple(uses.get(at, ())))
        for at, name in enumerate(code.freevars, first)
    ]
    return found


def binder_of(name: str, parent: Optional[int], around: List[Shown]) -> Optional[Tuple[int, int]]:
    """The nearest code around that has the name among its cells, and its place there."""
    while parent is not None:
        shown = around[parent]
        if name in shown.code.cellvars:
            return parent, shown.code.cellvars.index(name)
        parent = shown.parent
    return None
