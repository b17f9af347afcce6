"""The codes of the suite: of sources, compiled by tools/model; and made by hand, where no source gives them."""
from __future__ import annotations

import ast
import itertools
import pathlib
import sys
from dataclasses import replace
from typing import Any, Dict, Iterator, List, NamedTuple, Optional, Tuple

TOP = pathlib.Path(__file__).resolve().parent.parent
sys.path.insert(0, str(TOP / "tools" / "model"))

import code_objects
import emit
import instr
import py2rows
import sound
import step_trees
from instruction_words import WORDS
from instructions import COUNTS, counted
from shapes import walk

Code = code_objects.Code


class Begun(NamedTuple):
    """A code and where a run begins in it: the places among constants that lead there."""

    name: str
    about: str
    code: Code
    places: Tuple[int, ...]

    def within(self) -> Code:
        """The code that runs."""
        code = self.code
        for place in self.places:
            code = code.constants[place][1]
        return code


# codes by hand
TABLES = {"Const": "constants", "Name": "names", "Var": "varnames", "Cell": "cellvars"}
SINGLE = {None: "none", True: "true", False: "false", ...: "ellipsis"}


def constant(value: Any) -> Tuple[Any, ...]:
    """A Python value as a constant of the model."""
    if isinstance(value, Code):
        return "code", value
    if isinstance(value, tuple):
        return "tuple", tuple(map(constant, value))
    if value is None or value is ... or isinstance(value, bool):
        return (SINGLE[value],)
    return {int: "int", str: "str", bytes: "bytes"}[type(value)], value


def code_of(units: List[Tuple[str, int]], tables: Dict[str, List[Any]], depth: Optional[int]) -> Code:
    """A code of units, as deep as its walks go or so deep."""
    at = tuple((1, 1) for _ in units)
    parts = [tuple(tables[kind]) for kind in ("Const", "Name", "Var", "Cell")]
    code = Code(0x21, 0, 0, 0, "m.py", 1, "m", 1 << 20, tuple(units), at, *parts, (), None)
    return replace(code, max_stackdepth=sound.walks(code)[1] if depth is None else depth)


def spelled(op: str, operand: int, width: int) -> List[Tuple[str, int]]:
    """An instruction as units, with so many at least."""
    size = max(width, instr.instr_size(operand))
    return [(op if i == 0 else "ExtendedArg", operand >> 8 * i & 255) for i in reversed(range(size))]


class Assembly:
    """Instructions, each a text: a label and `:` where it has one, the name, the operand.

    An operand is a Python literal for a constant, a word for a name, a variable or a cell, a label, or a number. `code`
    stands for a code within.
    """

    def __init__(self, text: str) -> None:
        self.tables: Dict[str, List[Any]] = {kind: [] for kind in TABLES}
        self.items: List[Tuple[str, Any]] = []
        self.labels: Dict[str, int] = {}
        for line in filter(None, (it.strip() for it in text.replace(";", "\n").split("\n"))):
            self.add(line)

    def add(self, line: str) -> None:
        if line.split(" ")[0].endswith(":"):
            label, line = line.split(":", 1)
            self.labels[label] = len(self.items)
        op, _, operand = line.strip().partition(" ")
        if op:
            self.items.append((op, self.operand(instr.operand_kind(op), operand)))

    def operand(self, kind: str, text: str) -> Any:
        if text.startswith("@") or kind not in self.tables and kind != "Label":
            return int(text.lstrip("@") or "0")
        if kind == "Label":
            return text
        entry = text if kind != "Const" else constant(INNER if text == "code" else ast.literal_eval(text))
        table = self.tables[kind]
        if entry not in table:
            table.append(entry)
        return table.index(entry)

    def code(self, depth: Optional[int] = None) -> Code:
        widths = [1] * len(self.items)
        while True:
            starts = list(itertools.accumulate([0, *widths]))
            places = [starts[self.labels[it]] if isinstance(it, str) else it for _, it in self.items]
            units = [spelled(op, place, width) for (op, _), place, width in zip(self.items, places, widths)]
            if [len(it) for it in units] == widths:
                return code_of([unit for it in units for unit in it], self.tables, depth)
            widths = [len(it) for it in units]


INNER = Code(0x21, 0, 0, 0, "m.py", 1, "inner", 0, (("ReturnConst", 0),), ((1, 1),), (("none",),), (), (), (), (), None)


def assembled(text: str, depth: Optional[int] = None) -> Code:
    """The code of these instructions."""
    return Assembly(text).code(depth)


# each instruction alone
OPERANDS = {
    "Count": [0, 1, 2, 3], "Flags": list(range(32)), "Pair": [0, 1, 256, 2 + 256, 1 + 2 * 256, 3 + 3 * 256], "Bit": [0, 1],
    "Name": ["x"], "Var": ["x"], "Cell": ["x"], "None": [""],
}
ADDS = {"ListAppend": 1, "SetAdd": 1, "MapAdd": 2}


def operands_of(name: str) -> List[Any]:
    """The operands with which an instruction is tried."""
    kind = instr.operand_kind(name)
    return OPERANDS[kind] if kind in OPERANDS else list(range(len(instr.CASES[kind])))


def asks_alone(name: str) -> bool:
    """Whether the instruction asks something, and neither jumps nor wants a block."""
    return bool(WORDS[name].event) and instr.operand_kind(name) != "Label" and not name.startswith("WithCleanup")


def taken(name: str, operand: Any) -> List[str]:
    """What pushes the values that an instruction takes and looks at."""
    number = operand if isinstance(operand, int) else 0
    if name == "MakeFunction":
        return function_parts(number)
    if name in ADDS:
        return ["LoadConst 'collection'"] + ["LoadConst 'between'"] * number + ["LoadConst %d" % (i + 1) for i in range(ADDS[name])]
    if name == "ImportFrom":
        return ["LoadConst 'module'"]
    count = sum(COUNTS[counted(it)[0]].at(number) for it in WORDS[name].takes)
    return ["LoadConst %d" % (i + 1) for i in range(count)]


def function_parts(flags: int) -> List[str]:
    """What pushes what MakeFunction takes, the lowest first."""
    parts = [(8, "'defaults'"), (4, "'named defaults'"), (16, "'types'"), (2, "'annotations'")]
    lines = ["LoadConst " + text for flag, text in parts if flags & flag]
    return lines + (["LoadClosure c", "LoadClosure d", "BuildTuple 2"] if flags & 1 else []) + ["LoadConst code", "LoadConst 'm.inner'"]


def given(name: str, operand: Any) -> int:
    """How many values there are where those were that it took and looked at."""
    if name in ADDS:
        return 1 + operand
    number = operand if isinstance(operand, int) else 0
    return (name == "ImportFrom") + sum(COUNTS[counted(it)[0]].at(number) for it in WORDS[name].gives)


def instruction_text(name: str, operand: Any) -> str:
    return ("%s %s" % (name, operand)).strip()


def alone() -> Iterator[Begun]:
    """Each instruction that asks, with each kind of operand; the whole stack behind it goes into a tuple."""
    for name in instr.NAME_OF:
        for operand in operands_of(name) if asks_alone(name) else []:
            text = instruction_text(name, operand)
            lines = ["LoadConst 'under'", *taken(name, operand), text]
            if name != "Raise":
                lines += ["BuildTuple %d" % (1 + given(name, operand)), "ReturnValue"]
            yield Begun(text, "the stack behind it as a tuple", assembled("\n".join(lines)), ())


def caught() -> Iterator[Begun]:
    """The same in a handler's block: what an exception leaves on the stack goes into a tuple."""
    for name in instr.NAME_OF:
        for operand in operands_of(name)[-1:] if asks_alone(name) else []:
            text = instruction_text(name, operand)
            lines = ["LoadConst 'under'", "SetupExcept H", "LoadConst 'above'", *taken(name, operand), text]
            if name != "Raise":
                lines += ["Pop"] * (1 + given(name, operand)) + ["PopBlock", "ReturnConst 'done'"]
            lines += ["H: StoreFast e", "PopException", "BuildTuple 1", "ReturnValue"]
            yield Begun(text, "the exception is handled; the stack behind the handler as a tuple", assembled("\n".join(lines)), ())


# blocks of sources
LEAVINGS = """\
if a: break
if b: continue
if c: return d
if e: raise f
if g: raise
h"""

# where a body may stand: lines with BODY, which is put in with their indentation
AROUND = {
    "in try with finally": "try:\n BODY\nfinally: zN",
    "in try with except": "try:\n BODY\nexcept yN: zN",
    "in try with bare except": "try:\n BODY\nexcept: zN",
    "in a handler": "try: yN\nexcept zN as xN:\n BODY",
    "in finally": "try: yN\nfinally:\n BODY",
    "in with": "with yN as xN:\n BODY",
    "in try with except and finally": "try:\n BODY\nexcept yN: zN\nfinally: wN",
    "in a handler with finally": "try: yN\nexcept zN:\n BODY\nfinally: wN",
    "in else of try with finally": "try: yN\nexcept zN: wN\nelse:\n BODY\nfinally: vN",
    "in while": "while yN:\n BODY\nelse: zN",
    "in for": "for xN in yN:\n BODY",
    "in else of while": "while yN: zN\nelse:\n BODY",
}


def put(around: str, number: int, body: str) -> str:
    """A body within lines, whose names get a number."""
    lines = []
    for line in around.replace("N", str(number)).split("\n"):
        depth = len(line) - len(line.lstrip())
        lines += [" " * depth + it for it in body.split("\n")] if line.strip() == "BODY" else [line]
    return "\n".join(lines)


def plain(code: Code) -> Code:
    """A code and those within it, each place 1:1, which no run looks at."""
    constants = tuple(("code", plain(it[1])) if it[0] == "code" else it for it in code.constants)
    return replace(code, constants=constants, locations=tuple((1, 1) for _ in code.locations))


def flows() -> Iterator[Begun]:
    """Functions with a loop, in which two statements stand one in the other, and in these each way to leave."""
    for outer, inner in itertools.product(AROUND, AROUND):
        body = put("while w:\n BODY", 0, put(AROUND[outer], 1, put(AROUND[inner], 2, LEAVINGS)))
        source = put("def m():\n BODY", 0, body)
        code = plain(emit.compile_top(py2rows.tree_of(source)))
        yield Begun("%s, %s" % (outer, inner), source, code, (0,))


def programs() -> Iterator[Begun]:
    """The trees of step_tree_vectors, and all codes within.

    Those with f-strings are left out: Python 3.12 has another tree of some.
    """
    for count, (tree, ways) in enumerate(step_trees.trees()):
        if any(it.kind == "JoinedStr" for it in walk(tree)):
            continue
        for mode, level in ways:
            code = plain(emit.compile_top(tree, "m.py", mode, level))
            for places in within(code):
                name = "tree %d %s %d" % (count, mode, level) + (", within" if places else "")
                yield Begun(name + "".join(" %d" % it for it in places), "", code, places)


def within(code: Code, places: Tuple[int, ...] = ()) -> Iterator[Tuple[int, ...]]:
    """The places of a code and of all codes within it."""
    yield places
    for place, (kind, *value) in enumerate(code.constants):
        if kind == "code":
            yield from within(value[0], (*places, place))
