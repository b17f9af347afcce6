"""From a code object to a function of CPython's that does what its instructions say, one after the other.

The text of that function has the lines of each instruction (`instructions.py`), in the order of the code. Where a jump
leads, the text is entered by a tree of tests on the number of the unit. The function has the name, the path, the
parameters, the variables, the cells and the lines of the code; so to Python, and in a traceback, it is the program's.

In the text stand words that are no names of a program: `v` with a number is a local variable, `c` and `f` one in a cell,
`g` and `n` are names of the module and of where the code runs, `a` is an attribute. They get their names once the text is
compiled, and the numbers that stand for constants and helpers get their values (`bodies.py`).
"""
from __future__ import annotations

import functools
import os
import re
import threading
import types
import warnings
from typing import Any, Iterator, NamedTuple, Optional, Sequence

from ..code_object import Code
from . import hooks, instructions, lines
from .bodies import FREE_CELL, HELPER, OWN_CELL, STACK
from .helpers import HELPERS, TYPE_PARAMETERS
from .instructions import Cell

IS_GENERATOR, HAS_VARARGS, HAS_VARKEYWORDS, IS_OPTIMIZED = 0x02, 0x08, 0x10, 0x20

# The numbers that stand for a constant of the code, a name and the name of a cell: these fractions of one behind their number.
CONSTANT, NAME, CELL_NAME = 0.75, 0.375, 0.625

HELPER_NUMBERS = {name: "(%r)" % (number + HELPER) for number, name in enumerate(HELPERS)}
HELPER_VALUES = {number + HELPER: value for number, value in enumerate(HELPERS.values())}
BODY_WORDS = {**HELPER_NUMBERS, "stack": "(%r)" % STACK, "blocks": "(%r).blocks" % STACK, "at": "(%r).at" % STACK}
WORD = re.compile(r"\b(?:stack|blocks|at|[A-Z][A-Z_]+)\b")
PLACED = re.compile(r"[vcfgna][0-9]+")

WANTED = {name: it.__code__.co_varnames[: it.__code__.co_argcount] for name, it in instructions.TABLE.items()}
JUMPS = frozenset(name for name, wanted in WANTED.items() if "target" in wanted)
SETUPS = frozenset(("SetupExcept", "SetupFinally", "SetupWith"))
HANDLERS = SETUPS | {"EnterFinally"}
ENDS = frozenset(("Jump", "Break", "Continue", "ReturnValue", "ReturnConst", "Raise"))


# The lines, each with its depth, around those of the instructions, where the code has handlers. The inner `try` takes what
# the instructions raise; the outer one takes ^C that comes while this is done, in its place. A jump back is followed by a
# look at signals, for which CPython takes the place before the loop; so there is a step before it, within the `try`.
TRYING = ((0, "while True:"), (1, "try:"), (2, "at = at"), (2, "while True:"), (3, "try:"), (4, "at = at"), (4, "while True:"))
TAKING = (
    (0, "except:"),
    (1, "at = TAKE(stack, blocks)"),
    (1, "if at < 0: raise"),
    (0, "if blocks[-1].kind == LEFT:"),
    (1, "try: RAISE_LEFT(blocks)"),
    (1, "except: AGAIN(blocks); raise"),
)
HANDLING = ((4, "break"), *((3 + it, line) for it, line in TAKING), (2, "break"), *((1 + it, line) for it, line in TAKING))

# Whether each instruction is followed by a look at the height of the stack, which a code says the greatest of.
CHECKS = bool(os.environ.get("PYC_CHECK_STACK"))

# The last line that CPython takes.
LAST_LINE = 2**31 - 1


class Unfit(ValueError):
    """Why a code cannot be run, though it verifies: it asks for a parameter, a local variable or a cell that it has not."""


def parameters_of(code: Code) -> int:
    """How many local variables of a code are parameters."""
    return code.arg_count + code.kwonlyarg_count + bool(code.flags & HAS_VARARGS) + bool(code.flags & HAS_VARKEYWORDS)


def check(code: Code) -> None:
    """Raises Unfit where the parts of a code do not fit one another. What the compiler makes fits."""
    count, cells = parameters_of(code), code.cell2arg or ()
    if count > len(code.varnames) or code.posonlyarg_count > code.arg_count:
        raise Unfit("%s has more parameters than local variables" % code.obj_name)
    if len(cells) > len(code.cellvars) or any(not -1 <= it < count for it in cells):
        raise Unfit("%s says of cells which it has not that they are parameters, or of parameters" % code.obj_name)


class Instruction(NamedTuple):
    """An instruction: the unit where it begins, the one behind it, its name, its operand and the row of its place."""

    start: int
    following: int
    name: str
    operand: int
    row: int


def decoded(code: Code) -> Iterator[Instruction]:
    """The instructions of a code; the prefixes of an operand belong to the instruction behind them."""
    start, operand = None, 0
    for index, (name, byte) in enumerate(code.instructions):
        start = index if start is None else start
        operand = (operand << 8 | byte) & 0xFFFFFFFF
        if name != "ExtendedArg":
            row = code.locations[index][0] if index < len(code.locations) else code.first_line_number or 1
            yield Instruction(start, index + 1, name, operand, min(row, LAST_LINE))
            start, operand = None, 0


class Text:
    """The lines of the function, each with the row of the source that it is of."""

    def __init__(self) -> None:
        self.lines: list[str] = []
        self.rows: list[int] = []

    def add(self, depth: int, line: str, row: int) -> None:
        self.lines.append(" " * depth + line)
        self.rows.append(row)


class Translation:
    """A code that becomes a function of CPython's. Its qualified name, and whether it is a class with type parameters,
    are told by the code around it."""

    def __init__(self, code: Code, qualname: Optional[str] = None, has_type_parameters: bool = False):
        check(code)
        self.code, self.qualname, self.has_type_parameters = code, qualname or code.obj_name, has_type_parameters
        self.is_function = bool(code.flags & IS_OPTIMIZED)
        self.instructions = list(decoded(code))
        seen = {it.name for it in self.instructions}
        self.has_handlers, self.has_jumps = not seen.isdisjoint(HANDLERS), not seen.isdisjoint(JUMPS | {"EndFinally"})
        self.handlers = {it.operand for it in self.instructions if it.name in SETUPS}
        self.has_blocks = self.has_handlers or "SetupLoop" in seen
        self.hooked = "HOOKED(%s)" if not hooks.NAMES.isdisjoint(code.names) else "%s"
        self.leaves = "return stack.pop()" if self.is_function else "stack.result = stack.pop()" + "; break" * self.has_jumps
        self.first = min(code.first_line_number or 1, LAST_LINE)
        self.cell_to_parameter = dict(enumerate(code.cell2arg or ()))
        # The words for names of the module, which the text has to declare.
        self.globals: set[str] = set()

    # Words of the text

    def variable(self, it: Instruction) -> str:
        """The word for a variable that an instruction names."""
        if it.name.endswith("Fast"):
            if not self.is_function or it.operand >= len(self.code.varnames):
                raise Unfit("there is no local variable %d in %s" % (it.operand, self.code.obj_name))
            return "v%d" % it.operand
        is_global = self.is_function or it.name.endswith("Global")
        if self.is_function and it.name in ("StoreLocal", "DeleteLocal"):
            raise Unfit("%s stands in the function %s" % (it.name, self.code.obj_name))
        word = "%s%d" % ("g" if is_global else "n", it.operand)
        if is_global:
            self.globals.add(word)
        return word

    def cell(self, it: Instruction) -> Cell:
        """A cell that an instruction names."""
        own = len(self.code.cellvars)
        if it.operand >= own + len(self.code.freevars):
            raise Unfit("there is no cell %d in %s" % (it.operand, self.code.obj_name))
        is_free, name = it.operand >= own, "(%r)" % (it.operand + CELL_NAME)
        if self.is_function:
            return Cell(self.free_word(it.operand - own) if is_free else self.cell_word(it.operand), name, is_free, True)
        place = it.operand - own + FREE_CELL if is_free else it.operand + OWN_CELL
        return Cell("(%r)" % place, name, is_free, False)

    def cell_word(self, number: int) -> str:
        """The word for a cell of a function: that of the parameter which it begins as, where it is one."""
        parameter = self.cell_to_parameter.get(number, -1)
        return "c%d" % number if parameter < 0 or parameter in self.split else "v%d" % parameter

    @staticmethod
    def free_word(number: int) -> str:
        return "f%05d" % number

    @functools.cached_property
    def split(self) -> set[int]:
        """The parameters that are in a cell and are asked for as local variables too. No compiled code has one."""
        fast = {it.operand for it in self.instructions if it.name.endswith("Fast")}
        return fast.intersection(self.cell_to_parameter.values())

    def word(self, wanted: str, it: Instruction) -> Any:
        """What the function of an instruction is told under a name."""
        if wanted == "operand":
            return it.operand
        if wanted == "constant":
            return "(%r)" % (it.operand + CONSTANT)
        if wanted == "variable":
            return self.variable(it)
        if wanted == "name":
            return "a%d" % it.operand
        if wanted == "text":
            return "(%r)" % (it.operand + NAME)
        if wanted == "cell":
            return self.cell(it)
        if wanted == "names":
            return "None" if self.is_function else "LOCALS()"
        return it.operand if wanted == "target" else it.following if wanted == "following" else getattr(self, wanted)

    def told(self, it: Instruction) -> list[str]:
        """The lines of an instruction."""
        found = instructions.TABLE[it.name](*[self.word(wanted, it) for wanted in WANTED[it.name]])
        told = [line.strip() for line in found.split("\n") if line.strip()]
        return told + ["CHECK(stack, %d)" % self.code.max_stackdepth] if CHECKS and it.name not in ENDS else told

    # The text

    def text(self) -> Text:
        """The text of the function."""
        text, inside, depth = Text(), self.inside(), int(self.is_function)
        if self.is_function:
            text.add(0, "def function(%s):" % self.parameters(), self.first)
        for line in self.opening():
            text.add(depth, line, self.first)
        for offset, line, row in inside:
            text.add(depth + offset, line, row)
        return text

    def opening(self) -> Iterator[str]:
        """The lines before those of the instructions."""
        if self.globals:
            yield "global %s" % ", ".join(sorted(self.globals))
        if self.is_function:
            yield from self.mentions()
            yield "stack = []"
        elif self.has_type_parameters:
            yield "n%d = stack.type_parameters" % len(self.code.names)
        if self.has_handlers:
            yield "ROOM()"
        if self.has_blocks:
            yield "blocks = []"
        if self.has_jumps:
            yield "at = 0"

    def parameters(self) -> str:
        """The parameters of the function."""
        code = self.code
        words = ["v%d" % it for it in range(code.arg_count)]
        rest = ["v%d" % it for it in range(code.arg_count + code.kwonlyarg_count, len(code.varnames))]
        if code.posonlyarg_count:
            words.insert(code.posonlyarg_count, "/")
        if code.flags & HAS_VARARGS:
            words.append("*" + rest.pop(0))
        elif code.kwonlyarg_count:
            words.append("*")
        words += ["v%d" % it for it in range(code.arg_count, code.arg_count + code.kwonlyarg_count)]
        if code.flags & HAS_VARKEYWORDS:
            words.append("**" + rest.pop(0))
        return ", ".join(words)

    def mentions(self) -> Iterator[str]:
        """Lines that do nothing, and say of words that they are variables."""
        code = self.code
        own = [self.cell_word(it) for it in range(len(code.cellvars))]
        words = ["v%d" % it for it in range(len(code.varnames))] + [it for it in own if it[0] == "c"]
        if words:
            yield "if 0: %s = 0" % " = ".join(words)
        if own:
            yield "if 0: (lambda: (%s, ))" % ", ".join(own)
        if code.freevars:
            yield "nonlocal %s" % ", ".join(map(self.free_word, range(len(code.freevars))))
        if code.flags & IS_GENERATOR:
            yield "if 0: yield"
        for number in range(len(code.cellvars)):
            parameter = self.cell_to_parameter.get(number, -1)
            if parameter in self.split:
                yield "c%d = v%d" % (number, parameter)

    def inside(self) -> list[tuple[int, str, int]]:
        """The lines of the instructions, each with its depth and its row."""
        if not self.has_jumps:
            return self.straight()
        found: list[tuple[int, str, int]] = []
        parts = self.parts()
        if not self.has_handlers:
            found.append((0, "while True:", self.first))
            self.tree(parts, 0, len(parts), 1, found)
            return found
        found += [(depth, line, self.first) for depth, line in TRYING]
        self.tree(parts, 0, len(parts), 5, found)
        return found + [(depth, line, self.instructions[-1].row) for depth, line in HANDLING]

    def straight(self) -> list[tuple[int, str, int]]:
        """The lines of the instructions of a code without jumps, up to the first that ends it."""
        found: list[tuple[int, str, int]] = []
        for it in self.instructions:
            found += [(0, line, it.row) for line in self.told(it)]
            if it.name in ENDS:
                break
        return found

    def parts(self) -> list[list[Instruction]]:
        """The instructions, in parts that are entered at their first one alone."""
        entered = {it.operand for it in self.instructions if it.name in JUMPS}
        entered.update(it.following for it in self.instructions if "following" in WANTED[it.name])
        found: list[list[Instruction]] = []
        for it in self.instructions:
            if it.start in entered or not found:
                found.append([])
            found[-1].append(it)
        return found

    def tree(self, parts: Sequence[Sequence[Instruction]], start: int, end: int, depth: int, found: list[tuple[int, str, int]]) -> None:
        """The lines of some parts: tests lead to the one where `at` is, and each goes on with the next."""
        if end - start == 1:
            if parts[start][0].start in self.handlers:
                found.append((depth, "ENTER(blocks)", parts[start][0].row))
            for it in parts[start]:
                found += [(depth, line, it.row) for line in self.told(it)]
            return
        middle = (start + end) // 2
        entry, row = parts[middle][0].start, parts[start][0].row
        found.append((depth, "if at < %d:" % entry, row))
        self.tree(parts, start, middle, depth + 1, found)
        last = parts[middle - 1][-1]
        if last.name not in ENDS and "following" not in WANTED[last.name]:
            found.append((depth + 1, "at = %d" % entry, last.row))
        self.tree(parts, middle, end, depth, found)

    # The function

    def made(self) -> types.CodeType:
        """The code of the function, with numbers for helpers."""
        text = self.text()
        words = HELPER_NUMBERS if self.is_function else BODY_WORDS
        whole = WORD.sub(lambda it: words.get(it[0], it[0]), "\n".join(text.lines))
        if self.code.freevars and self.is_function:
            # The free variables are those of a function around it, on the first line too.
            around = "def around(%s): " % ", ".join(map(self.free_word, range(len(self.code.freevars))))
            whole = around + "\n" + "\n".join(" " + line for line in whole.split("\n"))
            text.rows.insert(0, self.first)
        made = compiled(whole, self.code.source_path)
        if self.is_function:
            made = code_within(made)
            if self.code.freevars:
                made = code_within(made)
        return made.replace(
            co_name=self.code.obj_name,
            co_qualname=self.qualname,
            co_firstlineno=self.first,
            co_linetable=lines.table(made, text.rows, self.first),
            co_names=tuple(map(self.named, made.co_names)),
            co_varnames=tuple(map(self.named, made.co_varnames)),
            co_cellvars=tuple(map(self.named, made.co_cellvars)),
            co_freevars=tuple(map(self.named, made.co_freevars)),
            co_consts=tuple(map(self.standing, made.co_consts)),
        )

    @functools.cached_property
    def names_are_told(self) -> bool:
        """Whether cells bear the names of exactly those parameters that they begin as. CPython goes by these names; so
        where it is otherwise, as in no compiled code, the words of the text stay."""
        names, cells = self.code.varnames[: parameters_of(self.code)], self.code.cellvars
        begun = {number: it for number, it in self.cell_to_parameter.items() if it >= 0 and it not in self.split}
        are_tied = all(cells[number] == names[it] for number, it in begun.items())
        return are_tied and len(set(names + cells)) + len(begun) == len(names) + len(cells)

    def named(self, word: str) -> str:
        """The name of the program that a word of the text is for."""
        if word in ("stack", "blocks", "at") and self.is_function:
            return "." + word
        if not PLACED.fullmatch(word):
            return word
        kind, number, code = word[0], int(word[1:]), self.code
        if kind == "n" and number == len(code.names):
            return "__type_params__"
        if kind in "vc" and not self.names_are_told:
            return word
        return {"v": code.varnames, "c": code.cellvars, "f": code.freevars}.get(kind, code.names)[number]

    def standing(self, value: Any) -> Any:
        """What stands for a constant of the text."""
        if type(value) is not float:
            return value
        kind, number = value % 1, int(value)
        if kind == NAME:
            return self.code.names[number]
        if kind == CELL_NAME:
            return (self.code.cellvars + self.code.freevars)[number]
        return self.constant(number) if kind == CONSTANT else value

    def constant(self, number: int) -> Any:
        """A constant as a value of Python: a code within becomes one of CPython's."""
        value = self.code.constants[number]
        return value if not isinstance(value, Code) else Translation(value, *self.within.get(number, ())).made()

    @functools.cached_property
    def within(self) -> dict[int, tuple[str, bool]]:
        """Of each code within of which a function is made: its qualified name, and whether it has type parameters."""
        found = {}
        for code, name, make in zip(self.instructions, self.instructions[1:], self.instructions[2:]):
            if (code.name, name.name, make.name) == ("LoadConst", "LoadConst", "MakeFunction"):
                qualname = self.code.constants[name.operand]
                if isinstance(qualname, str):
                    found[code.operand] = qualname, bool(make.operand & TYPE_PARAMETERS)
        return found


def code_within(code: types.CodeType) -> types.CodeType:
    """The first code among the constants of another."""
    return next(it for it in code.co_consts if isinstance(it, types.CodeType))


LOCK = threading.Lock()


def compiled(text: str, path: str) -> types.CodeType:
    """The code that Python makes of a text. It warns of none of what is odd in it, and what it warned of stays so."""
    with LOCK:
        filters = warnings.filters
        warnings.filters = [("ignore", None, Warning, None, 0)]
        try:
            return compile(text, path, "exec", 0, True, 0)
        finally:
            warnings.filters = filters


def translated(code: Code) -> types.CodeType:
    """The code of CPython that does what a code object says. Numbers stand for helpers, so it can be kept."""
    return Translation(code).made()


def linked(code: types.CodeType) -> types.CodeType:
    """A code that was translated, with its helpers, and with those of the codes within."""
    return code.replace(co_consts=tuple(map(linked_constant, code.co_consts)))


def linked_constant(value: Any) -> Any:
    if type(value) is float:
        return HELPER_VALUES.get(value, value)
    return linked(value) if isinstance(value, types.CodeType) else value
