"""What is entered at a prompt: compiled by the program, run on the machine, with one set of names.

Nothing of this is proved. The program compiles the tree of an entry, which is changed in two ways before: a literal that
rows have no word for, as a float, becomes a call that gives it, and so do values that are printed within statements.
"""
from __future__ import annotations

import ast
import builtins
import linecache
import os
import re
import subprocess
import sys
import traceback
import types
from typing import Any, Dict, Iterator, List, NamedTuple, Optional, Tuple

from . import codefile, program, refusals, rows
from .errors import INPUT, Ended, Refused
from .machine import bodies, literals, mains, translation

HERE = os.path.dirname(os.path.abspath(__file__)) + os.sep

# The built-in through which values within statements are printed.
DISPLAY = "__display__"

# A part of a listing: the first line of a code, with its name, its path and its line.
HEAD = re.compile(r"^code '((?:[^'\\]|\\.)*)' from '(?:[^'\\]|\\.)*' line (\d+|-) .*\n(?:(?!code ').*\n)*", re.M)

# The statements within which CPython's prompt prints values.
COMPOUND = tuple(getattr(ast, it) for it in ("If", "For", "While", "With", "Try", "TryStar") if hasattr(ast, it))


class Entry(NamedTuple):
    """What was entered: the name that its code bears, its text, and the file of its code."""

    name: str
    text: str
    file: bytes


class Session:
    """Entries that share their names."""

    def __init__(self, path: str, level: int, names: Dict[str, Any]) -> None:
        self.path, self.level, self.names = path, level, names
        self.entries: List[Entry] = []
        self.count = 0
        literals.enter()
        setattr(builtins, DISPLAY, lambda value: sys.displayhook(value))

    def run(self, text: str, name: str, mode: str) -> None:
        """Compiles a text and runs it. Raises an Error where it is not compiled, and what the text raises."""
        file = self.compile(text, name, mode)
        self.entries.append(Entry(name, text, file))
        lines = [line + "\n" for line in text.split("\n")]
        linecache.cache[name] = (len(text), None, lines, name)
        try:
            made = translation.linked(translation.translated(codefile.read(file)))
        except (translation.Unfit, RecursionError) as error:
            raise Ended("%s: the code cannot be run: %s" % (name, error), INPUT) from None
        bodies.execute(made, self.names)

    def next_name(self) -> str:
        """A name for an entry at the prompt, which none before has."""
        self.count += 1
        return "<entry %d>" % self.count

    def compile(self, text: str, name: str, mode: str) -> bytes:
        """The file of the code of a text. Raises Refused, OutOfMemory and Ended."""
        lines = rows.lines_of(text)
        try:
            tree = rows.tree_of(text, mode)
            if mode == "single":
                show_values_within(tree)
            made = rows.json_of(literals.Calls().visit(tree), rows.Source(text))
        except rows.Fault as fault:
            raise Refused(refusals.refusal(name, fault.place, str(fault), lines)) from None
        return self.asked(["pack", mode, str(self.level), name], name, made.encode("utf-8"), lines)

    def asked(self, words: List[str], name: str, data: bytes, lines: Optional[List[str]]) -> bytes:
        """What the program writes. Raises Refused, OutOfMemory and Ended."""
        status, out, said = program.call(self.path, words, data, subprocess.PIPE)
        program.check(status, said, name, data, lines, True)
        return out

    # What is told of what was entered.

    def listing(self, entry: Entry) -> str:
        """The listing of the code of an entry."""
        return self.asked(["unpack"], entry.name, entry.file, None).decode("utf-8")

    def listings_of(self, path: str) -> str:
        """The listing of the code of a function or a class that was entered, whose name this is. Raises LookupError."""
        value = self.value_of(path)
        value = getattr(value, "__func__", value)
        code = getattr(value, "__code__", None)
        wanted: Tuple[Optional[str], str, Optional[str]]
        if isinstance(code, types.CodeType):
            wanted = (code.co_filename, code.co_name, str(code.co_firstlineno))
        elif isinstance(value, type):
            wanted = (None, value.__name__, None)
        else:
            raise LookupError("'%s' is no function and no class" % path)
        for entry in reversed(self.entries):
            found = [part for part, name, line in parts_of(self.listing(entry)) if wanted in ((entry.name, name, line), (None, name, None))]
            if found:
                return "".join(found)
        raise LookupError("'%s' was not entered here" % path)

    def value_of(self, path: str) -> Any:
        """The value of a name, or of a name and attributes with dots between."""
        first, *attributes = path.split(".")
        if first not in self.names:
            raise LookupError("there is no name '%s'" % first)
        value = self.names[first]
        for name in attributes:
            if not hasattr(value, name):
                raise LookupError("'%s' has no attribute '%s'" % (first, name))
            value, first = getattr(value, name), first + "." + name
        return value

    def findings(self) -> List[str]:
        """What the report on names tells of all that was entered, as one file; what has a value now is not unbound."""
        from .bindings import Kind
        from .findings import findings_of
        from .linting import running_builtins

        text = "".join(it.text.rstrip("\n") + "\n" for it in self.entries)
        known = running_builtins().union(self.names, dir(builtins))
        found = []
        for it in findings_of(text.encode("utf-8"), self.path, False).findings:
            if it.is_of_name and it.row is not None and not (it.kind == Kind.UNBOUND.value and it.name in known):
                name, row = self.entry_at(it.row)
                found.append("%s:%d:%d: %s %s [%s]" % (name, row, it.column or 1, it.code, it.text, it.kind))
        return found

    def entry_at(self, row: int) -> Tuple[str, int]:
        """The entry in which a row of all texts stands, and its row there."""
        for entry in self.entries:
            count = entry.text.rstrip("\n").count("\n") + 1
            if row <= count:
                return entry.name, row
            row -= count
        return "", row


def parts_of(listing: str) -> Iterator[Tuple[str, str, str]]:
    """The listing of each code by itself, with the name and the first line of the code."""
    for it in HEAD.finditer(listing):
        yield it.group(), re.sub(r"\\(.)", r"\1", it.group(1)), it.group(2)


def show_values_within(tree: ast.AST) -> None:
    """Makes the statements of a prompt print what stands alone in their bodies, as CPython's prompt does."""
    for node in getattr(tree, "body", []):
        if isinstance(node, COMPOUND):
            for body in bodies_of(node):
                show_values(body)


def bodies_of(node: ast.AST) -> Iterator[List[ast.stmt]]:
    """The lists of statements in a statement."""
    for name in ("body", "orelse", "finalbody"):
        yield getattr(node, name, [])
    for handler in getattr(node, "handlers", []):
        yield handler.body


def show_values(body: List[ast.stmt]) -> None:
    """Makes calls that print of the expressions in a list of statements, and in those within it."""
    for node in body:
        if isinstance(node, ast.Expr):
            call = ast.Call(ast.Name(DISPLAY, ast.Load()), [node.value], [])
            node.value = ast.fix_missing_locations(ast.copy_location(call, node.value))
        elif isinstance(node, COMPOUND):
            for inner in bodies_of(node):
                show_values(inner)


def trace_of(error: BaseException) -> str:
    """The traceback of what a program raised, with its own frames alone."""
    mains.trim_chain(error)
    told = traceback.TracebackException.from_exception(error)
    waiting, seen = [told], set()
    while waiting:
        it = waiting.pop()
        if id(it) in seen:
            continue
        seen.add(id(it))
        it.stack[:] = [frame for frame in it.stack if not frame.filename.startswith(HERE)]
        waiting += [other for other in (it.__cause__, it.__context__, *(getattr(it, "exceptions", None) or ())) if other is not None]
    return "".join(told.format())
