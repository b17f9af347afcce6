#!/usr/bin/env python3
"""Holds what `lint` finds in files of the library of a Python against the report of the program and the tokens of Python.

usage: lint_library.py [--files N] [FOLDER]

Of each file: the findings without places are exactly the lines of the report; at each told place the name stands, by the
tokens of Python; where that is a name or a parameter of the tree, it stands in the scope that is told, by Python's tree;
and no built-in is told unbound. The N files (500) are spread over the library of the Python that runs this, or over
FOLDER. The status is 1 where one of these does not hold.
"""
from __future__ import annotations

import argparse
import ast
import builtins
import os
import pathlib
import subprocess
import sys
import tokenize
import unicodedata
from typing import Dict, Iterator, List, Optional, Tuple

sys.path.insert(0, str(pathlib.Path(__file__).resolve().parent.parent))

from pyc import linting, rows
from pyc.findings import Finding, findings_of
from pyc.program import PROGRAM


def library_files(count: int, folder: Optional[pathlib.Path] = None) -> List[pathlib.Path]:
    """About so many files, spread over the library of this Python or a folder."""
    folder = folder or pathlib.Path(os.__file__).parent
    files = [it for it in sorted(folder.glob("**/*.py")) if "site-packages" not in it.parts]
    return files[:: max(1, len(files) // count)][:count]


class Scopes(ast.NodeVisitor):
    """The path of the scope in which each name and parameter of a tree stands, by its line and its column of bytes."""

    def __init__(self) -> None:
        self.path = "top"
        self.found: Dict[Tuple[int, int], str] = {}

    def visit_all(self, nodes: List[Optional[ast.AST]]) -> None:
        for node in nodes:
            if node is not None:
                self.visit(node)

    def within(self, name: str, nodes: List[Optional[ast.AST]]) -> None:
        """Visits nodes in a scope of this name."""
        around, self.path = self.path, self.path + "/" + name
        self.visit_all(nodes)
        self.path = around

    def visit_Name(self, node: ast.Name) -> None:
        self.found[node.lineno, node.col_offset] = self.path

    def visit_function(self, node: ast.AST) -> None:
        """A function: its decorators and defaults stand outside, its annotations in the scope of its type parameters."""
        given = node.args
        every = [*given.posonlyargs, *given.args, given.vararg, *given.kwonlyargs, given.kwarg]
        parameters = [it for it in every if it is not None]
        own = getattr(node, "type_params", [])
        self.visit_all([*node.decorator_list, *given.defaults, *given.kw_defaults])
        around = self.path
        if own:
            self.path += "/<generic parameters of %s>" % node.name
        self.visit_all([*own, node.returns, *(it.annotation for it in parameters)])
        self.found.update({(it.lineno, it.col_offset): "%s/%s" % (self.path, node.name) for it in parameters})
        self.within(node.name, node.body)
        self.path = around

    visit_FunctionDef = visit_AsyncFunctionDef = visit_function

    def visit_ClassDef(self, node: ast.ClassDef) -> None:
        own = getattr(node, "type_params", [])
        self.visit_all(node.decorator_list)
        around = self.path
        if own:
            self.path += "/<generic parameters of %s>" % node.name
        self.visit_all([*own, *node.bases, *node.keywords])
        self.within(node.name, node.body)
        self.path = around

    def visit_TypeAlias(self, node: ast.AST) -> None:
        self.visit(node.name)
        if node.type_params:
            self.within("<generic parameters of %s>" % node.name.id, [*node.type_params, node.value])
        else:
            self.visit(node.value)

    def visit_Lambda(self, node: ast.Lambda) -> None:
        given = node.args
        every = [*given.posonlyargs, *given.args, given.vararg, *given.kwonlyargs, given.kwarg]
        self.visit_all([*given.defaults, *given.kw_defaults])
        self.found.update({(it.lineno, it.col_offset): self.path + "/lambda" for it in every if it is not None})
        self.within("lambda", [node.body])

    def visit_comprehension_of(self, node: ast.AST) -> None:
        """A comprehension: its first iterable stands outside."""
        first = node.generators[0]
        self.visit(first.iter)
        elements = [node.key, node.value] if isinstance(node, ast.DictComp) else [node.elt]
        others = [part for it in node.generators[1:] for part in (it.iter, it.target, *it.ifs)]
        self.within("genexpr", [first.target, *first.ifs, *others, *elements])

    visit_ListComp = visit_SetComp = visit_DictComp = visit_GeneratorExp = visit_comprehension_of


def tokens_of(text: str) -> Iterator[Tuple[int, int, str]]:
    """The row, the column from 1 and the text of each token of a source, and the words of each text."""
    lines = iter(text.splitlines(keepends=True))
    for it in tokenize.generate_tokens(lambda: next(lines, "")):
        yield (it.start[0], it.start[1] + 1, it.string)


def words_at(text: str, places: List[Tuple[int, int]]) -> Dict[Tuple[int, int], str]:
    """The token at each of these places, in normal form; what stands within a text is taken from the line."""
    tokens = {(row, column): word for row, column, word in tokens_of(text)}
    lines = text.split("\n")
    found = {}
    for row, column in places:
        word = tokens.get((row, column))
        if word is None:
            end = column
            while end <= len(lines[row - 1]) and (lines[row - 1][column - 1 : end]).isidentifier():
                end += 1
            word = lines[row - 1][column - 1 : end - 1]
        found[row, column] = unicodedata.normalize("NFKC", word)
    return found


def report_of(data: bytes) -> Optional[List[str]]:
    """The lines of the report of the program, in order of the alphabet; None where it has none, or there are no rows."""
    try:
        text = rows.rows_text(data)
    except rows.Fault:
        return None
    ended = subprocess.run([PROGRAM, "names", "m.py"], input=text.encode("utf-8"), stdout=subprocess.PIPE, stderr=subprocess.PIPE)
    return sorted(ended.stdout.decode("utf-8").splitlines()) if ended.returncode == 0 else None


def faults_of(file: pathlib.Path) -> List[str]:
    """What does not hold of a file."""
    data = file.read_bytes()
    found = findings_of(data, PROGRAM)
    named = [it for it in found.findings if it.is_of_name]
    faults = []
    report = report_of(data)
    if report is not None and report != sorted(it.line() for it in named):
        faults.append("the findings are not the report")
    if named:
        faults += wrong_places(rows.text_of(data).replace("\r\n", "\n").replace("\r", "\n"), named)
    usual = linting.chosen(found, linting.choice_of({}, False, str), str(file))
    faults += ["a built-in is unbound: %s" % it.name for it in usual if it.kind == "unbound" and hasattr(builtins, it.name)]
    faults += ["a finding has no place: %s" % it.line() for it in usual if it.is_of_name and it.row is None]
    return faults


def wrong_places(text: str, named: List[Finding]) -> List[str]:
    """The findings that are told at a place where their name does not stand, or not in their scope."""
    placed = [it for it in named if it.row is not None]
    words = words_at(text, [(it.row, it.column) for it in placed])
    scopes = Scopes()
    limit = sys.getrecursionlimit()
    sys.setrecursionlimit(10000)
    scopes.visit(ast.parse(text))
    sys.setrecursionlimit(limit)
    lines = text.split("\n")
    faults = []
    for it in placed:
        path = scopes.found.get((it.row, len(lines[it.row - 1][: it.column - 1].encode("utf-8"))))
        is_there = path is None or path == it.scope or (it.kind == "captured" and path.startswith(it.scope + "/"))
        is_lifted = it.kind == "shadowed" and path is not None and path.startswith(it.scope + "/genexpr")
        if words[it.row, it.column] != it.written or not it.name.endswith(it.written) or not (is_there or is_lifted):
            faults.append("%d:%d: %s" % (it.row, it.column, it.line()))
    return faults


def main() -> int:
    parser = argparse.ArgumentParser(description=__doc__.split("\n")[0])
    parser.add_argument("--files", type=int, default=500, metavar="N", help="how many files (500)")
    parser.add_argument("folder", metavar="FOLDER", nargs="?", type=pathlib.Path, help="their folder")
    words = parser.parse_args()
    count = 0
    files = library_files(words.files, words.folder)
    for file in files:
        for fault in faults_of(file):
            count += 1
            print("%s: %s" % (file, fault))
    print("%d files, %d faults" % (len(files), count))
    return 1 if count else 0


if __name__ == "__main__":
    sys.exit(main())
