"""What is found in a source: the program's report on its names, with places, and why the program refuses it.

The report is that of the proved program (`names`). The places are found by a walk in Python over the same rows
(uses.py, bindings.py, places.py), which is tested and not proved.
"""
from __future__ import annotations

import ast
import collections
import json
import re
import subprocess
import sys
from typing import Any, Deque, Dict, List, NamedTuple, Optional, Tuple

from . import program, refusals, rows
from .bindings import Bindings, Kind, Told
from .errors import Refused
from .places import Place, Places
from .refusals import Refusal
from .uses import Role, Scope, Stands, scopes_of

# The codes of what is told of names. NOT_SURE is that of an unbound name in a file that imports all names of a module.
CODES = {Kind.UNBOUND: "N101", Kind.UNUSED: "N102", Kind.SHADOWED: "N103", Kind.CAPTURED: "N104"}
NOT_SURE = "N105"

# The kinds of what keeps a source from being compiled. The codes are those of refusals.
SYNTAX, ROWS, REFUSED = "syntax", "rows", "refused"
OF_SYNTAX = ("R101", "R102", "R103")

SCOPE = r"(?:<generic parameters of [^ ]+>|[^ /]+)"
PATH = SCOPE + "(?:/" + SCOPE + ")*"
LINE = re.compile(r"(unused|unbound|shadowed|captured) (%s) ([^ ]+)(?: (?:over|from) (%s))?" % (PATH, PATH))

# How deep calls go at most while a tree is walked that nests 2^10 deep.
DEEPEST = 10000


class Finding(NamedTuple):
    """A finding. The row and the column count characters from 1, and are None where no place is known.

    The scope, the name and the other scope are those of the report; `written` is the name as the source has it.
    """

    row: Optional[int]
    column: Optional[int]
    code: str
    kind: str
    text: str
    scope: Optional[str] = None
    name: Optional[str] = None
    other: Optional[str] = None
    written: Optional[str] = None

    @property
    def is_of_name(self) -> bool:
        """Whether this is a line of the report."""
        return self.scope is not None

    def line(self) -> str:
        """The line of the report that tells it."""
        link = " over " if self.kind == Kind.SHADOWED.value else " from "
        return "%s %s %s" % (self.kind, self.scope, self.name) + ("" if self.other is None else link + self.other)


class Found(NamedTuple):
    """The findings of a source in the order of its rows, and whether the names are among them."""

    findings: List[Finding]
    has_report: bool
    noqa: Dict[int, Optional[List[str]]]


def findings_of(data: bytes, path: str, is_compiled: bool = True) -> Found:
    """What is found in the bytes of a source by the program of this path.

    Where `is_compiled` is false, what the compiler alone refuses is not asked for. Raises OutOfMemory and Ended.
    """
    try:
        text = rows.text_of(data)
        tree = rows.tree_of(text, "exec")
    except rows.Fault as fault:
        return Found([of_fault(fault)], False, {})
    places = Places(text)
    listed, found = rows_of_tree(tree, text)
    if listed is None:
        return Found(found, False, places.noqa())
    report, refused = asked(listed, path, is_compiled)
    found += refused
    if report is not None:
        found += placed(report, listed, places)
    return Found(sorted(found, key=order), report is not None, places.noqa())


def order(finding: Finding) -> Tuple[int, int, str, str]:
    """By what findings of a source are sorted: their place, those without one first, and their code."""
    return finding.row or 0, finding.column or 0, finding.code, finding.name or ""


def of_fault(fault: rows.Fault) -> Finding:
    """The finding of a fault of a source."""
    return of_refusal(refusals.refusal("", fault.place, str(fault)))


def of_refusal(refusal: Refusal) -> Finding:
    """The finding that a refusal is. Where its text does not say what is refused, the note does."""
    row, column = refusal.place or (None, None)
    kind = SYNTAX if refusal.code in OF_SYNTAX else ROWS if refusal.code.startswith("R1") else REFUSED
    return Finding(row, column, refusal.code, kind, refusal.note if refusal.text == refusals.NOT_YET else refusal.text)


# Rows, and what the program says of them.


def rows_of_tree(tree: ast.AST, text: str) -> Tuple[Optional[List[List[Any]]], List[Finding]]:
    """The rows of a tree of this text, or None, and what rows have no word for: where that is a constant they have another."""
    source = rows.Source(text)
    if sys.version_info < (3, 9):
        rows.place_slices(tree, source)
    try:
        return rows.rows_of(tree, source), []
    except rows.Fault as fault:
        found = [of_fault(fault)]
    replace_constants(tree)
    try:
        return rows.rows_of(tree, source), found
    except rows.Fault:
        return None, found


def replace_constants(tree: ast.AST) -> None:
    """Puts another constant in the place of each for which rows have no word, as a float: no name stands in one."""
    for node in ast.walk(tree):
        if isinstance(node, ast.Constant) and not has_word(node.value):
            node.value = "?" if isinstance(node.value, str) else 0


def has_word(value: object) -> bool:
    """Whether rows have a word for a constant."""
    if isinstance(value, str):
        return value.isascii() or not rows.SURROGATE.search(value)
    if isinstance(value, int):
        return -(2**127) <= value < 2**127
    return not isinstance(value, (float, complex))


def asked(listed: List[List[Any]], path: str, is_compiled: bool) -> Tuple[Optional[List[str]], List[Finding]]:
    """The lines of the report on rows, or None where they have none, and what the program refuses."""
    data = json.dumps(listed, separators=(",", ":"), ensure_ascii=False, check_circular=False).encode("utf-8")
    report: Optional[List[str]] = None
    try:
        report = answer(path, ["names", "-"], data, subprocess.PIPE).decode("utf-8").splitlines()
        if is_compiled:
            answer(path, ["exec", "0", "-"], data, subprocess.DEVNULL)
    except Refused as refused:
        return report, [of_refusal(refused.refusal)]
    return report, []


def answer(path: str, words: List[str], data: bytes, output: int) -> bytes:
    """What the program writes over rows, where the output is a pipe. Raises Refused, OutOfMemory and Ended."""
    status, out, said = program.call(path, words, data, output)
    program.check(status, said, "-", data, None, True)
    return out


# Places of the lines of a report.


def placed(report: List[str], listed: List[List[Any]], places: Places) -> List[Finding]:
    """A finding for each line of the report, with its place where that is found."""
    limit = sys.getrecursionlimit()
    sys.setrecursionlimit(max(limit, DEEPEST))
    try:
        scopes = scopes_of(listed)
        bindings = Bindings(scopes)
        waiting = told_by_line(bindings.told(), report)
        star = star_import(scopes)
        return [finding(line, waiting[line].popleft() if waiting.get(line) else None, bindings, places, star) for line in report]
    finally:
        sys.setrecursionlimit(limit)


def told_by_line(told: List[Told], report: List[str]) -> Dict[str, Deque[Told]]:
    """Of which scopes the lines of the report speak. Of a line that the walk has more or fewer times nothing is said."""
    found: Dict[str, Deque[Told]] = collections.defaultdict(collections.deque)
    for it in told:
        found[it.line()].append(it)
    counts = collections.Counter(report)
    return {line: them for line, them in found.items() if len(them) == counts[line]}


def star_import(scopes: List[Scope]) -> Optional[int]:
    """The row of the first import of all names of a module; None where there is none."""
    stars = [use.row for scope in scopes for use in scope.uses if use.role is Role.IMPORTED and use.name == "*"]
    return min(stars) if stars else None


def finding(line: str, told: Optional[Told], bindings: Bindings, places: Places, star: Optional[int]) -> Finding:
    """The finding that a line of the report is, which speaks of this name where that is known."""
    read = LINE.fullmatch(line)
    assert read is not None, line
    kind, scope, name, other = read.groups()
    place, written = place_of(told, bindings, places) if told else (None, name)
    row, column = place or (None, None)
    code = CODES[Kind(kind)]
    if kind == Kind.UNBOUND.value and star is not None:
        code = NOT_SURE
    said = "name '%s'%s" % (written or name, "" if written else ", which nobody wrote,")
    return Finding(row, column, code, kind, text_of(code, said, scope, other, star), scope, name, other, written)


def place_of(told: Told, bindings: Bindings, places: Places) -> Tuple[Optional[Place], Optional[str]]:
    """The first place in the source of what is told, and the name as it is written there; None of what nobody wrote."""
    uses = [it for it in bindings.uses_told(told) if it.stands is not Stands.UNWRITTEN]
    for use in sorted(uses, key=lambda it: (it.row, it.column, it.number)):
        place = places.place_of(use)
        if place is not None:
            return place, use.written
    return None, uses[0].written if uses else None


def text_of(code: str, name: str, scope: str, other: Optional[str], star: Optional[int]) -> str:
    """What a finding says of a name, which is told so."""
    return {
        "N101": "%s is bound nowhere" % name,
        "N102": "%s is never read in %s" % (name, scope_text(scope)),
        "N103": "%s in %s hides that of %s" % (name, scope_text(scope), scope_text(other or "")),
        "N104": "%s in %s comes from %s" % (name, scope_text(scope), scope_text(other or "")),
        "N105": "%s is bound nowhere, unless the 'import *' of row %s binds it" % (name, star),
    }[code]


def scope_text(path: str) -> str:
    """What a scope is called: the names of a path but that of the module, with dots."""
    return "the module" if path == "top" else "'%s'" % path.partition("/")[2].replace("/", ".")
