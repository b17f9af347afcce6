"""Which findings a user is told, and how: the choice by words, by pyproject.toml and by comments, and the three formats."""
from __future__ import annotations

import builtins
import json
import os
from typing import Any, Callable, Dict, FrozenSet, Iterable, List, NamedTuple, Optional, Sequence, Tuple

from .bindings import Kind
from .errors import WrongWords
from .findings import CODES, NOT_SURE, REFUSED, ROWS, SYNTAX, Finding, Found
from .refusals import shown

KINDS = (*(it.value for it in CODES), SYNTAX, ROWS, REFUSED)
# What is told where no word chooses, and what is with --all: the beginnings of codes.
USUAL = ("R", "N101", "N102", "N103", "N105")
EVERY = ("R", "N")

# The names that a module has from the start, and the built-ins that `site` adds, which a Python without it has not.
OF_MODULES = ("__name__", "__doc__", "__package__", "__loader__", "__spec__", "__file__", "__cached__", "__builtins__", "__annotations__")
OF_SITE = ("copyright", "credits", "exit", "help", "license", "quit")


class Choice(NamedTuple):
    """What is told: the beginnings of codes and the kinds that are, those that are not; the names that are not unbound; and
    whether all else that the report has."""

    selected: Tuple[str, ...]
    ignored: Tuple[str, ...]
    builtins: FrozenSet[str]
    is_all: bool

    def has(self, code: str, kind: str) -> bool:
        """Whether findings of a code and a kind are chosen."""
        return names_one(self.selected, code, kind) and not names_one(self.ignored, code, kind)

    def has_refusals(self) -> bool:
        """Whether what the compiler refuses may be chosen."""
        is_selected = any(it == REFUSED or it.startswith("R") for it in self.selected)
        return is_selected and REFUSED not in self.ignored and "R" not in self.ignored


def names_one(words: Iterable[str], code: str, kind: str) -> bool:
    """Whether one of these words is the kind, or the beginning of the code."""
    return any(it == kind or code.startswith(it) for it in words)


def running_builtins() -> FrozenSet[str]:
    """The built-ins of the Python that runs this, and the names that each module has."""
    return frozenset(dir(builtins)) - {"_"} | frozenset(OF_MODULES) | frozenset(OF_SITE)


def codes_of(words: Iterable[str], option: str) -> Tuple[str, ...]:
    """Codes, beginnings of codes and kinds, as a choice has them. Raises WrongWords for any other word."""
    return tuple(code_of(it, option) for it in words)


def code_of(word: str, option: str) -> str:
    """A kind, or a code or the beginning of codes."""
    if word.lower() in KINDS:
        return word.lower()
    from .explanations import KINDS as REFUSALS

    known = (*CODES.values(), NOT_SURE, *(it.code for it in REFUSALS))
    if not word or not any(it.startswith(word.upper()) for it in known):
        raise WrongWords("%s names a code or a kind, and '%s' is none: %s" % (option, word, ", ".join(KINDS)))
    return word.upper()


def builtins_of(words: Iterable[str], option: str) -> FrozenSet[str]:
    """The built-ins that words say: those of the running Python and each NAME or +NAME; with `none` these names alone."""
    words = list(words)
    found = frozenset() if "none" in words else running_builtins()
    names = [it[1:] if it.startswith("+") else it for it in words if it != "none"]
    for name in names:
        if not name.isidentifier():
            raise WrongWords("%s names built-ins, as +NAME, or none; '%s' is no name" % (option, name))
    return found.union(names)


def choice_of(given: Dict[str, Sequence[str]], is_all: bool, told: Callable[[str], str]) -> Choice:
    """The choice that `select`, `ignore` and `builtins` make; `told` says how a fault names one of these."""
    usual = EVERY if is_all else USUAL
    selected = codes_of(given["select"], told("select")) if "select" in given else usual
    ignored = codes_of(given.get("ignore", ()), told("ignore"))
    return Choice(selected, ignored, builtins_of(given.get("builtins", ()), told("builtins")), is_all)


def is_told(finding: Finding, choice: Choice, file: str) -> bool:
    """Whether a finding is chosen; comments are not looked at."""
    if not choice.has(finding.code, finding.kind):
        return False
    if not finding.is_of_name:
        return True
    if finding.kind == Kind.UNBOUND.value and is_known(finding.name or "", choice, file):
        return False
    if choice.is_all:
        return True
    if finding.kind == Kind.UNUSED.value and (finding.written or "_").startswith("_"):
        return False
    return finding.written is not None


def is_known(name: str, choice: Choice, file: str) -> bool:
    """Whether a name is a built-in; the file of a package has `__path__` too."""
    return name in choice.builtins or (name == "__path__" and "__name__" in choice.builtins and os.path.basename(file) == "__init__.py")


def is_silenced(finding: Finding, noqa: Dict[int, Optional[List[str]]]) -> bool:
    """Whether a comment in the row of a finding asks that it is not told."""
    if finding.row not in noqa:
        return False
    codes = noqa[finding.row]
    return codes is None or finding.code in codes


def chosen(found: Found, choice: Choice, file: str) -> List[Finding]:
    """The findings of a file that are told."""
    return [it for it in found.findings if is_told(it, choice, file) and (choice.is_all or not is_silenced(it, found.noqa))]


# Formats.


def as_text(file: str, finding: Finding) -> str:
    """FILE:ROW:COL: CODE TEXT [KIND], or FILE: .. where no place is known."""
    place = "" if finding.row is None else ":%d:%d" % (finding.row, finding.column or 1)
    return "%s%s: %s %s [%s]" % (shown(file), place, finding.code, shown(finding.text), finding.kind)


def as_json(file: str, finding: Finding) -> str:
    """An object, in one line."""
    told: Dict[str, Any] = {"file": file, "row": finding.row, "column": finding.column, "code": finding.code, "kind": finding.kind}
    told.update(scope=finding.scope, name=finding.name, other=finding.other, text=finding.text)
    return json.dumps(told)


def as_github(file: str, finding: Finding) -> str:
    """A command of a workflow of GitHub, which notes the finding at its place."""
    is_error = not finding.is_of_name or finding.kind == Kind.UNBOUND.value
    place = "" if finding.row is None else ",line=%d,col=%d" % (finding.row, finding.column or 1)
    head = "::%s file=%s%s,title=pyc %s::" % ("error" if is_error else "warning", escaped(file, ":,"), place, finding.code)
    return head + escaped("%s [%s]" % (finding.text, finding.kind), "")


def escaped(text: str, more: str) -> str:
    """A text as such commands take it: with % and line ends, and these characters, as % and two digits."""
    return "".join("%%%02X" % ord(it) if it in "%\r\n" + more else it for it in text)


FORMATS = {"text": as_text, "json": as_json, "github": as_github}
