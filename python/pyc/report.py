"""The report on names, read back."""
from __future__ import annotations

from typing import List, NamedTuple, Optional

WORDS = {"shadowed": " over ", "captured": " from "}


class NameItem(NamedTuple):
    """A line of the report: `unused`, `unbound`, `shadowed` or `captured`, the scope, the name, and the other scope.

    A scope is the names of the scopes that lead to it, from `top` on, with `/` between them.
    """

    kind: str
    scope: str
    name: str
    other: Optional[str] = None


def read_report(text: str) -> List[NameItem]:
    """The items of a report."""
    return [read_line(line) for line in text.splitlines()]


def read_line(line: str) -> NameItem:
    """The item of a line."""
    kind, _, rest = line.partition(" ")
    other = None
    if kind in WORDS:
        rest, _, other = rest.rpartition(WORDS[kind])
    scope, _, name = rest.rpartition(" ")
    return NameItem(kind, scope, name, other)
