"""A file as text: each line of the source above its units, as `dis` shows it."""
from __future__ import annotations

from typing import Iterator, List, Optional

from .views import Shown, View


def text_of_view(view: View) -> str:
    """The codes of a view, an empty line between two."""
    return "\n".join("".join(it + "\n" for it in lines_of_code(shown, view.source)) for shown in view.codes)


def lines_of_code(shown: Shown, source: Optional[List[str]]) -> Iterator[str]:
    """The lines of a code: its head, and its units below the lines of the source, with marks before goals of jumps."""
    yield from shown.head
    goals = shown.goals
    rows = len(str(len(source or ())))
    units = len(str(len(shown.lines)))
    row = 0
    for line in shown.lines:
        if source is not None and line.row != row:
            row = line.row
            text = printable(source[row - 1]) if 1 <= row <= len(source) else ""
            yield ("%*d  %s" % (rows, row, text)).rstrip()
        mark = ">>" if line.unit in goals else "  "
        yield "%*s  %s %*d%s" % (rows, "", mark, units, line.unit, line.text[len(str(line.unit)) :])


def printable(text: str) -> str:
    """A line of a source without characters that a terminal obeys; tabs stay."""
    if text.isprintable():
        return text
    return "".join(it if it == "\t" or it.isprintable() else ascii(it)[1:-1] for it in text)
