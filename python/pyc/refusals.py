"""What is refused: the code of each refusal, what kind it is, what is told below its first line, and how it is explained."""
from __future__ import annotations

import json
import re
from typing import Any, Dict, List, NamedTuple, Optional, Sequence, Tuple

from .errors import INPUT, REFUSED

Place = Optional[Tuple[int, int]]

# What the program says of a kind of node that it does not compile.
NOT_YET = "RustPython does not implement this feature yet"


class Kind(NamedTuple):
    """A kind of refusal."""

    code: str
    # Which texts are of this kind, all of the text.
    text: str
    # What kind it is, on one line.
    note: str
    # What there is to do about it, for --explain.
    more: str
    # What is refused so: a source, or rows where no source gives it.
    example: str
    mode: str = "exec"
    # The kinds of nodes of which one stands at the place, where the text alone does not decide.
    nodes: Tuple[str, ...] = ()
    # The first Python whose parser reads the example.
    since: Tuple[int, int] = (3, 8)
    # Whether the example is rows, since no source gives it.
    is_rows: bool = False


class Refusal(NamedTuple):
    """What is told of a file that is refused. The place is a row and a column, each from 1 on."""

    path: str
    place: Place
    text: str
    code: str
    note: str
    # The line of the source at that place; None where it is not at hand.
    line: Optional[str] = None
    status: int = REFUSED


# How what is not compiled begins, where the kinds of nodes at the place are not at hand.
BEGINNINGS = (
    (r"async\s+def\b", "AsyncFunctionDef"),
    (r"async\s+for\b", "AsyncFor"),
    (r"async\s+with\b", "AsyncWith"),
    (r"try\b", "TryStar"),
    (r"[\[({].*\b(async|await)\b", "ListComp"),
)


def nodes_of(line: Optional[str], place: Place) -> List[str]:
    """The kinds of nodes that seem to begin at a place of a line."""
    text = "" if line is None or place is None else line[place[1] - 1 :]
    return [node for pattern, node in BEGINNINGS if re.match(pattern, text)]


def kind_of(text: str, nodes: Sequence[str] = ()) -> Kind:
    """The kind of a refusal of this text, with nodes of these kinds at its place."""
    from .explanations import KINDS, OTHER

    for kind in KINDS:
        if re.fullmatch(kind.text, text, re.S) and (not kind.nodes or set(kind.nodes).intersection(nodes)):
            return kind
    return OTHER


def refusal(path: str, place: Place, text: str, lines: Optional[List[str]] = None, nodes: Optional[Sequence[str]] = None, status: int = REFUSED) -> Refusal:
    """The refusal of a file, at a place of the lines of its source, where these are at hand.

    The nodes are the kinds of those at the place; where they are None the line decides what they seem to be.
    """
    line = None
    if lines is not None and place is not None and 1 <= place[0] <= len(lines):
        line = lines[place[0] - 1].rstrip() or None
    kind = kind_of(text, nodes_of(line, place) if nodes is None else nodes)
    return Refusal(path, place, text, kind.code, kind.note, line, status)


def rows_at(rows: bytes, place: Place) -> List[str]:
    """The kinds of the rows that have a place."""
    if place is None:
        return []
    return [row[0] for row in json.loads(rows) if tuple(row[1:3]) == place]


def place_of_row(rows: bytes, number: int) -> Place:
    """The place of a row; of the next behind it that has one, which it is part of, where it has none."""
    for row in json.loads(rows)[number:]:
        if len(row) > 2 and type(row[1]) is int and type(row[2]) is int:
            return row[1], row[2]
    return None


# What the program writes of a tree that is refused: its place, where it has one, and the reason; and of rows.
OF_TREE = re.compile(r"(?:(\d+):(\d+)|-:-) (.*)\n?", re.S)
OF_ROWS = re.compile(r"input: (.*)\n?", re.S)
TOO_DEEP = re.compile(r"row (\d+): too deep")


def of_program(path: str, said: str, rows: bytes, lines: Optional[List[str]], is_source: bool) -> Refusal:
    """The refusal that the program has told of rows; the lines are those of the source that they were made of."""
    found = OF_TREE.fullmatch(said)
    if found:
        place = None if found[1] is None else (int(found[1]), int(found[2]))
        return refusal(path, place, found[3].rstrip("\n"), lines, rows_at(rows, place) if found[3].startswith(NOT_YET) else ())
    wrong = OF_ROWS.fullmatch(said)
    text = wrong[1].rstrip("\n") if wrong else said.strip()
    deep = TOO_DEEP.fullmatch(text)
    if is_source and deep:
        return refusal(path, place_of_row(rows, int(deep[1])), "too deep", lines)
    if is_source and text == "too long":
        return refusal(path, None, text, lines)
    return refusal(path, None, "input: " + text, lines, status=INPUT)


def shown(text: str) -> str:
    """A text in which each character that a terminal would not show as one is spelled out."""
    if text.isprintable():
        return text
    return "".join(it if it.isprintable() else spelled(ord(it)) for it in text)


def spelled(number: int) -> str:
    """The escape of a character."""
    return "\\x%02x" % number if number < 0x100 else "\\u%04x" % number if number < 0x10000 else "\\U%08x" % number


def width_of(text: str) -> int:
    """How many columns of a terminal a text takes."""
    if text.isascii():
        return len(text)
    import unicodedata

    return sum(0 if unicodedata.combining(it) else 2 if unicodedata.east_asian_width(it) in "WF" else 1 for it in text)


def line_shown(text: str) -> str:
    """A line, or a part of one, of a source: a tab takes four columns, and what is not shown is spelled out."""
    return shown(text.replace("\t", "    "))


# What stands for what was cut off a line.
CUT = "..."


def kept(texts: Sequence[str], room: int) -> List[str]:
    """The first of these texts that together take no more columns."""
    found = []
    for it in texts:
        room -= width_of(it)
        if room < 0:
            break
        found.append(it)
    return found


def cut_line(line: str, column: int, width: int) -> Tuple[str, str]:
    """A line of a source and the blanks before the mark at its column, both cut to the width around the mark."""
    at = column - 1
    # What stands before the mark, the nearest first, and what stands from it on.
    before = [line_shown(it) for it in reversed(line[max(0, at - width) : at])]
    behind = [line_shown(it) for it in line[at : at + width]]
    is_whole = len(before) + len(behind) == len(line) and sum(map(width_of, before + behind)) <= width
    begin = end = ""
    if not is_whole:
        fitting = kept(before, width * 2 // 3 - len(CUT))
        begin = CUT if len(fitting) < min(at, len(line)) else ""
        before = fitting
        fitting = kept(behind, width - sum(map(width_of, before)) - len(begin) - len(CUT))
        end = CUT if at + len(fitting) < len(line) else ""
        behind = fitting
    shown_before = begin + "".join(reversed(before))
    return shown_before + "".join(behind) + end, " " * width_of(shown_before)


BOLD, RED, GREEN, CYAN, PLAIN = "\x1b[1m", "\x1b[31m", "\x1b[32m", "\x1b[36m", "\x1b[0m"


def told(it: Refusal, width: int = 100, is_coloured: bool = False) -> str:
    """The lines that tell a refusal: the place and the text, the line of the source with a mark, and what kind it is."""

    def paint(colours: str, text: str) -> str:
        return colours + text + PLAIN if is_coloured else text

    where = shown(it.path) + ":" if it.place is None else "%s:%d:%d:" % (shown(it.path), *it.place)
    lines = [paint(BOLD, where) + " " + paint(BOLD + RED, shown(it.text))]
    if it.line is not None and it.place is not None:
        line, blanks = cut_line(it.line, it.place[1], width)
        lines += [line, blanks + paint(GREEN, "^")]
    lines.append("%s %s" % (paint(CYAN, "note:"), it.note + " (--explain %s)" % it.code))
    return "\n".join(lines) + "\n"


def as_object(it: Refusal) -> Dict[str, Any]:
    """A refusal as --json tells it."""
    row, column = it.place or (None, None)
    return {"file": it.path, "row": row, "column": column, "code": it.code, "text": it.text, "note": it.note, "status": it.status}
