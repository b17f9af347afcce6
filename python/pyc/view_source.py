"""The lines of a source as pieces: tokens in their classes, and the places that units have."""
from __future__ import annotations

import io
import keyword
import re
import tokenize
from typing import Dict, Iterable, List, NamedTuple, Set, Tuple

WORD = re.compile(r"\w+|.", re.S)

# What stands for characters that a page shows otherwise or not at all: controls, and those that turn the order of a line.
INSTEAD = {number: 0x2400 + number for number in range(32) if number != 9}
INSTEAD[0x7F] = 0x2421
INSTEAD.update(dict.fromkeys([*range(0x202A, 0x202F), *range(0x2066, 0x206A)], 0xFFFD))

CLASSES = {tokenize.STRING: "str", tokenize.NUMBER: "num", tokenize.COMMENT: "com"}
for kind in ("FSTRING_START", "FSTRING_MIDDLE", "FSTRING_END"):
    if hasattr(tokenize, kind):
        CLASSES[getattr(tokenize, kind)] = "str"


class Piece(NamedTuple):
    """Some characters of a line."""

    text: str
    kind: str
    """`kw`, `str`, `num`, `com`, or empty."""
    column: int
    """The column of a place that is at its first character, from 1; 0 where none is."""


def pieces_of(lines: List[str], places: Iterable[Tuple[int, int]]) -> List[List[Piece]]:
    """The pieces of each line. A place, a row and a column from 1, is that of the token or word that begins there."""
    columns: Dict[int, Set[int]] = {}
    for row, column in places:
        columns.setdefault(row, set()).add(column)
    tokens = tokens_of(lines)
    return [line_pieces(line, tokens.get(row, []), columns.get(row, set())) for row, line in enumerate(lines, 1)]


def tokens_of(lines: List[str]) -> Dict[int, List[Tuple[int, int, str]]]:
    """By its row, where each token begins and ends in its line, and its class; as far as the source has tokens."""
    found: Dict[int, List[Tuple[int, int, str]]] = {}
    try:
        for it in tokenize.generate_tokens(io.StringIO("\n".join(lines) + "\n").readline):
            kind = CLASSES.get(it.type, "kw" if it.type == tokenize.NAME and keyword.iskeyword(it.string) else "")
            for row in range(it.start[0], it.end[0] + 1):
                if row > len(lines):
                    break
                begin = it.start[1] if row == it.start[0] else 0
                end = it.end[1] if row == it.end[0] else len(lines[row - 1])
                if begin < end:
                    found.setdefault(row, []).append((begin, end, kind))
    except (tokenize.TokenError, SyntaxError):
        # What is no Python has tokens up to there.
        pass
    return found


def line_pieces(line: str, tokens: List[Tuple[int, int, str]], columns: Set[int]) -> List[Piece]:
    """The pieces of a line: its tokens, cut where places begin and where the words at places end."""
    cuts = {0, len(line)}
    kinds = [""] * len(line)
    for begin, end, kind in tokens:
        cuts.update((begin, min(end, len(line))))
        kinds[begin:end] = [kind] * (min(end, len(line)) - begin)
    starts = {column - 1 for column in columns if column <= len(line)}
    begins = {begin for begin, _, _ in tokens}
    for start in starts - begins:
        cuts.update((start, WORD.match(line, start).end()))
    cuts = {it for it in cuts if it <= len(line)}
    edges = sorted(cuts | starts)
    return [
        Piece(line[begin:end].translate(INSTEAD), kinds[begin], begin + 1 if begin in starts else 0)
        for begin, end in zip(edges, edges[1:])
    ]
