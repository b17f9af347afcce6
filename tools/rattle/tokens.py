"""The tokens of a Rattle source: those of Rust, and beside them its clauses and ghost items, each as one token.

`requires`, `ensures` and `ghost` are keywords of Rattle. What stands between the braces behind them is antt, which has
words with primes and strings of its own; here it is skipped by its braces, strings and comments.
"""
from __future__ import annotations

import bisect
import enum
import re
from typing import List, NamedTuple


class Unknown(Exception):
    """A construct that these tools do not know. Its text begins with the file and the row."""


class Kind(enum.Enum):
    """What a token is."""

    WORD = "word"
    LIFETIME = "lifetime"
    LITERAL = "literal"
    MARK = "mark"
    COMMENT = "comment"
    DOC = "doc"
    CLAUSE = "clause"
    GHOST = "ghost"


class Token(NamedTuple):
    """A token, and the places of its first character and of the one behind it, counted from 0."""

    kind: Kind
    text: str
    start: int
    end: int


SPACE = re.compile(r"\s+")
WORD = re.compile(r"[A-Za-z_][A-Za-z0-9_]*")
ANTT_PART = re.compile(r'"[^"]*"|--[^\n]*|[{}]')

# A token, by the first of these forms that it has.
TOKEN = re.compile(
    r"""
      (?P<comment> //[^\n]* )
    | (?P<block> /\* )
    | (?P<raw> b?r\#*" )
    | (?P<literal> b?"(?:\\.|[^"\\])*"
                 | b?'(?:\\u\{[0-9a-fA-F_]+\}|\\x[0-9a-fA-F]{2}|\\[^\n]|[^\\'])'
                 | [0-9](?:[0-9A-Za-z_]|\.(?=[0-9]))* )
    | (?P<lifetime> '[A-Za-z_][A-Za-z0-9_]*(?!') )
    | (?P<word> [A-Za-z_][A-Za-z0-9_]* )
    | (?P<mark> ::|->|=>|\.\.=|\.\.\.|\.\.|[-+*/%^!&|=<>@.,;:\#$?~()\[\]{}] )
    """,
    re.DOTALL | re.VERBOSE,
)
KINDS = {"literal": Kind.LITERAL, "lifetime": Kind.LIFETIME, "word": Kind.WORD, "mark": Kind.MARK}


class Tokens:
    """Splits the text of one file. `name` is what a refusal calls the file."""

    def __init__(self, name: str, text: str) -> None:
        self.name = name
        self.text = text
        self._row_starts = [0] + [found.end() for found in re.finditer("\n", text)]

    def row_of(self, place: int) -> int:
        """The row of a place, counted from 1."""
        return bisect.bisect_right(self._row_starts, place)

    def unknown(self, place: int, what: str) -> Unknown:
        """The refusal of what stands at a place."""
        return Unknown(f"{self.name}:{self.row_of(place)}: {what}")

    def all(self) -> List[Token]:
        """The tokens in order. Raises Unknown where the text is none that Rattle has."""
        found: List[Token] = []
        place = self._space(0)
        while place < len(self.text):
            token = self._token(place)
            found.append(token)
            place = self._space(token.end)
        return found

    def _space(self, place: int) -> int:
        space = SPACE.match(self.text, place)
        return space.end() if space else place

    def _token(self, place: int) -> Token:
        found = TOKEN.match(self.text, place)
        if found is None:
            raise self.unknown(place, f"the character {self.text[place]!r}")
        form, text, end = found.lastgroup, found.group(), found.end()
        if form == "comment":
            is_doc = text.startswith("//!") or (text.startswith("///") and not text.startswith("////"))
            return Token(Kind.DOC if is_doc else Kind.COMMENT, text, place, end)
        if form == "block":
            raise self.unknown(place, "a comment in /* */")
        if form == "raw":
            return self._raw_string(place, text, end)
        if text in ("requires", "ensures"):
            return self._clause(place, end)
        if text == "ghost":
            return self._ghost(place, end)
        return Token(KINDS[form or ""], text, place, end)

    def _raw_string(self, place: int, opening: str, end: int) -> Token:
        close = '"' + "#" * opening.count("#")
        at = self.text.find(close, end)
        if at < 0:
            raise self.unknown(place, "a string without an end")
        return self._of(Kind.LITERAL, place, at + len(close))

    def _of(self, kind: Kind, start: int, end: int) -> Token:
        return Token(kind, self.text[start:end], start, end)

    def _clause(self, start: int, place: int) -> Token:
        """`requires NAME { .. }` and `ensures* { .. }`; name and star may be left out."""
        if self.text.startswith("*", place):
            place += 1
        place = self._space(place)
        name = WORD.match(self.text, place)
        if name:
            place = self._space(name.end())
        return self._of(Kind.CLAUSE, start, self._antt(start, place, "a clause without braces"))

    def _antt(self, start: int, place: int, fault: str) -> int:
        """The place behind a block of antt that begins here."""
        if not self.text.startswith("{", place):
            raise self.unknown(start, fault)
        depth = 0
        for part in ANTT_PART.finditer(self.text, place):
            depth += {"{": 1, "}": -1}.get(part.group(), 0)
            if depth == 0:
                return part.end()
        raise self.unknown(start, "a block without an end")

    def _ghost(self, start: int, place: int) -> Token:
        """`ghost use ..;`, `ghost NAME: { .. } = { .. };` and a field, which a comma or the struct's brace ends."""
        place = self._space(place)
        name = WORD.match(self.text, place)
        if not name:
            raise self.unknown(start, "a ghost item without a name")
        if name.group() == "use":
            return self._of(Kind.GHOST, start, self._behind_use(start, name.end()))
        place = self._space(name.end())
        parts = 0
        while self.text[place:place + 1] in (":", "=") or self.text.startswith("by ", place):
            place = self._space(place + (2 if self.text.startswith("by ", place) else 1))
            place = self._space(self._antt(start, place, "a ghost item of another form"))
            parts += 1
        last = self.text[place:place + 1]
        if parts == 0 or last not in (";", ",", "}"):
            raise self.unknown(start, "a ghost item of another form")
        return self._of(Kind.GHOST, start, place if last == "}" else place + 1)

    def _behind_use(self, start: int, place: int) -> int:
        brace, end = self.text.find("{", place), self.text.find(";", place)
        if 0 <= brace < end:
            end = self.text.find(";", self._antt(start, brace, ""))
        if end < 0:
            raise self.unknown(start, "a ghost use without an end")
        return end + 1
