"""Where in a source the name of a use stands, and which comments of a source ask that nothing is told of their line.

Rows have no place for the name of a function, a class, an import, a declaration or a handler: these are found by the
tokens behind the place of the statement. A place is told only where the source holds the name there.
"""
from __future__ import annotations

import bisect
import io
import re
import tokenize
import unicodedata
from typing import Dict, Iterator, List, NamedTuple, Optional, Tuple

from .uses import Stands, Use

Place = Tuple[int, int]

WORD = re.compile(r"\w+")
TEXT_PREFIX = re.compile(r"([a-zA-Z]*)('''|\"\"\"|'|\")")
SKIPPED = (tokenize.COMMENT, tokenize.NL, tokenize.INDENT, tokenize.DEDENT)
NOQA = re.compile(r"#\s*noqa(?![\w-])(?:\s*:\s*(?P<codes>[A-Z]+[0-9]+(?:[,\s]+[A-Z]+[0-9]+)*))?", re.I)


class Token(NamedTuple):
    """A token, with its row and its column, which counts characters from 1."""

    row: int
    column: int
    kind: int
    text: str


def same_name(text: str, name: str) -> bool:
    """Whether a word of a source is this name, which Python has in its normal form (NFKC)."""
    return text == name or (not text.isascii() and unicodedata.normalize("NFKC", text) == name)


class Places:
    """The text of a source, in which names are looked up. Its tokens are made once they are wanted."""

    def __init__(self, text: str) -> None:
        self.text = text.replace("\r\n", "\n").replace("\r", "\n")
        self.lines = self.text.split("\n")
        self.kept: Optional[List[Token]] = None
        self.lists: Dict[Place, List[Token]] = {}

    def word_at(self, row: int, column: int) -> str:
        """The word that begins there; empty where none does."""
        if not 1 <= row <= len(self.lines):
            return ""
        line = self.lines[row - 1]
        if column < 1 or (column > 1 and WORD.match(line, column - 2) and WORD.match(line, column - 1)):
            return ""
        found = WORD.match(line, column - 1)
        return found.group() if found else line[column - 1 : column]

    def holds(self, row: int, column: int, name: str) -> bool:
        """Whether the name stands there, as a whole word."""
        return same_name(self.word_at(row, column), name)

    def place_of(self, use: Use) -> Optional[Place]:
        """The row and the column at which the name of a use stands; None where it is not found, or nobody wrote it."""
        if use.stands is Stands.NAME:
            if self.holds(use.row, use.column, use.written):
                return use.row, use.column
            return None if use.text is None else self.place_in_text(use.text, use.written)
        finder = FINDERS.get(use.stands)
        found = finder(self, use) if finder else None
        return None if found is None else (found.row, found.column)

    # Tokens.

    def tokens(self) -> List[Token]:
        """The tokens of the source but blanks; none where Python's own reader of tokens does not take it."""
        if self.kept is None:
            self.kept = []
            try:
                for it in tokenize.generate_tokens(io.StringIO(self.text).readline):
                    self.kept.append(Token(it.start[0], it.start[1] + 1, it.type, it.string))
            except (tokenize.TokenError, SyntaxError):
                self.kept = []
        return self.kept

    def tokens_from(self, row: int, column: int) -> Iterator[Token]:
        """The tokens from a place on, without comments, indents, and line ends that end no statement."""
        tokens = self.tokens()
        for at in range(bisect.bisect_left(tokens, (row, column)), len(tokens)):
            if tokens[at].kind not in SKIPPED:
                yield tokens[at]

    def defined(self, use: Use) -> Optional[Token]:
        """The name of a function or a class."""
        tokens = self.tokens_from(use.row, use.column)
        for token in tokens:
            if token.text in ("def", "class"):
                found = next(tokens, None)
                return found if found is not None and same_name(found.text, use.written) else None
            if token.text != "async":
                return None
        return None

    def imported(self, use: Use) -> Optional[Token]:
        """The name that an import binds: what stands behind `as`, else the first word of the path."""
        return self.listed(use, ("import",))

    def declared(self, use: Use) -> Optional[Token]:
        """A name of a declaration."""
        return self.listed(use, ("global", "nonlocal"))

    def listed(self, use: Use, words: Tuple[str, ...]) -> Optional[Token]:
        """The name of that number behind one of these words, where it is that of the use. A statement is gone over once."""
        place = use.row, use.column
        if place not in self.lists:
            self.lists[place] = names_listed(self.names_of(use, words), words)
        found = self.lists[place][use.number : use.number + 1]
        return found[0] if found and same_name(found[0].text, use.written) else None

    def names_of(self, use: Use, words: Tuple[str, ...]) -> Iterator[Token]:
        """The tokens of a statement from one of these words on, without parentheses."""
        is_begun = False
        for token in self.tokens_from(use.row, use.column):
            if token.kind in (tokenize.NEWLINE, tokenize.ENDMARKER) or token.text == ";":
                return
            is_begun = is_begun or (token.kind == tokenize.NAME and token.text in words)
            if is_begun and token.text not in "()":
                yield token

    def handled(self, use: Use) -> Optional[Token]:
        """The name of a handler, behind `as`, which comes behind the type."""
        depth, is_next = 0, False
        for token in self.tokens_from(use.row, use.column):
            if is_next:
                return token if same_name(token.text, use.written) else None
            if token.kind == tokenize.NEWLINE:
                return None
            if token.kind == tokenize.OP:
                depth += (token.text in "([{") - (token.text in ")]}")
            is_next = depth <= 0 and token.kind == tokenize.NAME and token.text == "as"
        return None

    # F-strings, whose parts have other places before Python 3.12.

    def place_in_text(self, text: Place, name: str) -> Optional[Place]:
        """The first place between the braces of an f-string at which the name stands."""
        for token in self.tokens_from(*text):
            if token.kind != tokenize.STRING:
                return None
            for at in offsets_between_braces(token.text):
                before = token.text[:at]
                row = token.row + before.count("\n")
                column = at - before.rfind("\n") if "\n" in before else token.column + at
                if self.holds(row, column, name):
                    return row, column
        return None

    # Comments.

    def noqa(self) -> Dict[int, Optional[List[str]]]:
        """The rows that have a comment `# noqa`, with the codes behind it, or None where there are none: all codes."""
        if "noqa" not in self.text.lower():
            return {}
        found: Dict[int, Optional[List[str]]] = {}
        for token in self.tokens():
            asked = NOQA.search(token.text) if token.kind == tokenize.COMMENT else None
            if asked:
                codes = asked.group("codes")
                found[token.row] = None if codes is None else re.split(r"[,\s]+", codes.upper())
        return found


FINDERS = {
    Stands.DEFINITION: Places.defined,
    Stands.IMPORT: Places.imported,
    Stands.DECLARATION: Places.declared,
    Stands.HANDLER: Places.handled,
}


def names_listed(tokens: Iterator[Token], words: Tuple[str, ...]) -> List[Token]:
    """The names that a statement lists: of each part that a comma ends the word behind `as`, else the first."""
    found: List[Token] = []
    before = ""
    for token in tokens:
        if before == "as":
            found[-1] = token
        elif before in words or before == ",":
            found.append(token)
        before = token.text
    return found


def offsets_between_braces(text: str) -> Iterator[int]:
    """The offsets of the words between the braces of an f-string that are no attribute and stand in no text within."""
    prefix = TEXT_PREFIX.match(text)
    if prefix is None or "f" not in prefix.group(1).lower():
        return
    depth, at, end = 0, prefix.end(), len(text) - len(prefix.group(2))
    while at < end:
        character = text[at]
        if character == "{" and depth == 0 and text[at + 1] == "{":
            at += 2
            continue
        depth += (character == "{") - (character == "}" and depth > 0)
        inner = TEXT_PREFIX.match(text, at, end) if depth else None
        word = WORD.match(text, at, end) if depth else None
        if inner:
            closing = text.find(inner.group(2), inner.end(), end)
            at = end if closing < 0 else closing + len(inner.group(2))
        elif word:
            if text[at - 1] != ".":
                yield at
            at = word.end()
        else:
            at += 1
