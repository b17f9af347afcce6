"""Reads a listing (docs/LISTING.md) back into a code object."""
import collections
import re

from .code_object import Code

TOKEN = re.compile(r"b?'(?:[^'\\]|\\x[0-9a-f]{2}|\\.)*'|<code '(?:[^'\\]|\\x[0-9a-f]{2}|\\.)*'>|-?[0-9]+|None|True|False|Ellipsis|\(|\)|,")
ESCAPE = re.compile(r"\\x([0-9a-f]{2})|\\(.)", re.S)
HEAD = re.compile(r"code ('(?:[^'\\]|\\.)*') from ('(?:[^'\\]|\\.)*') line (-|\d+) flags (\d+) args (\d+) (\d+) (\d+) depth (\d+)$")
UNIT = re.compile(r"\d+ (?:(\d+):(\d+)|-:-) (\w+)(?: (\d+))?")


SINGLE = {"None": None, "True": True, "False": False, "Ellipsis": ...}


def unquote(text):
    """The text that is quoted so."""
    return ESCAPE.sub(lambda it: chr(int(it[1], 16)) if it[1] else it[2], text[1:-1])


def entries(text, read):
    """The entries of a table's line, each read from its tokens."""
    tokens, found = collections.deque(TOKEN.findall(text)), []
    while tokens:
        found.append(read(tokens))
        if tokens and tokens.popleft() != ",":
            raise ValueError(text)
    return found


def read_constant(tokens):
    """A constant. The class Code stands for a code, since its own lines come later."""
    token = tokens.popleft()
    if token in SINGLE:
        return SINGLE[token]
    if token == "(":
        return tuple(read_parts(tokens))
    if token[0] == "<":
        return Code
    if token[0] == "b":
        return unquote(token[1:]).encode("latin-1")
    return unquote(token) if token[0] == "'" else int(token)


def read_parts(tokens):
    """The parts of a tuple, up to its end."""
    found = []
    while tokens[0] != ")":
        found.append(read_constant(tokens))
        if tokens[0] == ",":
            tokens.popleft()
    tokens.popleft()
    return found


def read_quoted(tokens):
    return unquote(tokens.popleft())


def read_number(tokens):
    return int(tokens.popleft())


# The tables of a code, in the order of their lines, and what their entries are.
TABLES = {
    "constants": read_constant,
    "names": read_quoted,
    "varnames": read_quoted,
    "cells": read_quoted,
    "free": read_quoted,
    "cell2arg": read_number,
}


def read_listing(text):
    """The code object of a listing."""
    lines = collections.deque(text.split("\n")[:-1])
    found = read_code(lines)
    if lines:
        raise ValueError(lines[0])
    return found


def read_code(lines):
    """The code whose lines come next, with the codes within it, whose lines follow."""
    name, path, line, flags, positional_only, positional, keyword_only, depth = HEAD.match(lines.popleft()).groups()
    tables = {}
    for word, read in TABLES.items():
        if lines and lines[0].startswith(word + ": "):
            tables[word] = entries(lines.popleft()[len(word) + 2 :], read)
    units, places = read_units(lines)
    constants = [read_code(lines) if it is Code else it for it in tables.get("constants", [])]
    of_arguments = tables.get("cell2arg")
    return Code(
        flags=int(flags),
        posonlyarg_count=int(positional_only),
        arg_count=int(positional),
        kwonlyarg_count=int(keyword_only),
        source_path=unquote(path),
        first_line_number=None if line == "-" else int(line),
        obj_name=unquote(name),
        max_stackdepth=int(depth),
        instructions=tuple(units),
        locations=tuple(places),
        constants=tuple(constants),
        names=tuple(tables.get("names", ())),
        varnames=tuple(tables.get("varnames", ())),
        cellvars=tuple(tables.get("cells", ())),
        freevars=tuple(tables.get("free", ())),
        cell2arg=None if of_arguments is None else tuple(of_arguments),
    )


def read_units(lines):
    """The units that come next, and their places."""
    units, places = [], []
    while lines and not lines[0].startswith("code "):
        found = UNIT.match(lines.popleft())
        units.append((found[3], int(found[4] or 0)))
        places.append((int(found[1] or 0), int(found[2] or 0)))
    return units, places
