"""Codes as JSON: nothing is lost, so the file of code that is made of the JSON is the one that the code came from."""
from __future__ import annotations

import json
from typing import Any, Dict

from .code_object import Code, Constant

# Numbers beyond these are no numbers of JavaScript, so they are written as texts.
WIDEST = 2**53

# Where a field of the JSON comes from.
FIELDS = {
    "name": "obj_name",
    "path": "source_path",
    "line": "first_line_number",
    "flags": "flags",
    "depth": "max_stackdepth",
    "positional_only": "posonlyarg_count",
    "positional": "arg_count",
    "keyword_only": "kwonlyarg_count",
    "names": "names",
    "varnames": "varnames",
    "cells": "cellvars",
    "free": "freevars",
    "cell2arg": "cell2arg",
}


def as_object(code: Code) -> Dict[str, Any]:
    """A code, as an object of JSON (docs/COMMANDS.md has its fields)."""
    found: Dict[str, Any] = {key: getattr(code, field) for key, field in FIELDS.items()}
    found["units"] = [[name, byte, *place] for (name, byte), place in zip(code.instructions, code.locations)]
    found["constants"] = [constant_as_json(it) for it in code.constants]
    return found


def constant_as_json(value: Constant) -> Any:
    """A constant: what JSON has no word for is an object with one key, which says what it is."""
    if isinstance(value, Code):
        return {"code": as_object(value)}
    if isinstance(value, tuple):
        return {"tuple": [constant_as_json(it) for it in value]}
    if isinstance(value, bytes):
        return {"bytes": value.hex()}
    if value is ...:
        return {"ellipsis": True}
    if isinstance(value, int) and not isinstance(value, bool) and not -WIDEST < value < WIDEST:
        return {"int": str(value)}
    return value


def as_text(code: Code) -> str:
    """A code, as JSON in one line. Raises ValueError where codes nest deeper than the JSON of this Python does."""
    try:
        return json.dumps(as_object(code), separators=(",", ":"), ensure_ascii=False)
    except RecursionError:
        raise ValueError("its codes nest too deep for JSON") from None


def code_of(found: Dict[str, Any]) -> Code:
    """The code of an object of JSON. Raises ValueError where it is none."""
    try:
        fields = {field: made_tuple(found[key]) for key, field in FIELDS.items()}
        units = [(name, byte) for name, byte, _, _ in found["units"]]
        places = [(row, column) for _, _, row, column in found["units"]]
        constants = tuple(constant_of(it) for it in found["constants"])
        return Code(instructions=tuple(units), locations=tuple(places), constants=constants, **fields)
    except (KeyError, TypeError) as error:
        raise ValueError("this is no code: %s" % error) from None


def made_tuple(value: Any) -> Any:
    """A list as a tuple, and all else as it is."""
    return tuple(value) if isinstance(value, list) else value


def constant_of(value: Any) -> Constant:
    """The constant of a value of JSON. Raises ValueError where it is none."""
    if not isinstance(value, dict):
        return value
    (kind, it), *others = value.items()
    if others or kind not in ("code", "tuple", "bytes", "ellipsis", "int"):
        raise ValueError("this is no constant: %s" % ", ".join(value))
    if kind == "code":
        return code_of(it)
    if kind == "tuple":
        return tuple(map(constant_of, it))
    return ... if kind == "ellipsis" else bytes.fromhex(it) if kind == "bytes" else int(it)


def read_text(text: str) -> Code:
    """The code that a text of JSON is. Raises ValueError where it is none."""
    return code_of(json.loads(text))
