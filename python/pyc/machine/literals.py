"""Literals that rows have no word for: floats, complex and wide numbers, texts with surrogates. They become calls."""
from __future__ import annotations

import ast
import builtins
from typing import Any, Optional

# The built-in that gives the value of a literal.
NAME = "__literal__"


class Values(dict):
    """The values of literals by their texts, each made once."""

    def __missing__(self, text: str) -> Any:
        value = self[text] = eval(text)
        return value


def text_of(value: Any) -> Optional[str]:
    """The text of a literal that rows have no word for; None of one that they have."""
    if isinstance(value, str):
        return ascii(value) if any(0xD800 <= ord(it) < 0xE000 for it in value) else None
    if isinstance(value, int):
        return None if -(2**127) <= value < 2**127 else hex(value)
    # A number that is too large for a float is written `inf`, which is a name.
    return repr(value).replace("inf", "1e999") if isinstance(value, (float, complex)) else None


class Calls(ast.NodeTransformer):
    """Puts a call of the built-in in the place of each literal that rows have no word for."""

    def visit_Constant(self, node: ast.Constant) -> ast.AST:
        text = text_of(node.value)
        if text is None:
            return node
        call = ast.Call(ast.Name(NAME, ast.Load()), [ast.Constant(text)], [])
        return ast.fix_missing_locations(ast.copy_location(call, node))

    def visit_JoinedStr(self, node: ast.JoinedStr) -> ast.AST:
        self.generic_visit(node)
        node.values = [it if isinstance(it, (ast.Constant, ast.FormattedValue)) else between_braces(it, node) for it in node.values]
        return node

    def visit_Match(self, node: ast.AST) -> ast.AST:
        # Its patterns take no calls, and it is refused anyway.
        return node


def between_braces(value: ast.expr, node: ast.AST) -> ast.AST:
    """A value between the braces of an f-string."""
    return ast.copy_location(ast.FormattedValue(value, -1, None), node)


def enter() -> None:
    """Enters the built-in."""
    setattr(builtins, NAME, Values().__getitem__)
