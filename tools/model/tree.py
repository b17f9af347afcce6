"""The tree kinds of the rows format, and trees as plain Python nodes.

A row is [kind, row, col, *fields] for located kinds, else [kind, *fields].
`build` turns valid rows into Node objects (no checks); `rows_of` turns a Node back into rows.
"""
from __future__ import annotations
from dataclasses import dataclass, field
from typing import Any, Optional

# field letters: e s c A d p k a w h g m t = row numbers; n name; b bool; u whole number; op operator name
# suffix ? = null allowed, * = list, ?* = list with nulls allowed
SCHEMA: dict[str, tuple[str, bool, list[tuple[str, str]]]] = {}


def _add(group: str, located: bool, text: str) -> None:
    for line in text.strip().splitlines():
        kinds, _, rest = line.partition(":")
        fields = []
        for part in [p.strip() for p in rest.split(",") if p.strip()]:
            fname, ftype = part.rsplit(" ", 1)
            fields.append((fname.strip(), ftype))
        for kind in kinds.split():
            SCHEMA[kind] = (group, located, fields)


_add("Mod", False, """
Module Interactive: body s*
Expression: body e
FunctionType: argtypes e*, returns e
""")
_add("Stmt", True, """
FunctionDef AsyncFunctionDef: name n, args A, body s*, decorator_list e*, returns e?, type_params t*
ClassDef: name n, bases e*, keywords k*, body s*, decorator_list e*, type_params t*
Return: value e?
Delete: targets e*
Assign: targets e*, value e
TypeAlias: name e, type_params t*, value e
AugAssign: target e, op op, value e
AnnAssign: target e, annotation e, value e?, simple b
For AsyncFor: target e, iter e, body s*, orelse s*
While If: test e, body s*, orelse s*
With AsyncWith: items w*, body s*
Match: subject e, cases m*
Raise: exc e?, cause e?
Try TryStar: body s*, handlers h*, orelse s*, finalbody s*
Assert: test e, msg e?
Import: names a*
ImportFrom: module n?, names a*, level u
Global Nonlocal: names n*
Expr: value e
Pass Break Continue:
""")
_add("Expr", True, """
BoolOp: op op, values e*
NamedExpr: target e, value e
BinOp: left e, op op, right e
UnaryOp: op op, operand e
Lambda: args A, body e
IfExp: test e, body e, orelse e
Dict: keys e?*, values e*
Set List Tuple: elts e*
ListComp SetComp GeneratorExp: elt e, generators g*
DictComp: key e, value e, generators g*
Await YieldFrom Starred: value e
Yield: value e?
Compare: left e, ops op*, comparators e*
Call: func e, args e*, keywords k*
FormattedValue: value e, conversion op, format_spec e?
JoinedStr: values e*
Constant: value c
Attribute: value e, attr n
Subscript: value e, slice e
Name: id n
Slice: lower e?, upper e?, step e?
""")
_add("Arguments", False, "Arguments: posonlyargs d*, args d*, vararg p?, kwonlyargs d*, kwarg p?")
_add("ArgWithDefault", False, "ArgWithDefault: def p, default e?")
_add("Arg", True, "Arg: arg n, annotation e?")
_add("Keyword", False, "Keyword: arg n?, value e")
_add("Alias", False, "Alias: name n, asname n?")
_add("WithItem", False, "WithItem: context_expr e, optional_vars e?")
_add("ExceptHandler", False, "ExceptHandler: type_ e?, name n?, body s*")
_add("Comprehension", False, "Comprehension: target e, iter e, ifs e*, is_async b")
_add("MatchCase", False, "MatchCase: body s*")
_add("TypeParam", True, "TypeVar: name n, bound e?\nParamSpec TypeVarTuple: name n")
CONSTANT_KINDS = {"none", "true", "false", "ellipsis", "int", "str", "bytes", "tuple"}
LETTER_GROUP = {"e": "Expr", "s": "Stmt", "c": "Constant", "A": "Arguments", "d": "ArgWithDefault",
                "p": "Arg", "k": "Keyword", "a": "Alias", "w": "WithItem", "h": "ExceptHandler",
                "g": "Comprehension", "m": "MatchCase", "t": "TypeParam"}


@dataclass(eq=False)
class Node:
    """A node: kind, location (row, col) or None, fields by name. Constants are Nodes of the kinds
    none true false ellipsis int str bytes tuple with the one field `v` (None, an int, a str, bytes, a list of Nodes)."""
    kind: str
    loc: Optional[tuple[int, int]]
    f: dict[str, Any] = field(default_factory=dict)

    def __getattr__(self, name):
        try:
            return self.__dict__["f"][name]
        except KeyError:
            raise AttributeError(name)

    @property
    def group(self) -> str:
        return "Constant" if self.kind in CONSTANT_KINDS else SCHEMA[self.kind][0]


def build(rows) -> Node:
    made: list[Node] = []
    for row in rows:
        kind = row[0]
        if kind in CONSTANT_KINDS:
            v = None
            if kind == "int":
                v = int(row[1])
            elif kind == "str":
                v = row[1]
            elif kind == "bytes":
                v = bytes.fromhex(row[1])
            elif kind == "tuple":
                v = [made[i] for i in row[1]]
            made.append(Node(kind, None, {"v": v}))
            continue
        group, located, fields = SCHEMA[kind]
        at = 3 if located else 1
        loc = (row[1], row[2]) if located else None
        f = {}
        for (name, letter), value in zip(fields, row[at:]):
            base = letter.rstrip("?*")
            if base in LETTER_GROUP:
                if letter.endswith("*"):
                    f[name] = [None if i is None else made[i] for i in value]
                else:
                    f[name] = None if value is None else made[value]
            else:
                f[name] = value
        made.append(Node(kind, loc, f))
    return made[-1]


def rows_of(root: Node) -> list:
    """The rows of a tree, children before parents, in field order."""
    rows: list = []

    def put(row) -> int:
        rows.append(row)
        return len(rows) - 1

    def go(n: Node) -> int:
        k = n.kind
        if k in CONSTANT_KINDS:
            if k == "int":
                return put(["int", str(n.v)])
            if k == "str":
                return put(["str", n.v])
            if k == "bytes":
                return put(["bytes", n.v.hex()])
            if k == "tuple":
                return put(["tuple", [go(c) for c in n.v]])
            return put([k])
        group, located, fields = SCHEMA[k]
        row = [k] + (list(n.loc) if located else [])
        for name, letter in fields:
            value = n.f[name]
            base = letter.rstrip("?*")
            if base in LETTER_GROUP:
                if letter.endswith("*"):
                    value = [None if c is None else go(c) for c in value]
                else:
                    value = None if value is None else go(value)
            row.append(value)
        return put(row)
    import sys
    old = sys.getrecursionlimit()
    sys.setrecursionlimit(max(old, 20000))
    try:
        go(root)
    finally:
        sys.setrecursionlimit(old)
    return rows
