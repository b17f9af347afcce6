#!/usr/bin/env python3
"""Trees that are read and written again: the cases of crates/py_rows_vectors, and all that the library of Python has.

usage: read_back.py
       read_back.py --library [--program FILE] [FOLDER]

The first writes crates/py_rows_vectors/stdin and stdout. A line that begins with `#` tells what follows, and any other line
is an input: rows, or what is none. In stdout the rows of the tree that it is stand in its place, in the order in which the
tree is gone through, or what is wrong with it. What stdout says is what
tools/model answers, which has a reader (`rows_reader.py`), trees and their rows (`tree.py`).

The second makes rows of the library of the Python that runs it, or of FOLDER: of whole files, and where rows cannot say a
file, of its statements. To these come sources of kinds of which there are few, and made trees, until each kind was seen a
thousand times. The program, which is crates/py_rows_vectors/out/py_rows_vectors, gets them all, and is to give each as it
was. The counts are of the rows of each kind. The status is 1 where a line differs.

Python 3.8 or later; the first wants 3.11.
"""
import argparse
import ast
import collections
import itertools
import json
import os
import pathlib
import platform
import random
import subprocess
import sys

sys.path.insert(0, str(pathlib.Path(__file__).resolve().parent.parent / "python"))
import hostile_cases

CRATE = pathlib.Path(__file__).resolve().parent.parent / "crates" / "py_rows_vectors"

# How often each kind is to be seen, and how many trees are made for it at least.
WANTED = 1000
MADE = 100

# Trees with more rows are cut into their statements.
MOST_ROWS = 100000

# The fields of each kind, by its sort, which is a letter: m programs, s statements, e expressions, c constants, A parameters,
# p a parameter, d one that may have a default, k keywords, i aliases, w items of a `with`, h handlers, g clauses, M cases,
# t type parameters. A field is a letter of these; or n a name, b true or false, u a level, x an integer, y bytes, and what is
# in capitals one of WORDS. Behind it stands ? where null may stand, * for an array of such, and both where null may stand in
# the array. A kind with a place begins with @.
FORMS = {
    "m": {"Module": "s*", "Interactive": "s*", "Expression": "e", "FunctionType": "e* e"},
    "s": {
        "FunctionDef": "@ n A s* e* e? t*",
        "AsyncFunctionDef": "@ n A s* e* e? t*",
        "ClassDef": "@ n e* k* s* e* t*",
        "Return": "@ e?",
        "Delete": "@ e*",
        "Assign": "@ e* e",
        "TypeAlias": "@ e t* e",
        "AugAssign": "@ e BINARY e",
        "AnnAssign": "@ e e e? b",
        "For": "@ e e s* s*",
        "AsyncFor": "@ e e s* s*",
        "While": "@ e s* s*",
        "If": "@ e s* s*",
        "With": "@ w* s*",
        "AsyncWith": "@ w* s*",
        "Match": "@ e M*",
        "Raise": "@ e? e?",
        "Try": "@ s* h* s* s*",
        "TryStar": "@ s* h* s* s*",
        "Assert": "@ e e?",
        "Import": "@ i*",
        "ImportFrom": "@ n? i* u",
        "Global": "@ n*",
        "Nonlocal": "@ n*",
        "Expr": "@ e",
        "Pass": "@",
        "Break": "@",
        "Continue": "@",
    },
    "e": {
        "BoolOp": "@ BOOLEAN e*",
        "NamedExpr": "@ e e",
        "BinOp": "@ e BINARY e",
        "UnaryOp": "@ UNARY e",
        "Lambda": "@ A e",
        "IfExp": "@ e e e",
        "Dict": "@ e?* e*",
        "Set": "@ e*",
        "ListComp": "@ e g*",
        "SetComp": "@ e g*",
        "DictComp": "@ e e g*",
        "GeneratorExp": "@ e g*",
        "Await": "@ e",
        "Yield": "@ e?",
        "YieldFrom": "@ e",
        "Compare": "@ e COMPARISON* e*",
        "Call": "@ e e* k*",
        "FormattedValue": "@ e CONVERSION e?",
        "JoinedStr": "@ e*",
        "Constant": "@ c",
        "Attribute": "@ e n",
        "Subscript": "@ e e",
        "Starred": "@ e",
        "Name": "@ n",
        "List": "@ e*",
        "Tuple": "@ e*",
        "Slice": "@ e? e? e?",
    },
    "c": {"none": "", "true": "", "false": "", "ellipsis": "", "int": "x", "str": "n", "bytes": "y", "tuple": "c*"},
    "A": {"Arguments": "d* d* p? d* p?"},
    "p": {"Arg": "@ n e?"},
    "d": {"ArgWithDefault": "p e?"},
    "k": {"Keyword": "n? e"},
    "i": {"Alias": "n n?"},
    "w": {"WithItem": "e e?"},
    "h": {"ExceptHandler": "e? n? s*"},
    "g": {"Comprehension": "e e e* b"},
    "M": {"MatchCase": "s*"},
    "t": {"TypeVar": "@ n e?", "ParamSpec": "@ n", "TypeVarTuple": "@ n"},
}

WORDS = {
    "BOOLEAN": "And Or",
    "UNARY": "Invert Not UAdd USub",
    "BINARY": "Add Sub Mult MatMult Div FloorDiv Mod Pow LShift RShift BitOr BitXor BitAnd",
    "COMPARISON": "Eq NotEq Lt LtE Gt GtE Is IsNot In NotIn",
    "CONVERSION": "None Str Ascii Repr",
}

SORTS = {kind: sort for sort, forms in FORMS.items() for kind in forms}
FIELDS = {kind: form.replace("@", "").split() for forms in FORMS.values() for kind, form in forms.items()}
PLACED = {kind for forms in FORMS.values() for kind, form in forms.items() if form.startswith("@")}

# Where a node of each sort stands that a tree is made around: the kind, and which of its fields.
HOLDERS = {
    "s": ("Module", 0), "e": ("Expr", 0), "c": ("Constant", 0), "A": ("Lambda", 0), "p": ("Arguments", 2), "d": ("Arguments", 1),
    "k": ("Call", 2), "i": ("Import", 0), "w": ("With", 0), "h": ("Try", 1), "g": ("ListComp", 1), "M": ("Match", 1), "t": ("ClassDef", 5),
}  # fmt: skip

# The kinds that end a tree, of each sort that is found everywhere.
LEAVES = {"s": ["Pass", "Break", "Continue"], "e": ["Name"], "c": ["none", "true", "false", "ellipsis", "int", "str", "bytes"]}

NAMES = [
    "a", "b", "x1", "__private", "__debug__", "a.b", "", " ", "é", "名前", "\U0001f600", '"', "\\", "/", "[", "],[", ",", "null",
    "\b\f\n\r\t", "\x00", "\x01\x1f", "\x7f\x80", "\u2028\u2029", "\ufeff", "\uffff", "\U0010ffff", "'", "\\u0041", "#", "a" * 40,
]  # fmt: skip

NUMBERS = [1, 2, 9, 10, 255, 2**16, 2**31 - 1, 2**31, 2**32 - 1]
INTEGERS = [0, 1, -1, 9, 10, 2**63, -(2**63), 2**64, 2**127 - 1, -(2**127)]


def text_of(rows):
    """Rows as a line."""
    return json.dumps(rows, separators=(",", ":"), ensure_ascii=False)


class Maker:
    """Makes trees as rows, each after those that it names, which come in the order of its fields."""

    def __init__(self, seed):
        self.random = random.Random(seed)
        self.rows = []

    def tree_with(self, kind, depth):
        """The rows of a program that has a row of the kind."""
        self.rows = []
        path = [(kind, None)]
        while SORTS[path[0][0]] != "m":
            path.insert(0, HOLDERS[SORTS[path[0][0]]])
        self.row(path, depth)
        return self.rows

    def row(self, path, depth):
        """Makes the row of the kind that the path begins with, and in the field that it names those behind. Its number."""
        kind, at = path[0]
        row = [kind]
        if kind in PLACED:
            row += self.place()
        row += [self.field(field, path[1:] if i == at else None, depth) for i, field in enumerate(FIELDS[kind])]
        self.rows.append(row)
        return len(self.rows) - 1

    def field(self, field, path, depth):
        """A value of a field, which holds the path where there is one."""
        letter, is_optional, is_array = field.rstrip("?*"), "?" in field, field.endswith("*")
        if not is_array:
            is_null = is_optional and path is None and self.random.random() < 0.5
            return None if is_null else self.entry(letter, path, depth)
        paths = [None] * self.random.choice([0, 1, 1, 2, 3] if depth > 0 else [0, 0, 1])
        if path is not None:
            paths.insert(self.random.randint(0, len(paths)), path)
        return [self.field(letter + ("?" if is_optional else ""), it, depth) for it in paths]

    def entry(self, letter, path, depth):
        """What stands for a letter: the number of a row that is made, or what is none."""
        if letter in WORDS:
            return self.random.choice(WORDS[letter].split())
        if letter not in FORMS:
            return self.plain(letter)
        if path is None:
            leaves = LEAVES.get(letter, []) if depth <= 0 else []
            path = [(self.random.choice(leaves or sorted(FORMS[letter])), None)]
        return self.row(path, depth - 1)

    def place(self):
        """A row and a column."""
        return [self.random.choice(NUMBERS), self.random.choice(NUMBERS)]

    def plain(self, letter):
        """A name, a flag, a level, an integer or bytes."""
        if letter == "n":
            return self.random.choice(NAMES)
        if letter == "b":
            return self.random.random() < 0.5
        if letter == "u":
            return self.random.choice([0, 1] + NUMBERS)
        if letter == "x":
            return str(self.random.choice(INTEGERS + [self.random.randint(-(2**127), 2**127 - 1)]))
        return bytes(self.random.randrange(256) for _ in range(self.random.randrange(5))).hex()


# Sources of all kinds that Python 3.11 has, but for f-strings, whose places differ between versions.
SOURCES = [
    ("exec", ""),
    ("exec", "@d\ndef f(a, /, b: int = 1, *c, d=2, e, **g) -> int:\n    return 1"),
    ("exec", "async def f():\n    await g()\n    async for x in y: pass\n    async with z as w: pass\n    return [a async for a in b if c]"),
    ("exec", "@d\nclass C(B, *A, k=1, **m):\n    pass"),
    ("exec", "del a, b[c]\na = b = c\na += 1\nx: int = 1\n(y): int\nraise\nraise a from b\nassert a, b\nimport a.b as c, d\nfrom . import e\nfrom ..f import g as h"),
    ("exec", "for a in b:\n    break\nelse:\n    continue\nwhile a:\n    pass\nelse:\n    b\nif a: b\nelif c: d"),
    ("exec", "with a as b, c:\n    pass\ntry:\n    a\nexcept B as c:\n    d\nexcept:\n    e\nelse:\n    f\nfinally:\n    g\ntry:\n    a\nexcept* B:\n    c\nmatch a:\n    case _:\n        b"),
    ("exec", "def f():\n    global a, b\n    def g():\n        nonlocal c"),
    ("exec", "def f():\n    yield\n    yield a\n    yield from b"),
    ("exec", "async def f():\n    async for a in b: c\n    else: d\n    async with e, g as h: i"),
    ("exec", "try: a\nexcept* B as c: d\nexcept* (E, F): g\nelse: h\nfinally: i"),
    ("exec", "match a, b:\n case _: c\n case _: d; e"),
    ("exec", "from a.b.c import *\nfrom ... import d as e, f\nimport g"),
    ("exec", "class A:\n 'doc'\n def f(self, *, k): self.x, *self.y = k"),
    ("exec", "a //= b; c **= d; e @= f; g <<= h; i >>= j; k |= l; m ^= n; o &= p; q -= r; s *= t; u /= v; w %= x"),
    ("exec", "é = '名前'\nif é: ('\\\\', '\"', '\\n', '\\x00')"),
    ("eval", "a"),
    ("eval", "a if b else lambda c, *d, e=f, **g: (h := i)"),
    ("eval", "a + b - c * d @ e / f // g % h ** i << j >> k | l ^ m & n"),
    ("eval", "a and b or not c, ~d, +e, -f"),
    ("eval", "a == b != c < d <= e > f >= g is h is not i in j not in k"),
    ("eval", "{**a, b: c, **d}, {e, *f}, [], {}, ()"),
    ("eval", "[a for b in c for d in e if f if g], {h for i in j}, {k: l for m in n}, (o async for p in q)"),
    ("eval", "a(*b, c, d=e, **f).g[h:i, ::j, ..., None, True, False]"),
    ("eval", "170141183460469231731687303715884105727, 0, b'\\x00\\xff', '', b''"),
    ("single", "pass"),
    ("single", "a; b = c"),
]

NO_PARAMETERS = ("Arguments", [], [], None, [], None)

# Trees that no source of 3.11 has, or not in each version. A tuple is a node.
TREES = [
    (
        "Expression",
        (
            "JoinedStr", 1, 1, [
                ("FormattedValue", 1, 1, ("Name", 1, 4, "a"), "Repr", ("JoinedStr", 1, 1, [("FormattedValue", 1, 1, ("Name", 1, 9, "b"), "None", None)])),
                ("Constant", 1, 1, ("str", "{}")),
                ("FormattedValue", 1, 1, ("Name", 1, 13, "c"), "Ascii", None),
                ("FormattedValue", 1, 1, ("Name", 1, 16, "d"), "Str", None),
            ],
        ),
    ),
    (
        "Module",
        [
            (
                "TypeAlias", 1, 1, ("Name", 1, 6, "A"),
                [("TypeVar", 1, 10, "T", ("Name", 1, 13, "b")), ("ParamSpec", 1, 16, "P"), ("TypeVarTuple", 1, 21, "U")],
                ("Name", 1, 27, "c"),
            ),
            ("FunctionDef", 2, 1, "f", NO_PARAMETERS, [("Pass", 2, 12)], [], None, [("TypeVar", 2, 7, "T", None)]),
            ("AsyncFunctionDef", 3, 1, "f", NO_PARAMETERS, [], [], None, [("TypeVarTuple", 3, 13, "T")]),
            ("ClassDef", 4, 1, "C", [], [], [("Pass", 4, 13)], [], [("ParamSpec", 4, 9, "P")]),
        ],
    ),
    ("FunctionType", [("Name", 1, 2, "a")], ("Name", 1, 7, "b")),
    ("FunctionType", [], ("Name", 1, 7, "b")),
    ("Expression", ("Constant", 1, 1, ("tuple", [("int", "-12"), ("tuple", []), ("tuple", [("none",), ("str", "a"), ("bytes", "00ff")])]))),
    ("Interactive", []),
]  # fmt: skip


def numbers_in(row):
    """The places of the fields of a row that hold numbers of rows: in which list, and where there."""
    first = 3 if row[0] in PLACED else 1
    for at, field in enumerate(FIELDS[row[0]], first):
        if field.rstrip("?*") in FORMS:
            within, places = (row[at], range(len(row[at]))) if field.endswith("*") else (row, [at])
            yield from ((within, place) for place in places if within[place] is not None)


def shuffled(rows, seed):
    """The same tree in another order, in which each row still stands after those that it names."""
    rows = json.loads(text_of(rows))
    named = [[within[place] for within, place in numbers_in(row)] for row in rows]
    chance, new, left = random.Random(seed), {}, list(range(len(rows)))
    while left:
        at = chance.choice([it for it in left if all(i in new for i in named[it])])
        left.remove(at)
        new[at] = len(new)
    for row in rows:
        for within, place in list(numbers_in(row)):
            within[place] = new[within[place]]
    return [rows[at] for at in new]


def set_of_sets(count):
    """A name in sets, which nests `count + 3` deep."""
    rows = [["Name", 1, 1, "a"], *(["Set", 1, 1, [i]] for i in range(count))]
    return [*rows, ["Expr", 1, 1, count], ["Module", [count + 1]]]


def with_of_names(count):
    """A `with` of so many items, which stand first."""
    items = (row for i in range(count) for row in (["Name", 1, 1, "a"], ["WithItem", 2 * i, None]))
    rows = [*items, ["Pass", 1, 1], ["With", 1, 1, list(range(1, 2 * count, 2)), [2 * count]]]
    return [*rows, ["Module", [2 * count + 1]]]


# What is no rows, and what is told of it. Where two things are wrong, the first of docs/ROWS.md is.
FAULTS = [
    ("", "not JSON"),
    ("   ", "not JSON"),
    (b"\xff", "not JSON"),
    (b'[["Name",1,1,"\xc3"],["Expression",0]]', "not JSON"),
    (b'[["Name",1,1,"\xed\xa0\x80"],["Expression",0]]', "not JSON"),
    (b'[["Name",1,1,"\xc0\x80"],["Expression",0]]', "not JSON"),
    ("\ufeff[[\"Module\",[]]]", "not JSON"),
    ('[["Module",[]]', "not JSON"),
    ('[["Module",[]],]', "not JSON"),
    ('[["Module",[]]] []', "not JSON"),
    ('[["Module",[],]]', "not JSON"),
    ("[['Module',[]]]", "not JSON"),
    ('[["Name",1,1,"a\tb"],["Expression",0]]', "not JSON"),
    ('[["Name",1,1,"\\x"],["Expression",0]]', "not JSON"),
    ('[["Name",1,1,"\\u12"],["Expression",0]]', "not JSON"),
    ('[["Name",1,1,"\\ud800"],["Expression",0]]', "not JSON"),
    ('[["Name",1,1,"\\udc00\\ud800"],["Expression",0]]', "not JSON"),
    ('[["Name",01,1,"a"],["Expression",0]]', "not JSON"),
    ('[["Name",+1,1,"a"],["Expression",0]]', "not JSON"),
    ('[["Name",NaN,1,"a"],["Expression",0]]', "not JSON"),
    ('[["Module",[]]]//', "not JSON"),
    ("[" * 128 + "]" * 128, "not JSON"),
    ("{}", "not rows"),
    ('{"rows":[["Module",[]]]}', "not rows"),
    ("[]", "not rows"),
    ("null", "not rows"),
    ("0", "not rows"),
    ('"Module"', "not rows"),
    ("[" * 127 + "]" * 127, "row 0: wrong form"),
    ("[null]", "row 0: wrong form"),
    ("[[]]", "row 0: wrong form"),
    ("[{}]", "row 0: wrong form"),
    ('["Module"]', "row 0: wrong form"),
    ("[[1]]", "row 0: wrong form"),
    ('[[["Module"],[]]]', "row 0: wrong form"),
    ('[["module",[]]]', "row 0: wrong form"),
    ('[["Module ",[]]]', "row 0: wrong form"),
    ('[["Arguments"]]', "row 0: wrong form"),
    ('[["Name",0,1,"f"],["Module",[]]]', "row 0: wrong form"),
    ('[["Name",0,1,"a"],["Expression",0]]', "row 0: wrong form"),
    ('[["Name",1,-1,"a"],["Expression",0]]', "row 0: wrong form"),
    ('[["Name",1.0,1,"a"],["Expression",0]]', "row 0: wrong form"),
    ('[["Name",1e0,1,"a"],["Expression",0]]', "row 0: wrong form"),
    ('[["Name","1",1,"a"],["Expression",0]]', "row 0: wrong form"),
    ('[["Name",1,4294967296,"a"],["Expression",0]]', "row 0: wrong form"),
    ('[["Name",1,18446744073709551617,"a"],["Expression",0]]', "row 0: wrong form"),
    ('[["int","+1"],["Module",[]]]', "row 0: wrong form"),
    ('[["int",""],["Constant",1,1,0],["Expression",1]]', "row 0: wrong form"),
    ('[["int","-"],["Constant",1,1,0],["Expression",1]]', "row 0: wrong form"),
    ('[["int","--1"],["Constant",1,1,0],["Expression",1]]', "row 0: wrong form"),
    ('[["int"," 1"],["Constant",1,1,0],["Expression",1]]', "row 0: wrong form"),
    ('[["int","1_0"],["Constant",1,1,0],["Expression",1]]', "row 0: wrong form"),
    ('[["int","0x1"],["Constant",1,1,0],["Expression",1]]', "row 0: wrong form"),
    ('[["int","\u0661"],["Constant",1,1,0],["Expression",1]]', "row 0: wrong form"),
    ('[["int",1],["Constant",1,1,0],["Expression",1]]', "row 0: wrong form"),
    ('[["bytes","0A"],["Module",[]]]', "row 0: wrong form"),
    ('[["bytes","0"],["Module",[]]]', "row 0: wrong form"),
    ('[["bytes","0g"],["Module",[]]]', "row 0: wrong form"),
    ('[["Name",1,1,"a"],["FormattedValue",1,1,0,"repr",null]]', "row 1: wrong form"),
    ('[["Name",1,1,"f"],["Compare",1,1,0,["lt"],[0]]]', "row 1: wrong form"),
    ('[["Name",1,1,"f"],["Keyword",1,0]]', "row 1: wrong form"),
    ('[["Name",1,1,"a"],["Name",1,4,"b"],["AnnAssign",1,1,0,1,null,1]]', "row 2: wrong form"),
    ('[["Pass",1,1,1],["Module",[0]]]', "row 0: wrong form"),
    ('[["Pass",1],["Module",[0]]]', "row 0: wrong form"),
    ('[["Pass",1,1],["Module",[0.0]]]', "row 1: wrong form"),
    ('[["Pass",1,1],["Module",[-0]]]', "row 1: wrong form"),
    ('[["Pass",1,1],["Module",[18446744073709551616]]]', "row 1: wrong form"),
    ('[["Arguments",[],[],null,[]],["Name",1,1,"a"],["Lambda",1,1,0,1],["Expression",2]]', "row 0: wrong form"),
    ('[["Alias","a",null],["ImportFrom",1,1,null,[0],4294967296],["Module",[1]]]', "row 1: wrong form"),
    ('[["int","170141183460469231731687303715884105728"]]', "row 0: integer too wide"),
    ('[["int","-170141183460469231731687303715884105729"]]', "row 0: integer too wide"),
    ('[["int","%s"]]' % ("9" * 400), "row 0: integer too wide"),
    ('[["int","170141183460469231731687303715884105728"],["Constant",1,1,0],["Expression",1]]', "row 0: integer too wide"),
    ('[["Expr",1,1,0],["Module",[]]]', "row 0: later row"),
    ('[["Pass",1,1],["Module",[2]]]', "row 1: later row"),
    ('[["Pass",1,1],["Module",[18446744073709551615]]]', "row 1: later row"),
    ('[["int","1"],["Expr",1,1,0],["Module",[1]]]', "row 1: wrong kind"),
    ('[["Name",1,1,"f"],["Name",1,1,"k"],["Call",1,1,0,[],[1]]]', "row 2: wrong kind"),
    ('[["Name",1,1,"f"],["Keyword",null,0],["Expr",1,1,1]]', "row 2: wrong kind"),
    ('[["Pass",1,1],["Expression",0]]', "row 1: wrong kind"),
    ('[["Arg",1,1,"a",null],["Arguments",[0],[],null,[],null]]', "row 1: wrong kind"),
    ('[["Module",[]],["Module",[0]]]', "row 1: wrong kind"),
    ('[["Name",1,1,"f"],["BinOp",1,1,0,"Add",0]]', "row 1: named twice"),
    ('[["Pass",1,1],["Module",[0,0]]]', "row 1: named twice"),
    ('[["Name",1,1,"a"],["Dict",1,1,[null,0],[0]]]', "row 1: named twice"),
    ('[["Name",1,1,"a"],["Expr",1,1,0],["Expr",2,1,0],["Module",[1,2]]]', "row 2: named twice"),
    ('[["Module",[]],["Name",1,1,"f"]]', "no module"),
    ('[["Pass",1,1]]', "no module"),
    ('[["Pass",1,1],["Name",1,1,"a"]]', "no module"),
    ('[["Module",[]],["Module",[]]]', "row 0: not named"),
    ('[["Name",1,1,"f"],["Name",1,1,"g"],["Expr",1,1,0],["Module",[2]]]', "row 1: not named"),
    ('[["Name",1,1,"f"],["Name",1,1,"g"],["Module",[]]]', "row 0: not named"),
    ('[["Name",1,1,"f"],["Name",1,1,"g"],["Module",[0,2]]]', "row 2: later row"),
    ('[["Name",1,1,"f"],["Tuple",1,1,[0,0]],["Pass",1,1],["Expr",1,1,2]]', "row 1: named twice"),
]


def further_faults():
    """Those inputs of hostile.py that fit in a line and do not stand here yet."""
    known = {it.encode("utf-8") if isinstance(it, str) else it for it, _ in FAULTS}
    for data, text in hostile_cases.INPUTS:
        if data not in known and b"\n" not in data and len(data) <= 1000:
            yield data, text


# What is rows in another form than they are written in, and the rows.
OTHER_FORMS = [
    (' [ [ "Name" , 1 , 1 , "f" ] ,\t[ "Expression" , 0 ] ]\r', '[["Name",1,1,"f"],["Expression",0]]'),
    ('[["N\\u0061me",1,1,"\\u00e9\\/\\ud83d\\ude00\\u0000"],["Expression",0]]', '[["Name",1,1,"é/\U0001f600\\u0000"],["Expression",0]]'),
    ('[["int","-0012"],["tuple",[]],["tuple",[0,1]],["Constant",1,1,2],["Expression",3]]', '[["int","-12"],["tuple",[]],["tuple",[0,1]],["Constant",1,1,2],["Expression",3]]'),
    ('[["int","-0"],["Constant",1,1,0],["Expression",1]]', '[["int","0"],["Constant",1,1,0],["Expression",1]]'),
    ('[["int","%s1"],["Constant",1,1,0],["Expression",1]]' % ("0" * 60), '[["int","1"],["Constant",1,1,0],["Expression",1]]'),
]

# A value that a field of a letter does not take.
WRONG = {"n": 1, "b": 1, "u": 2**32, "x": "+1", "y": "0A"}


class Filler(Maker):
    """Makes short trees in which each array has one entry and nothing is missing."""

    def field(self, field, path, depth):
        value = self.entry(field.rstrip("?*"), path, depth)
        return [value] if field.endswith("*") else value

    def place(self):
        return [1, 1]

    def plain(self, letter):
        return {"n": "a", "b": True, "u": 0, "x": "1", "y": "00"}[letter]


def wrong_values(field, number):
    """Values that the field of the row of this number does not take."""
    letter = field.rstrip("?*")
    values = [WORDS[letter].split()[0].lower()] if letter in WORDS else [WRONG[letter]] if letter in WRONG else ["0", number]
    if "?" not in field:
        values.append(None)
    return [0, *([value] for value in values)] if field.endswith("*") else values


def wrong_rows(kind):
    """Rows that end in one of the kind, which has one thing wrong."""
    filler = Filler(kind)
    filler.row([(kind, None)], 0)
    *before, row = filler.rows
    first = len(row) - len(FIELDS[kind])
    yield [*before, row + [None]]
    if len(row) > 1:
        yield [*before, row[:-1]]
    if kind in PLACED:
        yield [*before, [row[0], 0, *row[2:]]]
        yield [*before, [*row[:2], 2**32, *row[3:]]]
    for at, field in enumerate(FIELDS[kind], first):
        letter = field.rstrip("?*")
        for value in wrong_values(field, len(before)):
            yield [*before, row[:at] + [value] + row[at + 1 :]]
        if letter in FORMS:
            other = ["Name", 1, 1, "a"] if letter == "s" else ["Pass", 1, 1]
            value = [len(before)] if field.endswith("*") else len(before)
            yield [*before, other, row[:at] + [value] + row[at + 1 :]]
        if letter in FORMS and field.endswith("*"):
            yield [*before, row[:at] + [row[at] * 2] + row[at + 1 :]]


def cases(rows_text):
    """Each a line that says what comes, or an input and what is to stand in its place, which is itself if None."""
    yield "# sources, with the mode in which they are parsed", None
    for mode, source in SOURCES:
        yield "# %s %s" % (mode, source.replace("\\", "\\\\").replace("\n", "\\n")), None
        yield rows_text(source, mode), None
    yield "# trees by hand", None
    for tree in TREES:
        yield text_of(hostile_cases.rows_of(tree)), None
    yield "# a made tree for each kind", None
    maker = Maker(1)
    for kind in SORTS:
        yield text_of(maker.tree_with(kind, 1)), None
    yield "# rows in another order, and in another form", None
    for number, (mode, source) in enumerate(SOURCES[::2]):
        rows = json.loads(rows_text(source, mode))
        yield text_of(shuffled(rows, number)), text_of(rows)
    yield from OTHER_FORMS
    yield "# the deepest rows, and such that are one deeper", None
    for deep, row in (set_of_sets, 1023), (with_of_names, 2044):
        yield text_of(deep(1020)), None
        yield text_of(deep(1021)), "row %d: too deep" % row
    yield "# what is no rows", None
    yield from FAULTS
    yield from further_faults()


def write_cases():
    """Writes the input of the crate's program, and what it is to write, which is what the model answers."""
    sys.path.insert(0, str(pathlib.Path(__file__).resolve().parent / "model"))
    from py2rows import rows_text
    from rows_reader import RowsError, read_rows
    from tree import rows_of

    def answer(data):
        read = read_rows(data)
        return read.text() if isinstance(read, RowsError) else text_of(rows_of(read))

    given, wanted = [], []
    for line, want in cases(rows_text):
        data = line if isinstance(line, bytes) else line.encode("utf-8")
        told = line if data.startswith(b"#") else answer(data)
        assert told == (line if want is None else want), (line, told)
        given.append(data + b"\n")
        wanted.append(told.encode("utf-8") + b"\n")
    for rows in itertools.chain.from_iterable(map(wrong_rows, SORTS)):
        line = text_of(rows)
        told = answer(line.encode("utf-8"))
        assert told.startswith("row %d: " % (len(rows) - 1)), (line, told)
        given.append(line.encode("utf-8") + b"\n")
        wanted.append(told.encode("utf-8") + b"\n")
    for name, lines in ("stdin", given), ("stdout", wanted):
        (CRATE / name).write_bytes(b"".join(lines))
    print("%d lines, %d bytes" % (len(given), sum(map(len, given + wanted))))


# Sources of kinds of which a library has few or none, with the mode in which they are parsed.
FEW = {
    "Interactive": ("single", "a%d"),
    "Expression": ("eval", "a%d"),
    "FunctionType": ("func_type", "(a, b%d) -> c"),
    "TypeAlias": ("exec", "type A%d[T: b, *U, **P] = c"),
    "TypeVar": ("exec", "def f%d[T, U: (a, b)](): pass"),
    "ParamSpec": ("exec", "class A%d[**P]: pass"),
    "TypeVarTuple": ("exec", "class A%d[*T]: pass"),
    "AsyncFunctionDef": ("exec", "async def f%d(): pass"),
    "AsyncFor": ("exec", "async def f():\n async for a in b%d: c\n else: d"),
    "AsyncWith": ("exec", "async def f():\n async with a%d as b, c: d"),
    "Await": ("exec", "async def f():\n await a%d"),
    "TryStar": ("exec", "try: a%d\nexcept* B as c: d\nexcept* E: f\nelse: g\nfinally: h"),
    "Match": ("exec", "match a%d:\n case _: b"),
    "MatchCase": ("exec", "match a%d:\n case _: b\n case _: c"),
    "SetComp": ("eval", "{a for b%d in c}"),
    "DictComp": ("eval", "{a: b for c%d in d}"),
    "YieldFrom": ("exec", "def f():\n yield from a%d"),
    "NamedExpr": ("eval", "(a%d := b)"),
    "Nonlocal": ("exec", "def f(a):\n def g():\n  nonlocal a, b%d"),
    "ellipsis": ("eval", "a%d[...]"),
}


def nests(rows):
    """How deep rows nest. A `With` of several items nests as many levels."""
    depths = []
    for row in rows:
        levels = max(1, len(row[3])) if row[0] == "With" else 1
        depths.append(levels + max((depths[within[place]] for within, place in numbers_in(row)), default=0))
    return max(depths)


def pieces_of(body, source):
    """The rows of statements: of all together, else of each, and of those that stand in one that rows cannot say."""
    from pyc import rows

    try:
        whole = rows.rows_of(ast.Module(body, []), source)
        if len(whole) <= MOST_ROWS and nests(whole) < 2**10:
            yield whole
            return
    except rows.Fault:
        pass
    if len(body) > 1:
        for statement in body:
            yield from pieces_of([statement], source)
        return
    for name in "body", "orelse", "finalbody":
        within = [it for statement in body for it in getattr(statement, name, [])]
        if within:
            yield from pieces_of(within, source)


def library_rows(folder):
    """The rows of the files of a folder, without installed packages."""
    from pyc import rows
    import stdlib

    for file in stdlib.library_files(folder):
        try:
            text = rows.text_of(file.read_bytes())
            tree = rows.tree_of(text, "exec")
        except rows.Fault:
            continue
        source = rows.Source(text)
        if sys.version_info < (3, 9):
            rows.place_slices(tree, source)
        yield from pieces_of(tree.body, source)


def few_rows(counts):
    """The rows of sources of the kinds that were seen too seldom."""
    from pyc import rows

    for kind, (mode, source) in FEW.items():
        for number in range(WANTED):
            if counts[kind] >= WANTED:
                break
            try:
                yield json.loads(rows.rows_text((source % number).encode("utf-8"), mode))
            except rows.Fault:
                break


def made_rows(counts):
    """Made trees, some for each kind, and more for those that were seen too seldom."""
    maker = Maker(2)
    for kind in SORTS:
        for number in itertools.count():
            if number >= MADE and counts[kind] >= WANTED:
                break
            yield maker.tree_with(kind, number % 4)


def run_library(program, folder):
    """Runs the program over the library and the rest, and tells how often each kind was seen. Whether no line differs."""
    groups = {"library": collections.Counter(), "sources": collections.Counter(), "made": collections.Counter()}
    counts = collections.Counter()
    lines = []
    for name, trees in ("library", library_rows(folder)), ("sources", few_rows(counts)), ("made", made_rows(counts)):
        for rows in trees:
            kinds = collections.Counter(row[0] for row in rows)
            groups[name].update(kinds)
            counts.update(kinds)
            lines.append(text_of(rows))
    data = "".join(line + "\n" for line in lines).encode("utf-8")
    ended = subprocess.run([str(program)], input=data, stdout=subprocess.PIPE)
    answers = ended.stdout.decode("utf-8").split("\n")[:-1]
    differing = [pair for pair in itertools.zip_longest(lines, answers) if pair[0] != pair[1]]
    print("%d trees, %d rows, by Python %s; status %d" % (len(lines), sum(counts.values()), platform.python_version(), ended.returncode))
    print("%-16s %9s %9s %9s %9s" % ("kind", *groups, "all"))
    for kind in SORTS:
        print("%-16s %9d %9d %9d %9d" % (kind, *(it[kind] for it in groups.values()), counts[kind]))
    for line, told in differing[:3]:
        print("differs: %.200s\n     is: %.200s" % (line, told))
    print("%d differ" % len(differing))
    return not differing and ended.returncode == 0


def main():
    parser = argparse.ArgumentParser(prog="read_back.py", description=__doc__.split("\n")[0])
    parser.add_argument("--library", action="store_true", help="run the program over a library, and write no cases")
    parser.add_argument("--program", type=pathlib.Path, default=CRATE / "out" / "py_rows_vectors", help="the program that reads rows and writes them again (%(default)s)")
    parser.add_argument("folder", metavar="FOLDER", nargs="?", type=pathlib.Path, help="the library (that of this Python)")
    words = parser.parse_args()
    if words.library:
        program = words.program.resolve()
        if not os.access(program, os.X_OK):
            sys.exit("read_back.py: there is no program %s: rt run in its crate builds it" % program)
        sys.exit(0 if run_library(program, words.folder or pathlib.Path(os.__file__).parent) else 1)
    if words.folder is not None:
        parser.error("a FOLDER goes with --library")
    write_cases()


if __name__ == "__main__":
    main()
