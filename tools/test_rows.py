#!/usr/bin/env python3
"""Tests of `pyc.rows`: what it writes for each kind of node, worked out by hand, and what it refuses."""
import json
import pathlib
import subprocess
import sys
import unittest

ROOT = pathlib.Path(__file__).resolve().parent.parent
sys.path.insert(0, str(ROOT / "python"))
from pyc import rows

VERSION = sys.version_info[:2]

# The form of each row: the group of its kind, with a @ where it has a place, the words of its kinds, and its fields.
# A field is the group of the rows that it names, or n (a name), o (an operator), b (true or false), u (a number) or
# x (a text); ? allows null, * is a list. Behind a word stands the first Python whose parser makes the kind.
FORMS = """
M Module Interactive: s*
M Expression: e
M FunctionType: e* e
s@ FunctionDef AsyncFunctionDef: n A s* e* e? t*
s@ ClassDef: n e* k* s* e* t*
s@ Return: e?
s@ Delete: e*
s@ Assign: e* e
s@ TypeAlias/3.12: e t* e
s@ AugAssign: e o e
s@ AnnAssign: e e e? b
s@ For AsyncFor: e e s* s*
s@ While If: e s* s*
s@ With AsyncWith: w* s*
s@ Match/3.10: e m*
s@ Raise: e? e?
s@ Try TryStar/3.11: s* h* s* s*
s@ Assert: e e?
s@ Import: a*
s@ ImportFrom: n? a* u
s@ Global Nonlocal: n*
s@ Expr: e
s@ Pass Break Continue:
e@ BoolOp: o e*
e@ NamedExpr: e e
e@ BinOp: e o e
e@ UnaryOp: o e
e@ Lambda: A e
e@ IfExp: e e e
e@ Dict: e?* e*
e@ Set List Tuple: e*
e@ ListComp SetComp GeneratorExp: e g*
e@ DictComp: e e g*
e@ Await YieldFrom Starred: e
e@ Yield: e?
e@ Compare: e o* e*
e@ Call: e e* k*
e@ FormattedValue: e o e?
e@ JoinedStr: e*
e@ Constant: c
e@ Attribute: e n
e@ Subscript: e e
e@ Name: n
e@ Slice: e? e? e?
A Arguments: d* d* p? d* p?
d ArgWithDefault: p e?
p@ Arg: n e?
k Keyword: n? e
a Alias: n n?
w WithItem: e e?
h ExceptHandler: e? n? s*
g Comprehension: e e e* b
m MatchCase/3.10: s*
t@ TypeVar/3.12: n e?
t@ ParamSpec/3.12 TypeVarTuple/3.12: n
c none true false ellipsis:
c int str bytes: x
"""

PLAIN = {"n": str, "o": str, "b": bool, "u": int, "x": str}

# No field: Arguments without parameters.
NO_ARGUMENTS = ["Arguments", [], [], None, [], None]

# The first Python that has them, the mode, the source, and its rows.
EXAMPLES = [
    ("3.8", "exec", "", [["Module", []]]),
    ("3.8", "exec", "pass", [["Pass", 1, 1], ["Module", [0]]]),
    ("3.8", "single", "a\n", [["Name", 1, 1, "a"], ["Expr", 1, 1, 0], ["Interactive", [1]]]),
    ("3.8", "eval", "(a)", [["Name", 1, 2, "a"], ["Expression", 0]]),
    ("3.8", "func_type", "(a, b) -> c", [["Name", 1, 2, "a"], ["Name", 1, 5, "b"], ["Name", 1, 11, "c"], ["FunctionType", [0, 1], 2]]),
    # Statements.
    (
        "3.8",
        "exec",
        "@d\ndef f(a, /, b: t = 1, *c, e, g=2, **h) -> r: return",
        [
            ["Arg", 2, 7, "a", None],
            ["ArgWithDefault", 0, None],
            ["Name", 2, 16, "t"],
            ["Arg", 2, 13, "b", 2],
            ["int", "1"],
            ["Constant", 2, 20, 4],
            ["ArgWithDefault", 3, 5],
            ["Arg", 2, 24, "c", None],
            ["Arg", 2, 27, "e", None],
            ["ArgWithDefault", 8, None],
            ["Arg", 2, 30, "g", None],
            ["int", "2"],
            ["Constant", 2, 32, 11],
            ["ArgWithDefault", 10, 12],
            ["Arg", 2, 37, "h", None],
            ["Arguments", [1], [6], 7, [9, 13], 14],
            ["Return", 2, 46, None],
            ["Name", 1, 2, "d"],
            ["Name", 2, 43, "r"],
            ["FunctionDef", 2, 1, "f", 15, [16], [17], 18, []],
            ["Module", [19]],
        ],
    ),
    (
        "3.8",
        "exec",
        "def f(a=1, /, b=2): pass",
        [
            ["Arg", 1, 7, "a", None],
            ["int", "1"],
            ["Constant", 1, 9, 1],
            ["ArgWithDefault", 0, 2],
            ["Arg", 1, 15, "b", None],
            ["int", "2"],
            ["Constant", 1, 17, 5],
            ["ArgWithDefault", 4, 6],
            ["Arguments", [3], [7], None, [], None],
            ["Pass", 1, 21],
            ["FunctionDef", 1, 1, "f", 8, [9], [], None, []],
            ["Module", [10]],
        ],
    ),
    (
        "3.8",
        "exec",
        "async def f():\n async for a in b: await c\n async with d as e, g: pass",
        [
            NO_ARGUMENTS,
            ["Name", 2, 12, "a"],
            ["Name", 2, 17, "b"],
            ["Name", 2, 26, "c"],
            ["Await", 2, 20, 3],
            ["Expr", 2, 20, 4],
            ["AsyncFor", 2, 2, 1, 2, [5], []],
            ["Name", 3, 13, "d"],
            ["Name", 3, 18, "e"],
            ["WithItem", 7, 8],
            ["Name", 3, 21, "g"],
            ["WithItem", 10, None],
            ["Pass", 3, 24],
            ["AsyncWith", 3, 2, [9, 11], [12]],
            ["AsyncFunctionDef", 1, 1, "f", 0, [6, 13], [], None, []],
            ["Module", [14]],
        ],
    ),
    (
        "3.8",
        "exec",
        "@d\nclass A(b, m=c, **e): pass",
        [
            ["Name", 2, 9, "b"],
            ["Name", 2, 14, "c"],
            ["Keyword", "m", 1],
            ["Name", 2, 19, "e"],
            ["Keyword", None, 3],
            ["Pass", 2, 23],
            ["Name", 1, 2, "d"],
            ["ClassDef", 2, 1, "A", [0], [2, 4], [5], [6], []],
            ["Module", [7]],
        ],
    ),
    ("3.8", "exec", "del a, b", [["Name", 1, 5, "a"], ["Name", 1, 8, "b"], ["Delete", 1, 1, [0, 1]], ["Module", [2]]]),
    (
        "3.8",
        "exec",
        "a = *b, c = d",
        [
            ["Name", 1, 1, "a"],
            ["Name", 1, 6, "b"],
            ["Starred", 1, 5, 1],
            ["Name", 1, 9, "c"],
            ["Tuple", 1, 5, [2, 3]],
            ["Name", 1, 13, "d"],
            ["Assign", 1, 1, [0, 4], 5],
            ["Module", [6]],
        ],
    ),
    ("3.8", "exec", "a @= b", [["Name", 1, 1, "a"], ["Name", 1, 6, "b"], ["AugAssign", 1, 1, 0, "MatMult", 1], ["Module", [2]]]),
    (
        "3.8",
        "exec",
        "a: b = c\n(a): b",
        [
            ["Name", 1, 1, "a"],
            ["Name", 1, 4, "b"],
            ["Name", 1, 8, "c"],
            ["AnnAssign", 1, 1, 0, 1, 2, True],
            ["Name", 2, 2, "a"],
            ["Name", 2, 6, "b"],
            ["AnnAssign", 2, 1, 4, 5, None, False],
            ["Module", [3, 6]],
        ],
    ),
    (
        "3.8",
        "exec",
        "for a in b: break\nelse: pass",
        [["Name", 1, 5, "a"], ["Name", 1, 10, "b"], ["Break", 1, 13], ["Pass", 2, 7], ["For", 1, 1, 0, 1, [2], [3]], ["Module", [4]]],
    ),
    (
        "3.8",
        "exec",
        "while a: continue\nelse: pass",
        [["Name", 1, 7, "a"], ["Continue", 1, 10], ["Pass", 2, 7], ["While", 1, 1, 0, [1], [2]], ["Module", [3]]],
    ),
    (
        "3.8",
        "exec",
        "if a: pass\nelif b: pass",
        [
            ["Name", 1, 4, "a"],
            ["Pass", 1, 7],
            ["Name", 2, 6, "b"],
            ["Pass", 2, 9],
            ["If", 2, 1, 2, [3], []],
            ["If", 1, 1, 0, [1], [4]],
            ["Module", [5]],
        ],
    ),
    (
        "3.8",
        "exec",
        "with a as b, c: pass",
        [
            ["Name", 1, 6, "a"],
            ["Name", 1, 11, "b"],
            ["WithItem", 0, 1],
            ["Name", 1, 14, "c"],
            ["WithItem", 3, None],
            ["Pass", 1, 17],
            ["With", 1, 1, [2, 4], [5]],
            ["Module", [6]],
        ],
    ),
    (
        "3.10",
        "exec",
        "match a:\n case _: pass",
        [["Name", 1, 7, "a"], ["Pass", 2, 10], ["MatchCase", [1]], ["Match", 1, 1, 0, [2]], ["Module", [3]]],
    ),
    (
        "3.8",
        "exec",
        "raise\nraise a from b",
        [["Raise", 1, 1, None, None], ["Name", 2, 7, "a"], ["Name", 2, 14, "b"], ["Raise", 2, 1, 1, 2], ["Module", [0, 3]]],
    ),
    (
        "3.8",
        "exec",
        "try: pass\nexcept a as b: pass\nexcept: pass\nelse: pass\nfinally: pass",
        [
            ["Pass", 1, 6],
            ["Name", 2, 8, "a"],
            ["Pass", 2, 16],
            ["ExceptHandler", 1, "b", [2]],
            ["Pass", 3, 9],
            ["ExceptHandler", None, None, [4]],
            ["Pass", 4, 7],
            ["Pass", 5, 10],
            ["Try", 1, 1, [0], [3, 5], [6], [7]],
            ["Module", [8]],
        ],
    ),
    (
        "3.11",
        "exec",
        "try: pass\nexcept* a: pass",
        [["Pass", 1, 6], ["Name", 2, 9, "a"], ["Pass", 2, 12], ["ExceptHandler", 1, None, [2]], ["TryStar", 1, 1, [0], [3], [], []], ["Module", [4]]],
    ),
    (
        "3.8",
        "exec",
        "assert a\nassert a, b",
        [
            ["Name", 1, 8, "a"],
            ["Assert", 1, 1, 0, None],
            ["Name", 2, 8, "a"],
            ["Name", 2, 11, "b"],
            ["Assert", 2, 1, 2, 3],
            ["Module", [1, 4]],
        ],
    ),
    ("3.8", "exec", "import a.b, c as d", [["Alias", "a.b", None], ["Alias", "c", "d"], ["Import", 1, 1, [0, 1]], ["Module", [2]]]),
    (
        "3.8",
        "exec",
        "from a.b import c\nfrom .. import *",
        [
            ["Alias", "c", None],
            ["ImportFrom", 1, 1, "a.b", [0], 0],
            ["Alias", "*", None],
            ["ImportFrom", 2, 1, None, [2], 2],
            ["Module", [1, 3]],
        ],
    ),
    (
        "3.8",
        "exec",
        "def f():\n global a, b\n nonlocal c",
        [
            NO_ARGUMENTS,
            ["Global", 2, 2, ["a", "b"]],
            ["Nonlocal", 3, 2, ["c"]],
            ["FunctionDef", 1, 1, "f", 0, [1, 2], [], None, []],
            ["Module", [3]],
        ],
    ),
    (
        "3.12",
        "exec",
        "type A[T: b, *U, **V] = c",
        [
            ["Name", 1, 6, "A"],
            ["Name", 1, 11, "b"],
            ["TypeVar", 1, 8, "T", 1],
            ["TypeVarTuple", 1, 14, "U"],
            ["ParamSpec", 1, 18, "V"],
            ["Name", 1, 25, "c"],
            ["TypeAlias", 1, 1, 0, [2, 3, 4], 5],
            ["Module", [6]],
        ],
    ),
    (
        "3.12",
        "exec",
        "class A[T]: pass\ndef f[T](): pass",
        [
            ["Pass", 1, 13],
            ["TypeVar", 1, 9, "T", None],
            ["ClassDef", 1, 1, "A", [], [], [0], [], [1]],
            NO_ARGUMENTS,
            ["Pass", 2, 13],
            ["TypeVar", 2, 7, "T", None],
            ["FunctionDef", 2, 1, "f", 3, [4], [], None, [5]],
            ["Module", [2, 6]],
        ],
    ),
    # Expressions.
    ("3.8", "eval", "a or b", [["Name", 1, 1, "a"], ["Name", 1, 6, "b"], ["BoolOp", 1, 1, "Or", [0, 1]], ["Expression", 2]]),
    ("3.8", "eval", "(a := b)", [["Name", 1, 2, "a"], ["Name", 1, 7, "b"], ["NamedExpr", 1, 2, 0, 1], ["Expression", 2]]),
    ("3.8", "eval", "-a", [["Name", 1, 2, "a"], ["UnaryOp", 1, 1, "USub", 0], ["Expression", 1]]),
    (
        "3.8",
        "eval",
        "lambda a: b",
        [
            ["Arg", 1, 8, "a", None],
            ["ArgWithDefault", 0, None],
            ["Arguments", [], [1], None, [], None],
            ["Name", 1, 11, "b"],
            ["Lambda", 1, 1, 2, 3],
            ["Expression", 4],
        ],
    ),
    ("3.8", "eval", "a if b else c", [["Name", 1, 6, "b"], ["Name", 1, 1, "a"], ["Name", 1, 13, "c"], ["IfExp", 1, 1, 0, 1, 2], ["Expression", 3]]),
    (
        "3.8",
        "eval",
        "{a: b, **c}",
        [["Name", 1, 2, "a"], ["Name", 1, 5, "b"], ["Name", 1, 10, "c"], ["Dict", 1, 1, [0, None], [1, 2]], ["Expression", 3]],
    ),
    ("3.8", "eval", "{a}", [["Name", 1, 2, "a"], ["Set", 1, 1, [0]], ["Expression", 1]]),
    ("3.8", "eval", "[*a]", [["Name", 1, 3, "a"], ["Starred", 1, 2, 0], ["List", 1, 1, [1]], ["Expression", 2]]),
    ("3.8", "eval", "()", [["Tuple", 1, 1, []], ["Expression", 0]]),
    (
        "3.8",
        "eval",
        "[a for b in c if d]",
        [
            ["Name", 1, 2, "a"],
            ["Name", 1, 8, "b"],
            ["Name", 1, 13, "c"],
            ["Name", 1, 18, "d"],
            ["Comprehension", 1, 2, [3], False],
            ["ListComp", 1, 1, 0, [4]],
            ["Expression", 5],
        ],
    ),
    (
        "3.8",
        "eval",
        "{a async for b in c}",
        [
            ["Name", 1, 2, "a"],
            ["Name", 1, 14, "b"],
            ["Name", 1, 19, "c"],
            ["Comprehension", 1, 2, [], True],
            ["SetComp", 1, 1, 0, [3]],
            ["Expression", 4],
        ],
    ),
    (
        "3.8",
        "eval",
        "(a for b in c)",
        [
            ["Name", 1, 2, "a"],
            ["Name", 1, 8, "b"],
            ["Name", 1, 13, "c"],
            ["Comprehension", 1, 2, [], False],
            ["GeneratorExp", 1, 1, 0, [3]],
            ["Expression", 4],
        ],
    ),
    (
        "3.8",
        "eval",
        "{a: b for c in d}",
        [
            ["Name", 1, 2, "a"],
            ["Name", 1, 5, "b"],
            ["Name", 1, 11, "c"],
            ["Name", 1, 16, "d"],
            ["Comprehension", 2, 3, [], False],
            ["DictComp", 1, 1, 0, 1, [4]],
            ["Expression", 5],
        ],
    ),
    (
        "3.8",
        "eval",
        "((yield), (yield a), (yield from b))",
        [
            ["Yield", 1, 3, None],
            ["Name", 1, 18, "a"],
            ["Yield", 1, 12, 1],
            ["Name", 1, 34, "b"],
            ["YieldFrom", 1, 23, 3],
            ["Tuple", 1, 1, [0, 2, 4]],
            ["Expression", 5],
        ],
    ),
    ("3.8", "eval", "a < b", [["Name", 1, 1, "a"], ["Name", 1, 5, "b"], ["Compare", 1, 1, 0, ["Lt"], [1]], ["Expression", 2]]),
    (
        "3.8",
        "eval",
        "f(a, *b, c=d, **e)",
        [
            ["Name", 1, 1, "f"],
            ["Name", 1, 3, "a"],
            ["Name", 1, 7, "b"],
            ["Starred", 1, 6, 2],
            ["Name", 1, 12, "d"],
            ["Keyword", "c", 4],
            ["Name", 1, 17, "e"],
            ["Keyword", None, 6],
            ["Call", 1, 1, 0, [1, 3], [5, 7]],
            ["Expression", 8],
        ],
    ),
    ("3.8", "eval", "a.b", [["Name", 1, 1, "a"], ["Attribute", 1, 1, 0, "b"], ["Expression", 1]]),
    ("3.8", "eval", "a[b]", [["Name", 1, 1, "a"], ["Name", 1, 3, "b"], ["Subscript", 1, 1, 0, 1], ["Expression", 2]]),
    (
        "3.8",
        "eval",
        "a[b, c]",
        [["Name", 1, 1, "a"], ["Name", 1, 3, "b"], ["Name", 1, 6, "c"], ["Tuple", 1, 3, [1, 2]], ["Subscript", 1, 1, 0, 3], ["Expression", 4]],
    ),
    ("3.8", "eval", "a[:]", [["Name", 1, 1, "a"], ["Slice", 1, 3, None, None, None], ["Subscript", 1, 1, 0, 1], ["Expression", 2]]),
    (
        "3.8",
        "eval",
        "(a)[ (b) :c, (d):(e) :f, ((g)), ::,]",
        [
            ["Name", 1, 2, "a"],
            ["Name", 1, 7, "b"],
            ["Name", 1, 11, "c"],
            ["Slice", 1, 6, 1, 2, None],
            ["Name", 1, 15, "d"],
            ["Name", 1, 19, "e"],
            ["Name", 1, 23, "f"],
            ["Slice", 1, 14, 4, 5, 6],
            ["Name", 1, 28, "g"],
            ["Slice", 1, 33, None, None, None],
            ["Tuple", 1, 6, [3, 7, 8, 9]],
            ["Subscript", 1, 1, 0, 10],
            ["Expression", 11],
        ],
    ),
    (
        "3.8",
        "eval",
        "(a[ # [\n b:,\n lambda c, d: e])",
        [
            ["Name", 1, 2, "a"],
            ["Name", 2, 2, "b"],
            ["Slice", 2, 2, 1, None, None],
            ["Arg", 3, 9, "c", None],
            ["ArgWithDefault", 3, None],
            ["Arg", 3, 12, "d", None],
            ["ArgWithDefault", 5, None],
            ["Arguments", [], [4, 6], None, [], None],
            ["Name", 3, 15, "e"],
            ["Lambda", 3, 2, 7, 8],
            ["Tuple", 2, 2, [2, 9]],
            ["Subscript", 1, 2, 0, 10],
            ["Expression", 11],
        ],
    ),
    # Columns are counted in characters: the text before the name takes 2, 3 and 4 bytes a character.
    (
        "3.8",
        "eval",
        "'\u00e9\u20ac\U0001f600', a",
        [["str", "\u00e9\u20ac\U0001f600"], ["Constant", 1, 1, 0], ["Name", 1, 8, "a"], ["Tuple", 1, 1, [1, 2]], ["Expression", 3]],
    ),
    (
        "3.8",
        "exec",
        "\u00e9 = a\r\n(b)",
        [["Name", 1, 1, "\u00e9"], ["Name", 1, 5, "a"], ["Assign", 1, 1, [0], 1], ["Name", 2, 2, "b"], ["Expr", 2, 1, 3], ["Module", [2, 4]]],
    ),
    # Texts without an expression in them; the places in others depend on the Python.
    ("3.8", "eval", "f''", [["JoinedStr", 1, 1, []], ["Expression", 0]]),
]

# Sources of one f-string, and its row with the rows in place of their numbers, without places.
F_STRINGS = [
    ("3.8", "f'a{b}'", ["JoinedStr", [["Constant", ["str", "a"]], ["FormattedValue", ["Name", "b"], "None", None]]]),
    ("3.8", "f'{a!r}{b!s}{c!a}'", ["JoinedStr", [["FormattedValue", ["Name", it], to, None] for it, to in ("a Repr".split(), "b Str".split(), "c Ascii".split())]]),
    ("3.8", "f'{a:>{b}}'", ["JoinedStr", [["FormattedValue", ["Name", "a"], "None", ["JoinedStr", [["Constant", ["str", ">"]], ["FormattedValue", ["Name", "b"], "None", None]]]]]]),
    ("3.8", "f'{a=}'", ["JoinedStr", [["Constant", ["str", "a="]], ["FormattedValue", ["Name", "a"], "Repr", None]]]),
    ("3.8", "f'{a[1:]}'", ["JoinedStr", [["FormattedValue", ["Subscript", ["Name", "a"], ["Slice", ["Constant", ["int", "1"]], None, None]], "None", None]]]),
    ("3.12", "f'{f'{a}'}'", ["JoinedStr", [["FormattedValue", ["JoinedStr", [["FormattedValue", ["Name", "a"], "None", None]]], "None", None]]]),
]

CONSTANTS = [
    ("None", ["none"]),
    ("True", ["true"]),
    ("False", ["false"]),
    ("...", ["ellipsis"]),
    ("0x10", ["int", "16"]),
    (str(2**127 - 1), ["int", str(2**127 - 1)]),
    ("'a' \"\\n\"", ["str", "a\n"]),
    ("u'a'", ["str", "a"]),
    ("b'\\xff\\n'", ["bytes", "ff0a"]),
]

OPERATORS = {
    "a {} b": "+ Add - Sub * Mult @ MatMult / Div // FloorDiv % Mod ** Pow << LShift >> RShift | BitOr ^ BitXor & BitAnd and And or Or",
    "{}a": "~ Invert not( Not + UAdd - USub",
    "a {}  b": "== Eq != NotEq < Lt <= LtE > Gt >= GtE is Is is-not IsNot in In not-in NotIn",
}

# The first Python that parses them, the mode, the source, and the line after the name of the source.
REFUSED = [
    ("3.8", "exec", "a = 1.5", "1:5: rows have no word for a float"),
    ("3.8", "exec", "a = 2j", "1:5: rows have no word for a complex number"),
    ("3.8", "exec", "a = '\\ud800'", "1:5: rows have no word for a surrogate"),
    ("3.8", "exec", "a = " + str(2**127), "1:5: rows have no word for an integer past 128 bits"),
    ("3.10", "exec", "match a:\n case [b]: pass", "2:7: rows have no word for a pattern of match but _"),
    ("3.10", "exec", "match a:\n case b: pass", "2:7: rows have no word for a pattern of match but _"),
    ("3.10", "exec", "match a:\n case _ if b: pass", "2:12: rows have no word for a guard of match"),
    ("3.13", "exec", "class A[T = b]: pass", "1:13: rows have no word for the default of a type parameter"),
    ("3.14", "eval", "t'a'", "1:1: rows have no word for the kind TemplateStr"),
]


def forms():
    """The group, whether it has a place, the fields and the version of each word."""
    found = {}
    for line in FORMS.strip().splitlines():
        words, fields = line.split(":")
        group, *words = words.split()
        for word in words:
            word, _, version = word.partition("/")
            found[word] = group[0], group.endswith("@"), fields.split(), version or "3.8"
    return found


def is_here(version):
    """Whether the Python that runs this has what came with a version."""
    return tuple(map(int, version.split("."))) <= VERSION


def made(source, mode="exec"):
    """The rows of a source."""
    return json.loads(rows.rows_text(source.encode("utf-8"), mode))


def nested(made_rows, at=-1):
    """A row with the rows that it names in the place of their numbers, and without places."""
    word, *fields = made_rows[at]
    if word == "FormattedValue":
        value, to, spec = fields[2:]
        return [word, nested(made_rows, value), to, None if spec is None else nested(made_rows, spec)]
    if word in ("int", "str"):
        return [word, *fields]
    if word == "Name":
        return [word, fields[2]]
    fields = fields if word == "Expression" else fields[2:]

    def inner(it):
        return it if it is None else [nested(made_rows, i) for i in it] if isinstance(it, list) else nested(made_rows, it)

    return [word, *map(inner, fields)]


class Rows(unittest.TestCase):
    def test_examples(self):
        for version, mode, source, wanted in EXAMPLES:
            if is_here(version):
                with self.subTest(source):
                    self.assertEqual(made(source, mode), wanted)

    def test_f_strings(self):
        for version, source, wanted in F_STRINGS:
            if is_here(version):
                with self.subTest(source):
                    self.assertEqual(nested(made(source, "eval")), ["Expression", wanted])

    def test_places_in_f_strings(self):
        for row in made("x\nf'a{b!r:{c}}' f'{d[1:]}'"):
            self.assertTrue(row[0] in ("Module", "int", "str") or row[1] >= 1 and row[2] >= 1, row)

    def test_constants(self):
        for source, wanted in CONSTANTS:
            with self.subTest(source):
                self.assertEqual(made(source, "eval"), [wanted, ["Constant", 1, 1, 0], ["Expression", 1]])

    def test_operators(self):
        for form, pairs in OPERATORS.items():
            pairs = pairs.split()
            for sign, name in zip(pairs[::2], pairs[1::2]):
                source = form.format(sign.replace("-not", " not").replace("not-", "not ").replace("not(", "not "))
                with self.subTest(source):
                    row = made(source, "eval")[-2]
                    self.assertIn(name, [it for part in row[1:] for it in (part if isinstance(part, list) else [part])])

    def test_every_kind(self):
        wanted = {word for word, form in forms().items() if is_here(form[3])}
        self.assertEqual({row[0] for it in self.sources() for row in made(*it)}, wanted)

    def test_forms(self):
        own = pathlib.Path(rows.__file__).read_text(encoding="utf-8")
        for it in [*self.sources(), (own, "exec")]:
            with self.subTest(it[0][:80]):
                self.check_forms(made(*it))

    def sources(self):
        """All sources of this file, each with its mode."""
        found = [(it[2], it[1]) for it in EXAMPLES if is_here(it[0])]
        found += [(it[1], "eval") for it in F_STRINGS if is_here(it[0])]
        return found + [(it[0], "eval") for it in CONSTANTS] + [("a + b", "eval")]

    def check_forms(self, found):
        """Each row has its form, and each but the last is named by one later row, in a field of its group."""
        known, groups, named = forms(), [], []
        for word, *fields in found:
            group, has_place, letters, _ = known[word]
            if has_place:
                self.assertTrue(fields[0] >= 1 and fields[1] >= 1)
                fields = fields[2:]
            self.assertEqual(len(fields), len(letters))
            for letter, value in zip(letters, fields):
                for it in value if "*" in letter else [value]:
                    if it is None:
                        self.assertIn("?", letter)
                    elif letter[0] in PLAIN:
                        self.assertIs(type(it), PLAIN[letter[0]])
                    else:
                        self.assertEqual(groups[it], letter[0])
                        named.append(it)
            groups.append(group)
        self.assertEqual(groups[-1], "M")
        self.assertEqual(sorted(named), list(range(len(found) - 1)))


class Refusals(unittest.TestCase):
    def test_lines(self):
        for version, mode, source, wanted in REFUSED:
            if is_here(version):
                with self.subTest(source):
                    with self.assertRaises(rows.Fault) as it:
                        made(source, mode)
                    self.assertEqual(it.exception.line("m.py"), "m.py:" + wanted)

    def refused(self, data, mode="exec"):
        with self.assertRaises(rows.Fault) as it:
            rows.rows_text(data, mode)
        self.assertRegex(it.exception.line("m.py"), r"^m\.py:\d+:\d+: .")
        return it.exception.line("m.py")

    def test_no_python(self):
        self.assertTrue(self.refused(b"a\nb = = c").startswith("m.py:2:5: SyntaxError: "))
        self.assertTrue(self.refused(b"if a:\nb").startswith("m.py:2:"))
        self.refused(b"a\x00b")
        self.refused(b"a = \xff")
        self.refused(b"# coding: no-such-name\n")
        self.refused(b"a b", "eval")

    def test_encodings(self):
        for data in (b"\xef\xbb\xbf'\xc3\xa9'", b"# coding: latin-1\n'\xe9'"):
            self.assertIn('["str","\u00e9"]', rows.rows_text(data))

    def test_deep_trees(self):
        for source in ("-" * 500 + "a", "a" + "+a" * 500, "a" + ".b" * 500):
            self.assertGreater(len(made(source, "eval")), 500)
        for source in ("(" * 5000 + ")" * 5000, "[" * 5000 + "]" * 5000):
            self.refused(source.encode())

    def test_a_deep_tree_that_was_parsed(self):
        tree = rows.ast.Name(id="a", lineno=1, col_offset=0)
        for _ in range(100000):
            tree = rows.ast.UnaryOp(op=rows.ast.USub(), operand=tree, lineno=1, col_offset=0)
        found = rows.rows_of(rows.ast.Expression(body=tree), rows.Source("a"))
        self.assertEqual(found[:2] + found[-1:], [["Name", 1, 1, "a"], ["UnaryOp", 1, 1, "USub", 0], ["Expression", 100000]])
        while isinstance(tree, rows.ast.UnaryOp):
            tree = tree.operand


class Program(unittest.TestCase):
    def run_with(self, words, data=b""):
        """The status, the output and the errors of a run."""
        ended = subprocess.run([sys.executable, ROOT / "python" / "pyc" / "__main__.py", "rows", *words], input=data, stdout=subprocess.PIPE, stderr=subprocess.PIPE)
        return ended.returncode, ended.stdout, ended.stderr.decode("utf-8")

    def test_runs(self):
        wanted = (ROOT / "examples" / "call.json").read_bytes().strip() + b"\n"
        self.assertEqual(self.run_with([], b"f(a + 1)"), (0, wanted, ""))
        self.assertEqual(self.run_with(["--mode", "eval", "-"], b"\xc3\xa9")[1], '[["Name",1,1,"é"],["Expression",0]]\n'.encode("utf-8"))

    def test_faults(self):
        self.assertEqual(self.run_with([], b"1.5"), (1, b"", "<stdin>:1:1: rows have no word for a float\n1.5\n^\nnote: a float: pyc compiles no literals that are floats (--explain R104)\n"))
        status, out, told = self.run_with(["no-such-file.py"])
        self.assertEqual((status, out), (4, b""))
        self.assertRegex(told, r"^no-such-file\.py: .+\n$")
        self.assertEqual(self.run_with(["--mode", "blocks"])[:2], (2, b""))


if __name__ == "__main__":
    unittest.main()
