"""Writes crates/codegen_vectors/stdin and stdout: sources, with the listing of their code or why they are refused.

usage: source_tables.py [--python PYTHON]

The listings and the reasons are those of tools/model.
Each source below gives one case: a line with its mode, its level and its source, and a line with its rows; in stdout
what the model writes over the rows stands in their place, also where they nest too deep. Kinds that the model compiles
and this compiler does not yet are refused where they stand, as this compiler refuses them.
The levels 0, 1 and 2 follow one another in each table, unless an entry names its own.
A source that Python's parser does not read as the tree that is wanted is a pair: what it is called, and its rows.
The places of what stands in an f-string are those of Python before 3.12, so this runs under an older one; PYTHON is one of
3.12 or later, which reads the sources that have type parameters.
"""
import argparse
import itertools
import json
import pathlib
import subprocess
import sys

TOOLS = pathlib.Path(__file__).resolve().parent
MODEL = str(TOOLS / "model")
sys.path.insert(0, MODEL)
import hostile_cases
import compile_rows
from py2rows import rows_text, tree_of
from tree import Node
from tree import rows_of as rows_of_tree

CRATES = TOOLS.parent / "crates"


class At:
    """A source at a level of its own."""

    def __init__(self, level, source):
        self.level = level
        self.source = source


def at_each(source):
    """A source at each level."""
    return [At(level, source) for level in "012"]


class Generic:
    """A source with type parameters, which a Python of 3.12 or later reads."""

    def __init__(self, source):
        self.source = source

    def rows(self):
        """Its rows, by the Python of --python."""
        read = "import sys; sys.path.insert(0, sys.argv[1]); from py2rows import rows_text; print(rows_text(sys.argv[2], 'exec'))"
        words = [ARGUMENTS.python, "-c", read, MODEL, self.source]
        return subprocess.run(words, capture_output=True, check=True, text=True).stdout.strip()


generic = Generic


def constant(name, rows):
    """A name, and the rows of an expression that is the constant of the last row."""
    last = len(rows) - 1
    return rows_of(name, rows + [["Constant", 1, 1, last], ["Expression", last + 1]])


def rows_of(name, rows):
    """Rows by hand, under a name."""
    return name, json.dumps(rows, separators=(",", ":"), ensure_ascii=False)


def expression(source, before):
    """The tree of an expression that stands behind so many characters."""
    if source.startswith("*"):
        return Node("Starred", (1, before + 1), {"value": expression(source[1:], before + 1)})
    return tree_of("(" * before + source + ")" * before, "eval").body


def put(at, name, tree):
    """Puts a tree in the place of a name."""
    if isinstance(at, list):
        for node in at:
            put(node, name, tree)
    elif isinstance(at, Node):
        if at.kind == "Name" and at.id == name:
            at.kind, at.f = tree.kind, tree.f
        put(list(at.f.values()), name, tree)
        if at.kind == "AnnAssign" and at.target.kind != "Name":
            at.f["simple"] = False


def with_part(source, *parts):
    """A source, parts of which are expressions that Python's parser does not take there: in order, and of different lengths."""
    text, stood = source, []
    for part in parts:
        before = source.index(part, stood[-1][1] + 1 if stood else 0)
        text = text[:before] + "_" * len(part) + text[before + len(part):]
        stood.append((part, before))
    whole = tree_of(text)
    for part, before in stood:
        put(whole, "_" * len(part), expression(part, before))
    return rows_of(source, rows_of_tree(whole))


# Choices, loops that are tests alone, constants and names
CHOICES = {
    "exec": {
        "BRANCHES": [
            "if a: pass",
            "if a: b\nelse: c",
            "if a: b\nelif c: d\nelif e: f\nelse: g",
            "if a:\n if b: c\n else: d\nelse:\n if e: pass",
            "pass\npass",
            "1\nTrue\n1",
            *at_each("__debug__"),
            rows_of("an expression as a file", [["Name", 1, 1, "a"], ["Expression", 0]]),
            "if b if a else c: d",
        ],
        "TESTS": [
            "if not a: b\nelse: pass\nc",
            "if a and b: c",
            "if a or b: c\nelse: d",
            "if not (a and b or c): d",
            "if a and (b or not c) and d: e\nelse: f",
            "if not (not a or b) and c: pass",
            "if a < b <= c != d: e\nelse: f",
            "if (a and b) < c or -d: e",
            "if True or False or False: pass",
            "if True and False and False: pass",
            "if (True and False) or (False and True): pass",
        ],
        "LOOPS": [
            "while a: pass",
            "while a: b\nelse: c",
            "while a:\n if b: break\n c\nelse: d",
            "while a:\n if b: continue\n c\nelse: d",
            *at_each("while a: break"),
            "while a:\n continue\n b",
            "while a < b < c: d",
            "while __debug__:\n if not __debug__: break",
        ],
        "LOOPS_WITHIN": [
            "while a:\n while b:\n  if c: break\n  if d: continue\n else: break\n e",
            "while a:\n while b: pass\n else: continue\n c\nelse: d",
            "while not a or b:\n if c:\n  d\n  break\n  e\n else: continue\nelse: f",
            "while True:\n if a == 1: pass\n elif b: break\n else: continue",
            "if a:\n while b:\n  if c: break\nelse:\n while d: pass\ne",
            "while a:\n break\n while b: continue\nelse: pass\nc",
        ],
        "FAULTS": [
            "break",
            "while a: b\nelse:\n continue",
            "if a:\n b\n if c: break",
            "while a: pass\nif b: pass\nelse: continue",
            "while a:\n while b: pass\n else: break\nelse:\n if c: break",
        ],
    },
    "eval": {
        "TRUTHS": [
            "a and b and c",
            "a or b or c",
            "a and b or not c and d",
            "not not a",
            "(a or b) and (c or d)",
            "__debug__ and a",
            "-a + ~b - +c",
            "~(not a)",
        ],
        "COMPARISONS": [
            "a == b",
            "a != b < c",
            "a < b <= c > d >= e == f",
            "a is b",
            "a is not b is c",
            "a in b not in c",
            "not a in b",
            "a < (b < c) < (d and e)",
            At("0", "a < b < c"),
        ],
        "CONDITIONALS": [
            "a if b else c",
            "a if b else c if d else e",
            "(a if b else c) if d and not e else f",
            "a if not (b or c) else d",
            "f(a and b, c < d, e if g else None) or ...",
            "a if 1 < b < 2 else -1",
            rows_of("a file as an expression", [["Name", 1, 1, "a"], ["Expr", 1, 1, 0], ["Module", [1]]]),
            At("0", "x if c else 1"),
        ],
    },
}

# Displays, f-strings, calls, and docstrings of files
DISPLAYS = {
    "eval": {
        "SEQUENCES": [
            "[]",
            "()",
            "[a, b, c]",
            "(a, (b, [c, ()]), {d})",
            "{a, b}",
            "[*a]",
            "(*a, *b)",
            "{*a, b}",
            "[a, b, *c, d, *e, *f, g, h]",
            "(a, *(b, *c), [*d, e])",
            "[[a] if b else [*c], d and e]",
            rows_of("set()", [["Set", 1, 1, []], ["Expression", 0]]),
        ],
        "DICTS": [
            "{}",
            "{a: b, 'c': d}",
            "{**a}",
            "{**a, 'x': 1}",
            "{**a, 'x': 1, **b, c: d}",
            "{a: {b: [c]}, **{d: e, **f}}",
            "{**{}}[a] if {1: 2} else {a and b: not c}",
        ],
        "TEXTS": [
            "f''",
            "f'a' 'b'",
            "f'{a}'",
            "f'a{b}c{d}'",
            "f'{a!r}{b!s}{c!a}'",
            "f'{a:>{b}}'",
            "f'a{b!r:{c}.{d!s:e}}f'",
            "f'{{}}' + f'{a[0].b(*c)}'",
            rows_of("f'a' within f''", [["str", "a"], ["Constant", 1, 3, 0], ["JoinedStr", 1, 2, [1]], ["str", "b"], ["Constant", 1, 5, 3], ["JoinedStr", 1, 1, [2, 4]], ["Expression", 5]]),
            rows_of("a within f''", [["Name", 1, 3, "a"], ["str", "b"], ["Constant", 1, 5, 1], ["JoinedStr", 1, 1, [0, 2]], ["Expression", 3]]),
        ],
        "PLACES": [
            "a.b",
            "a.b.c",
            "a[b]",
            "a[b].c[d, e]",
            "'a'.b",
            "a[:]",
            "a[b:]",
            "a[:b]",
            "a[b:c:d]",
            "a[::b]",
            "a[b:c, ::-1, d]",
            "(a or b).c[d if e else f]",
        ],
        "CALLS": [
            "a.b()",
            "a.b(c, 1)",
            "a.b.c(d)(e).f(g)",
            "a(*b)",
            "a(b, c, *d, e)",
            "a(*b, *c)",
            "a.b(*c)",
            "a.b(c, *d, *e, f, g)",
            "a[b](*c[d:])",
            "(a.b)(f'{c}', [*d])",
            "a.b if c.d(e) else f.g(*h)",
        ],
        "CONSTANTS": [
            "'a\\'\\\\b\\n\\x01\\xe9'",
            "''",
            "b''",
            "b'a\\'\\\\\\x00\\xff~'",
            "('a', b'a', 1, True, None, ...)",
            constant("() as a constant", [["tuple", []]]),
            constant("('a',) as a constant", [["str", "a"], ["tuple", [0]]]),
            constant("tuples in a constant", [["int", "-007"], ["none"], ["bytes", "00ff61"], ["tuple", [1, 2]], ["true"], ["ellipsis"], ["tuple", [0, 3, 4, 5]]]),
            "170141183460469231731687303715884105727",
            At("0", "1"),
        ],
    },
    "exec": {
        "DOCSTRINGS": at_each("'doc'\na") + at_each("'doc'") + at_each("f'doc'") + [
            At("0", "f'a' 'b'\na.b"),
            At("0", "f'{a}'"),
            At("1", "a\n'doc'"),
            At("2", "'doc'\n'again'"),
            At("0", "b'doc'"),
        ],
        "LONE_STARS": [
            "*a",
            "a\nb.c[*d,]\n*e",
            rows_of("a[*b]", [["Name", 1, 1, "a"], ["Name", 1, 4, "b"], ["Starred", 1, 3, 1], ["Subscript", 1, 1, 0, 2], ["Expr", 1, 1, 3], ["Module", [4]]]),
            rows_of("{*a: b}", [["Name", 1, 3, "a"], ["Starred", 1, 2, 0], ["Name", 1, 6, "b"], ["Dict", 1, 1, [1], [2]], ["Expr", 1, 1, 3], ["Module", [4]]]),
            rows_of("if *a: pass", [["Name", 1, 5, "a"], ["Starred", 1, 4, 0], ["Pass", 1, 8], ["If", 1, 1, 1, [2], []], ["Module", [3]]]),
            rows_of("[**a]", [["Name", 1, 4, "a"], ["Starred", 1, 3, 0], ["Starred", 1, 2, 1], ["List", 1, 1, [2]], ["Expr", 1, 1, 3], ["Module", [4]]]),
            rows_of("(*a).b(*c)", [["Name", 1, 3, "a"], ["Starred", 1, 2, 0], ["Attribute", 1, 1, 1, "b"], ["Name", 1, 9, "c"], ["Starred", 1, 8, 3], ["Call", 1, 1, 2, [4], []], ["Expr", 1, 1, 5], ["Module", [6]]]),
            rows_of("f'{*a}'", [["Name", 1, 5, "a"], ["Starred", 1, 4, 0], ["FormattedValue", 1, 1, 1, "None", None], ["JoinedStr", 1, 1, [2]], ["Expr", 1, 1, 3], ["Module", [4]]]),
        ],
    },
}

# Assignments, annotations, deletions and keywords
TARGETS = {
    "exec": {
        "ASSIGNMENTS": [
            "a = b = c",
            "a[b:c] = d",
            "a.b.c = d[e] = f = g",
            "[a, b] = c = d, e",
            "() = a\n[] = b",
            "a, (b.c, [d, e[f]]) = g",
            "a = b, c\nd = [e, *f]\na = d",
            "a = not b\nif a: c = d and e",
        ],
        "STARS": [
            "*a, = b",
            "a, *b, c, d = e",
            "[*a, b] = c",
            "a, *(b, *c) = d",
            "(*a.b, c[d]), *e = *f, g",
        ],
        "AUGMENTED": [
            "a += b",
            "a[b] += c",
            "a[b] *= c",
            "a[b].c @= d\na.b[c] -= e\na /= f",
            "a[b:c] %= d if e else f",
            "a **= b\na <<= c\na >>= d\na |= e\na ^= f\na &= g\na //= h",
            "a(b).c += d, e",
        ],
        "ANNOTATIONS": [
            "a: b",
            "a: b = c",
            "(a): b = c",
            "a.b: c",
            "a.b: c = d",
            "a[b]: c = d",
            "while a:\n b: c = d\n if e: break\nelse: f",
            "if a: pass\nelif b: pass\nelse:\n c: d",
            "while a:\n if b: pass\n else: c.d: e",
            "'doc'\na: 'b'\nc = d",
            "a = b\n__debug__[c]: d",
            with_part("(a, *b): c = d", "(a, *b)"),
            with_part("f(a): b", "f(a)"),
        ],
        "DELETIONS": [
            "del a, b.c, d[e]",
            "del a[b:c].d",
            "del (a, [b.c, (d[e],)]), f",
            "del ()\ndel []",
            "if a: del b\nelse: del c.d",
            rows_of("del", [["Delete", 1, 1, []], ["Module", [0]]]),
        ],
        "CONDITIONS": [
            "if (a := b): c",
            "while (a := b.c()) < d: e",
            "if not (a := b) and (c := a): d = c",
            "(a := b)",
        ],
        "DEBUG_FAULTS": [
            "__debug__ = a",
            "a = b.__debug__ = c",
            "a, (b, __debug__) = c.d",
            "__debug__ += a",
            "a.__debug__ += b",
            "__debug__: a = b",
            "del a, __debug__",
            "del [a.b, c.__debug__]",
            "(__debug__ := a)",
            "a(b, __debug__=c)",
            "a.b(c=d, __debug__=e, f=g)",
            "a(b[c], *d, e=f, __debug__=g)",
        ],
        "STAR_FAULTS": [
            "a, *b, *c = d",
            "*a, *b = c",
            "a = b, [*c, d, *e] = f",
            "*a = b",
            "a = *b = c",
            "a = *b",
            "a += *b",
            with_part("*a: b = c", "*a"),
            with_part("*a += b", "*a"),
            with_part("a, **b = c", "**b"),
            ("256 targets before a star", rows_text(", ".join(["a"] * 256) + ", *b = c")),
        ],
        "ASSIGNMENT_FAULTS": [
            with_part("f() = 1", "f()"),
            with_part("f(a) = b", "f(a)"),
            with_part("a, 1 = b", "1"),
            with_part("a = 'b' = c", "'b'"),
            with_part("f'{a}' = b", "f'{a}'"),
            with_part("a + b = c", "a + b"),
            with_part("[a, [b, *c()]] = d", "[a, [b, *c()]]"),
            with_part("[a, ...] = b", "..."),
            with_part("a if b else c = d", "a if b else c"),
            with_part("{a: b} = c", "{a: b}"),
            with_part("(a := b) = c", "(a := b)"),
            with_part("(a() := b)", "a()"),
            with_part("f(a): b = c", "f(a)"),
            rows_of("assignment to nothing", [["Name", 1, 1, "a"], ["Assign", 1, 1, [], 0], ["Module", [1]]]),
        ],
        "CHANGE_FAULTS": [
            with_part("del f(a)", "f(a)"),
            with_part("del a+b", "a+b"),
            with_part("del (a, b + c)", "(a, b + c)"),
            with_part("del [a, *b]", "[a, *b]"),
            with_part("del a, 1", "1"),
            with_part("del f'{a}'", "f'{a}'"),
            with_part("del a if b else c", "a if b else c"),
            with_part("a, b += c", "a, b"),
            with_part("[a] += b", "[a]"),
            with_part("-a += b", "-a"),
            with_part("True += *a", "True"),
        ],
    },
    "eval": {
        "NAMED": [
            "(a := b)",
            "(a := b) and c or (d := e)",
            "[a := b, (c := d), e]",
            "f(a := b, (c := d))[g := h]",
            "(a := (b := c)) if (d := e) else f",
            "f'{(a := b)}' < (c := d)",
            with_part("(a.b := c)", "a.b"),
            with_part("((a, *b) := c)", "(a, *b)"),
        ],
        "KEYWORDS": [
            "f(a=b)",
            "f(a, b=c, d=e)",
            "f(*a, b=c)",
            "f(a, *b, c, d=e, f=g)",
            "f(**a)",
            "f(a, **b)",
            "f(a=b, **c)",
            "f(**a, b=c)",
            "f(**a, **b)",
            "f(a, *b, c=d, **e, g=h, i=j, **k)",
            "f(a=b, *c)",
            "f(a=b if c else d)(e=f(g=h))",
        ],
        "METHODS": [
            "a.b(c=d)",
            "a.b(c, d, e=f, g=h)",
            "a.b(*c, d=e)",
            "a.b(**c)",
            "a.b(c, *d, e=f, **g)",
            "a.b.c(d=e).f(g, **h)",
            "a[b].c(d=(e := f))",
        ],
        "NAME_FAULTS": [
            "f(*a, b=c, __debug__=d)",
            "f(a.b(__debug__=c), __debug__=d)",
            "f(a, **b, __debug__=c)",
            rows_of("f(''=a)", [["Name", 1, 1, "f"], ["Name", 1, 6, "a"], ["Keyword", "", 1], ["Call", 1, 1, 0, [], [2]], ["Expression", 3]]),
            rows_of("f(a.b=c)", [["Name", 1, 1, "f"], ["Name", 1, 7, "c"], ["Keyword", "a.b", 1], ["Call", 1, 1, 0, [], [2]], ["Expression", 3]]),
        ],
    },
}


def indented(source):
    return "".join(f" {line}\n" for line in source.rstrip().split("\n"))


WRAPS = {
    "while": lambda body: f"while a:\n{indented(body)}",
    "while, in the else part": lambda body: f"while a: b\nelse:\n{indented(body)}",
    "for": lambda body: f"for a in b:\n{indented(body)}",
    "for, in the else part": lambda body: f"for a in b: c\nelse:\n{indented(body)}",
    "with": lambda body: f"with a as b:\n{indented(body)}",
    "try": lambda body: f"try:\n{indented(body)}except: h\n",
    "handler": lambda body: f"try: t\nexcept E as e:\n{indented(body)}",
    "else of try": lambda body: f"try: t\nexcept: h\nelse:\n{indented(body)}",
    "try with finally": lambda body: f"try:\n{indented(body)}finally: z\n",
    "finally": lambda body: f"try: t\nfinally:\n{indented(body)}",
    "handler with finally": lambda body: f"try: t\nexcept E as e:\n{indented(body)}finally: z\n",
}


def nested(outer, inner, last):
    """What leaves, within one form of control that stands in another."""
    return WRAPS[outer](f"if i: {last}\n" + WRAPS[inner](f"if j: {last}\nk"))


# Loops over iterators, exceptions, `with` and `assert`, within one another
CONTROL = {
    "exec": {
        "ITERATION": [
            *at_each("for a in b: c"),
            "for a in b: c\nelse: d",
            "for a, (b, *c) in d.e(f): g",
            "for a.b in c: d\nelse: e",
            "for a[b] in c[d]: e",
            "for a in b:\n if c: break\n d\nelse: e",
            "for a in b:\n if c: continue\n d\nelse: e",
            "for a in b:\n for c in d:\n  if e: break\n  if f: continue\n else: continue\n g\nelse: h",
            "for a in b:\n while c:\n  if d: continue\n  break\n else: break",
            "while a:\n for b in c:\n  if d: break\n else: break\n e",
            "for a in b:\n break\n c",
            "for a in b, *c: pass",
            "for a in (b := c) or d: e",
            "for a in b: pass\nfor a in b: pass\na",
        ],
        "RAISING": [
            "raise",
            "raise a",
            "raise a from b",
            "raise a(b) from c or d",
            *at_each("raise a\nb"),
            "while a: raise b\nelse: raise",
            "for a in b: raise a from None",
            "while c: break\nelse: raise x\nf(a, b)",
            "if a: raise b\nelse: c",
        ],
        "ASSERTING": [
            *at_each("assert a"),
            *at_each("assert a, b"),
            "assert a and not b, c(d)",
            "assert a < b < c\nd",
            "assert not (a or b)",
            "assert __debug__, __debug__",
            "for a in b:\n assert a, b\n continue",
            At("0", "assert (a, b)\nassert AssertionError"),
            At("1", "assert a, (b := c)\nd"),
        ],
        "HANDLING": [
            *at_each("try: a\nexcept: b"),
            "try: a\nexcept E: b",
            *at_each("try: a\nexcept E as e: b"),
            "try: a\nexcept (E, F) as e: e\nexcept G: g\nexcept: h",
            "try: a\nexcept E: b\nelse: c",
            "try: a\nexcept E as e: b\nexcept F as e: c\nelse: d\ne",
            "try: a\nexcept E.f(g) as h: raise\nelse: raise h",
            "try:\n try: a\n except E as e: b\nexcept F as f: c",
            "try: a\nexcept E as e:\n try: b\n except F as e: c\n e",
            "try: pass\nexcept E as e: pass",
            "try: a\nexcept E: raise F from e",
            rows_of("a bare handler before another", [["Name",1,6,"a"],["Expr",1,6,0],["Name",2,9,"b"],["Expr",2,9,2],["ExceptHandler",None,None,[3]],["Name",3,8,"E"],["Name",3,11,"c"],["Expr",3,11,6],["ExceptHandler",5,None,[7]],["Try",1,1,[1],[4,8],[],[]],["Module",[9]]]),
            rows_of("try alone", [["Name",1,6,"a"],["Expr",1,6,0],["Try",1,1,[1],[],[],[]],["Module",[2]]]),
            rows_of("try with an else part alone", [["Name",1,6,"a"],["Expr",1,6,0],["Name",2,7,"b"],["Expr",2,7,2],["Try",1,1,[1],[],[3],[]],["Module",[4]]]),
        ],
        "LAST_PARTS": [
            *at_each("try: a\nfinally: b"),
            *at_each("try: a\nexcept E as e: b\nelse: c\nfinally: d"),
            "try: a\nexcept E: b\nexcept: c\nfinally: d\ne",
            At("0", "while a:\n try: break\n finally: b"),
            "while a:\n try: continue\n finally: b\nelse: c",
            "for a in b:\n try: c\n finally: break",
            "for a in b:\n try: c\n finally: continue",
            "for a in b:\n try: raise c\n except E as e: break\n else: continue\n finally: d\nelse: f",
            "try: a\nfinally:\n try: b\n finally: c",
            "try:\n try: a\n finally: b\nfinally: c",
            "try: raise a\nexcept E as e: raise\nfinally: raise b",
            "try: pass\nfinally: pass",
        ],
        "MANAGING": [
            *at_each("with a: b"),
            "with a as x: raise e",
            "with a as b, c as d: e",
            "with a, b as (c, *d), e.f as g.h: i",
            "with a as b[c]:\n with d as e: f\ng",
            "with (a, b) as c: pass",
            "while a:\n with b as c: break\n d",
            "for a in b:\n with c, d as e:\n  if f: continue\n  g\nelse: h",
            "with a as b:\n for b in c:\n  if d: break\ne",
            "with a as b:\n try: c\n except E as e: d\n finally: f",
            "try:\n with a as b: c\nfinally: d",
            "with a(b) as c:\n raise\n d",
            "with\\\n a\\\n as b, c:\n  d",
        ],
        "WITHIN": [nested(outer, inner, last) for i, outer in enumerate(WRAPS) for j, inner in enumerate(WRAPS) for last in [["raise x", "pass", "raise"][(i + j) % 3]] if (i + 2 * j) % 3 == 0],
        "LEAVING": [WRAPS[loop](nested(outer, inner, last)) for loop, last in [("for", "break"), ("while", "continue"), ("for", "continue"), ("while", "break")] for i, outer in enumerate(WRAPS) for j, inner in enumerate(WRAPS) if (i * 5 + j * 3 + len(last) + len(loop)) % 11 == 0],
        "ANNOTATED": [
            "for a in b: c: d = e",
            "for a in b: c\nelse: d: e",
            "with a: b: c",
            "try: a: b\nfinally: c",
            "try: a\nexcept: b: c",
            "try: a\nexcept E: b\nelse: c: d",
            "try: a\nfinally: b: c = d",
            "while a:\n with b:\n  for c in d:\n   try: e: f\n   except: g",
        ],
        "CONTROL_FAULTS": [
            "for a in b: c\nelse: break",
            "try: break\nfinally: a",
            "with a: continue",
            "try: a\nexcept E as e: continue",
            with_part("for a in *b: c", "*b"),
            with_part("for f(a) in b: c", "f(a)"),
            with_part("for a, 1 in b: c", "1"),
            "for __debug__ in b: c",
            "with a as __debug__: b",
            "with a, b.c as d.__debug__: e",
            with_part("with a as b + c: d", "b + c"),
            with_part("with a as *b: c", "*b"),
            "try: a\nexcept E as __debug__: b",
            "try: a\nexcept E as e: break\nelse: continue",
            with_part("raise *a", "*a"),
            with_part("raise a from *b", "*b"),
            with_part("assert *a", "*a"),
            with_part("assert a, *b", "*b"),
            At("1", "assert a, b\nbreak"),
            rows_of("with without items", [["Name",1,7,"a"],["Expr",1,7,0],["With",1,1,[],[1]],["Module",[2]]]),
            rows_of("with without a body", [["Name",1,6,"a"],["WithItem",0,None],["With",1,1,[1],[]],["Module",[2]]]),
            rows_of("with without items or a body", [["With",1,1,[],[]],["Module",[0]]]),
            rows_of("with a wrong target and without a body", [["Name",1,6,"a"],["str","b"],["Constant",1,11,1],["WithItem",0,2],["With",1,1,[3],[]],["Module",[4]]]),
            rows_of("raise from b", [["Name",1,12,"b"],["Raise",1,1,None,0],["Module",[1]]]),
            rows_of("except as e", [["Name",1,6,"a"],["Expr",1,6,0],["Name",2,14,"b"],["Expr",2,14,2],["ExceptHandler",None,"e",[3]],["Try",1,1,[1],[4],[],[]],["Module",[5]]]),
            "for a in b:\n try: c\n except E:\n  with d: break\n else: continue\nelse:\n with e: break",
        ],
    },
}


def named(name, source):
    """A long source under a name."""
    return name, rows_text(source)


def branch(count):
    """So many statements of two units each, and a deletion of one, in a branch."""
    return named(f"if c: with {count} statements a and del a", "if c:\n" + " a\n" * count + " del a")


def minuses(count):
    """So many unary minuses over a name, which is the first row; each row names the one before."""
    rows = [["UnaryOp", 1, count - number, "USub", number] for number in range(count)]
    return rows_of(f"a behind {count} minuses", [["Name", 1, count + 1, "a"], *rows, ["Expression", count]])


# Deep and wide trees
LARGE = {
    "exec": {
        "DEEP": [
            rows_of("a that is called 1020 times", [["Name", 1, 1, "a"]] + [["Call", 1, 1, i, [], []] for i in range(1020)] + [["Expr", 1, 1, 1020], ["Module", [1021]]]),
        ],
        "WIDE": [
            named("f with 299 arguments", "f(" + ", ".join(f"n{i}" for i in range(299)) + ")"),
            At("0", branch(126)),
            At("0", branch(127)),
            At("0", named("if c: with 127 statements x", "if c:\n" + " x\n" * 127)),
            At("0", named("255 targets before a star", ", ".join(["a"] * 255) + ", *b = c")),
            At("0", named("256 targets before a star", ", ".join(["a"] * 256) + ", *b = c")),
        ],
        "ITEMS": [named("a with of 1020 items", "with " + ", ".join(["a"] * 1020) + ": pass")],
    },
    "eval": {
        "DEEP": [At("0", minuses(1021)), At("0", minuses(1022))],
    },
}

# Parts of dict displays and f-strings, from left to right
ORDER = {
    "exec": {
        "DICTS": [
            "{}",
            "{**a}",
            "{**a, **b}",
            "{'x': 1}",
            "{'x': 1, 'y': 2}",
            "{**a, 'x': 1}",
            "{'x': 1, **a}",
            "{'x': 1, **a, 'y': 2}",
            "{**a, 'x': 1, **b}",
            "{**a, 'x': 1, 'y': 2, **b, 'z': 3}",
            "{a: b, c: d, **e, f: g, h: i, **j, **k, l: m}",
            "{**a, **b, c: d, **e, **f}",
            "{a: b, **c, **d, e: f}",
            "{f(): g(), **h(), i(): j()}",
            "{a: {b: c, **d}, **{e: f}, g: {**h, i: j}}",
            "{**{**a, b: c}, d: {**e}}",
            "{**a, b: {**c, d: e}, **f}",
            "{(x := a): (y := b), **(z := c), x: y}",
            "{a + 1: -b, **c[d], e.f: not g}",
            "{a if b else c: d, **(e or f), g and h: i < j < k}",
            "{a: f'{b}', **c, f'{d:>{e}}': g}",
            "{f(**{'k': v}, __debug__=1): 2, **g(__debug__=3)}",
            "{**f(__debug__=1), g(__debug__=2): 3}",
            "{**(*a, *b), (*c,): d}",
            "{**(__debug__ := a), b: (__debug__ := c)}",
            "{a: (__debug__ := b), **c}",
            "{__debug__: __debug__, **__debug__, 1: __debug__}",
        ],
        "FORMATS": [
            "f'{a}'",
            "f'{a:>4}'",
            "f'{a!r}'",
            "f'{a!s:>4}'",
            "f'{a!a:{b}}'",
            "f'{a:{b}{c}}'",
            "f'{a:>{b}.{c}}'",
            "f'{a}{b:>4}{c!r:{d}}'",
            "f'{f():{g()}}{h():{i()}}'",
            "f'{ {**a, b: c} :{ {d: e, **f} }}'",
            "f'{(x := a):{(y := b)}}'",
            "f'{a:}'",
            "f'{a.b:{c.d}}'",
            "f'{a[b]:{c[d]}}'",
            "f'{a or b:{c and d}}'",
            "f'{a if b else c:{d if e else f}}'",
            "f'{a=}'",
            "f'{a=:>4}'",
            "f'a' f'{b}' 'c'",
            "f'{f(__debug__=1):{g(__debug__=2)}}'",
            "f'{(__debug__ := a):{(__debug__ := b)}}'",
            "f'{[*a]:{(*b,)}}'",
            "f'{__debug__:{__debug__}}'",
        ],
        "WITHIN": [
            "x = {**a, b: c}",
            "x = y = {b: c, **a, d: e}",
            "x[{**a, b: c}] = {d: e, **f}",
            "del x[{**a, 1: 2}]",
            "f(**{**a, b: c}, d={e: g, **h})",
            "x += {a: b, **c, d: e}",
            "while {**a, b: c}: break",
            "if {a: b, **c}: d",
            "if not {**a, b: c}: d",
            "assert {**a, b: c}, {d: e, **f}",
            "raise {**a, b: c} from {d: e, **f}",
            "for x in {**a, b: c}: y",
            "with {**a, b: c} as d: e",
            "x: {**a, b: c} = {d: e, **f}",
            "x = f'{a:{b}}'",
            "f(f'{a:{b}}', *c, d=f'{e:{g}}')",
            "while f'{a:{b}}': c",
            "assert f'{a:{b}}', f'{c:{d}}'",
            "raise f'{a:{b}}' from f'{c:{d}}'",
        ],
    },
}

# What the scopes of a tree refuse, before what the compiler refuses
SCOPES = {
    "exec": {
        "DECLARATIONS": [
            "def f(x): global x",
            "def f(x): nonlocal x",
            "def f():\n x\n global x",
            "def f():\n x = 1\n global x",
            "def f():\n x: int = 1\n global x",
            "x\nglobal x",
            "x = 1\nglobal x",
            "nonlocal x",
            "def f(): nonlocal x",
            "global x\nnonlocal x",
            "break\ndef f(x): global x",
        ],
        "WALRUSES": [
            "[y := 0 for y in z]",
            "[x for x in (y := z)]",
            "[[j := 0 for i in a] for j in b]",
            "class A: [x := 0 for y in z]",
            "[x for y in z if (y := x)]",
        ],
    },
}

def noted(source, name, note):
    """A source, a parameter of whose lambdas has an annotation, for which Python has no words."""
    def walk(it):
        if isinstance(it, list):
            for within in it:
                walk(within)
        elif isinstance(it, Node):
            if it.kind == "Arg" and it.arg == name:
                it.f["annotation"] = expression(note, 0)
            walk(list(it.f.values()))

    tree = tree_of(source)
    walk(tree)
    return rows_of(f"{source}, with {name}: {note}", rows_of_tree(tree))


def entered(source):
    """Statements that are entered at a prompt."""
    return rows_of(f"entered: {source}".rstrip(), rows_of_tree(Node("Interactive", None, {"body": tree_of(source).body})))


def nested_defs(depth, last):
    """Functions within one another, each with a parameter of its own, and what stands in the innermost."""
    lines = [f"{' ' * i}def f{i}(a{i}):" for i in range(depth)]
    back = [f"{' ' * i}return f{i}" for i in range(depth - 1, 0, -1)]
    return "\n".join([*lines, " " * depth + last, *back])


def within_function(source):
    """A function with a body."""
    return f"def f(a):\n{indented(source)}"


# Functions, lambdas and generators
FUNCTIONS = {
    "exec": {
        "RETURNS": [
            *at_each("def f(): pass"),
            *at_each("def f(): return"),
            *at_each("def f():\n return a\n b"),
            *at_each("def f(): return __debug__"),
            "def f():\n a\n return 1",
            "def f(x):\n if x: return 1\n return x",
            "def f(x):\n if x: return\n else: return x",
            "def f(): return f'a' 'b', f'{a}'",
            "def f(): return f'a' 'b'",
            "def f(): return a if b else None",
            "def f(): return a and b < c < d",
            "def f(): return (x := f)",
            "def f(): return *a, b",
            "def f(): return None\nf = f\ndel f",
            "def f():\n 1\n ...\ndef g(): return f",
            "def f():\n def g(): return super().x\n return __class__",
        ],
        "PARAMETERS": [
            "def f(a, b): return b, a",
            "def f(a, /, b, *, c): return a, b, c",
            "def f(*a, **b): return a, b",
            "def f(a, /, b, *c, d, **e): return a, b, c, d, e",
            "def f(*, a): del a",
            "def f(a, b):\n a += b\n (a, *b) = c = a",
            "def f(a):\n for a in a: pass\n with a as a: pass\n try: a\n except a as a: a",
            "def f(self, x):\n self.x = x\n self.y(x)[x] = self\n self.z += 1",
        ],
        "DEFAULTS": [
            "def f(a=b): return a",
            "def f(a, b=c, d=1): pass",
            "def f(a, /, b=1): pass",
            "def f(a=1, /, *b, c=2, **d): pass",
            "def f(*, a=1): pass",
            "def f(*, a=1, b, c=2, d): return a, b, c, d",
            "def f(*, a, b=x, c): return c, b, a",
            "def f(x, y=g(), *z, a, b=h(), c, d=i(), **e): return a, b, c, d, e",
            "def f(a=(b := c), *, d=(e := b)): return a",
            "def f(a=f, b=a): return a + b",
            "def f(a=g(b=1), *, c={d: e, **g}): pass",
            *at_each("def f(a=__debug__, *, b=not __debug__): return a"),
            "def f(a=x if y else z, *, b=x and y): pass",
            "def f(a=lambda b=c: b, *, d=lambda: e): return a, d",
            "def f(x):\n def g(x=x, *, y=x): return x\n return g",
        ],
        "CLOSURES": [
            "def f(x):\n def g(): return x\n return g",
            "def f():\n x = 1\n def g(): return x\n return g",
            *[nested_defs(depth, "return " + ", ".join(f"a{i}" for i in range(depth))) for depth in (2, 3, 4, 5)],
            nested_defs(5, "return a4, a2, a0"),
            nested_defs(4, "return a0"),
            nested_defs(3, "nonlocal a0, a1\n   a0 = a1 = a2\n   a0 += 1\n   del a1"),
            "def f(z, y, x):\n def g(): return x, y, z\n def h(): return y, z, x\n return g, h",
            "def f(b, a):\n def g():\n  c = b\n  def h(): return a, c, b\n  return h\n return g",
            "def f(x, y):\n def g():\n  def h(): return y\n  return x\n return g",
            "def f(x, y):\n def g():\n  x\n  def h(): return y, x\n  def i(): return h, y\n  y\n return g",
            "def f(a, /, b, *c, d, e=1, **g):\n def h(): return g, e, d, c, b, a\n return h",
            "def f(a, b, c):\n def g(): return c, a\n return b",
            "def f(*a, **b):\n def g(): return b\n return a",
            "def f(*, a=1, b, c=2):\n def g(): return b, a\n return c",
            "def f(x):\n def g(x):\n  def h(): return x\n  return h\n return g, x",
            "def f():\n def g(): return g()\n return g",
            "def f():\n def g(): return h()\n def h(): return g()\n return g",
            "def f(x):\n def g(): return x\n def h(): return x\n def i(): return g, h\n return i",
            "def f(x):\n def g():\n  def h():\n   nonlocal x\n   x = 1\n  h()\n g()\n return x",
        ],
        "CELLS": [
            "def f(x):\n def g(): return x\n x += 1\n del x",
            "def f():\n for x in a:\n  def g(): return x\n return g",
            "def f():\n with a as x, b as y:\n  def g(): return y, x\n return g",
            "def f():\n try: a\n except E as e:\n  def g(): return e\n return g",
            "def f():\n (x := a)\n def g(): return x\n x: int = g",
            "def f():\n x: int\n def g(): return x\n return g",
            "def f(a):\n if a:\n  def g(): return a\n else:\n  def g(): return 1\n return g",
            "def f():\n def g(): pass\n def g(): return g\n return g",
            "def f(x):\n def g():\n  nonlocal x\n  x += 1\n  return x\n return g",
            *at_each("def f():\n x = 1\n def g():\n  nonlocal x\n  del x\n return g"),
            "def f():\n def g():\n  nonlocal x\n  def h():\n   nonlocal x\n   x = 2\n  return h\n x = 1\n return g",
            "def f():\n x = y = 1\n def g():\n  nonlocal y, x\n  x, *y = y\n return g",
            "def f(x):\n def g():\n  nonlocal x\n  def h(): return x\n  x = h\n return g",
            "def f(x):\n def g(y):\n  nonlocal x\n  for x in y: x\n  with y as x: x\n  try: x\n  except y as x: (x := y)\n return g",
        ],
        "GLOBALS": [
            *at_each("global x\nx"),
            *at_each("def f():\n global x\n x = 1"),
            "def f():\n global x, y\n x = y\n del x",
            "def f():\n global f\n f = 1",
            "x = 1\ndef f():\n global x\n x += 1\nx",
            "def f(x):\n def g():\n  global x\n  x = 1\n  return x\n return g, x",
            "def f():\n global x\n def g(): return x\n def h():\n  x = 1\n  return x\n return g",
            "def f():\n def g():\n  global g\n  def g(): return g\n g()",
            "global x\nx = 1\ndef f(): return x",
            "def f():\n global x\n for x in a: x\n with b as x: x\n try: x\n except E as x: x\n (x := x)",
            "def f(a):\n def g():\n  global a\n  def h(): return a\n  return h\n return g",
            "def f(a):\n def g():\n  global a\n  def h(b=a):\n   a = b\n   return lambda: a\n  return h\n return a",
        ],
        "LAMBDAS": [
            *at_each("lambda: 1"),
            *at_each("lambda: __debug__"),
            "f = lambda x: x",
            "lambda a, /, b, *c, d, e=1, **f: (a, b, c, d, e, f)",
            "lambda *, a=1, b, c=2, d: a",
            "lambda a=b, *, c=d: e",
            "lambda x: lambda y: lambda z: (x, y, z)",
            "lambda a=lambda b=lambda: c: b: a",
            "lambda: f'a'\nlambda: f'{a}'",
            "lambda: (x := x)\nlambda: (x, [*y])",
            "lambda x: x.y if x < y < z else -x or x[y]",
            "def f(x, y): return lambda: lambda: (y, x)",
            "def f(x): return lambda y=x, *, z=x: (x, y, z)",
            "def f(a):\n g = lambda: h\n h = lambda: g\n return a",
            "lambda *a, **b: lambda *, c, d=a: (b, c)",
            "def f():\n y = lambda: (x := 1)\n x = 2\n return lambda: x",
        ],
        "LAMBDAS_WITHIN": [
            "f(lambda: a, *b, c=lambda d: d, **{e: lambda: g})",
            "a.b(lambda: c, d=lambda: e)",
            "{a: lambda: b, **c, (lambda: d): lambda: e}",
            "{**(lambda: a)(), (lambda: b)(): (lambda: c)()}",
            "{lambda: a, *b, lambda: c}",
            "[lambda: a, *(lambda: b)(), (lambda: c,)]",
            "(lambda: a) < (lambda: b) <= (lambda: c) != (lambda: d)",
            "a in (lambda x: x) is not b",
            "if lambda: a: b\nelif not (lambda: c) and (lambda: d): e",
            "while lambda: a: break",
            "x[lambda: a] = y[(lambda: b):(lambda: c)]",
            "x[lambda: a] += lambda: b",
            "(lambda: x).y = (lambda: z).y = lambda: a",
            "(lambda: x).y += lambda: z",
            "del x[lambda: a], (lambda: b).c",
            "f'{(lambda: a)():{(lambda: b)()}}'",
            "x = (lambda: a) if (lambda: b) else (lambda: c)",
            "raise (lambda: a) from (lambda: b)",
            *at_each("assert lambda: a, lambda: b"),
            "for x in lambda: a: lambda: x\nelse: lambda: b",
            "with (lambda: a) as x, (lambda: b)() as y[lambda: c]: lambda: d",
            "try: a\nexcept (lambda: E)() as e: lambda: e\nfinally: lambda: b",
            "x: lambda: a = lambda: b",
            "a[lambda: b]: lambda: c\nlambda: d",
            "-(lambda: a) + (lambda: b) or (lambda: c)",
        ],
        "GENERATORS": [
            *at_each("def f(): yield"),
            "def f(): yield a",
            "def f(): x = yield a\ndef g(): x = yield",
            "def f(): return (yield a)",
            "def f(): yield (yield (yield))",
            *at_each("def f(): yield from a"),
            "def f(): x = yield from (yield from a)",
            "def f(): return (yield from a)",
            *at_each("def f():\n return 1\n yield"),
            "def f():\n for x in a: yield x",
            "def f():\n while (yield): yield 1\n else: yield from a",
            "def f():\n with (yield a) as x: yield from x",
            "def f():\n try: yield a\n except (yield b) as e: yield e\n else: return c\n finally: yield d",
            "def f(a=1, *b, **c):\n yield a\n def g(): yield b\n yield from g()",
            "def f(x):\n def g(): yield x\n return g",
            "def f(x):\n yield\n def g(): return x\n return g",
            "def f(): g((yield a), *(yield b), c=(yield d))",
            "def f(): [(yield a), *(yield from b)], {(yield c): (yield d)}",
            "def f(): (yield a) < (yield b) < (yield c)",
            "def f(): f'{(yield a):{(yield b)}}'",
            "def f():\n (yield).x = yield\n x[(yield)] += yield y\n del (yield)[a]",
            "def f(): raise (yield a) from (yield b)",
            *at_each("def f(): assert (yield a), (yield b)"),
            "lambda: (yield)\nlambda x: (yield from x)",
            "def f(): lambda: (yield)",
            "def f(): yield lambda: (yield x)",
            "def f():\n def g(a=(yield)): pass\n return g",
            "def f():\n @(yield)\n def g() -> (yield): pass",
            "def f():\n x = 1\n def g():\n  nonlocal x\n  x = yield x\n return g",
            "def f(): x: (yield a) = (y := b)",
            "def f(): yield *a, b\ndef g(): yield __debug__",
        ],
        "DECORATORS": [
            "@a\ndef f(): pass",
            "@a\n@b.c\n@d(e)\ndef f(): return f",
            "@a(lambda: b)\ndef f(x): return x",
            "@(lambda g: lambda: g)\n@h\ndef f(a=1, *, b=2): pass",
            "@a[b]\n@c or d\ndef f(): pass",
            "def f(x):\n @x\n def g(): return x\n return g",
            "@(x := a)\ndef f(): return x",
            "@a\n\n@lambda f: f\n@b\ndef f():\n @c\n def g(): yield",
            "@a\ndef f(b=c): pass\n@f\ndef g(): return f",
            "while a:\n @b\n def f(c): return c\n break",
        ],
        "NOTES": [
            "def f(a: b) -> c: pass",
            "def f(a: b, /, c: d, *e: g, h: i, **j: k) -> l: pass",
            "def f(a: b = c, *, d: e = g) -> h: return a",
            "def f(a, b: c, *d, e, **g: h): pass",
            "def f(a: lambda: b) -> lambda: c: pass",
            "def f(a: (lambda x=y: x) = lambda: z, *b: lambda: c) -> (lambda: d): return a",
            "def f(a: 'b') -> 'c': 'd'",
            "def f(a: (x := y)) -> (z := x): pass",
            "def f(x):\n def g(y: lambda: x) -> x: return lambda: x\n return g",
            *at_each("@a(lambda: b)\ndef f(c: lambda: d = lambda: e) -> lambda: g:\n 'doc'\n return lambda: h"),
            "def f(*a: b, **c: d): return lambda: (a, c)",
            "def f(a: f, b: a = a) -> f(a): pass",
            noted("lambda x, *y: x", "x", "z"),
            noted("def f(): return lambda x: lambda: x\nlambda: a", "x", "lambda: z"),
            noted("lambda *x, a=lambda: b: (lambda: x)\nlambda: c", "x", "lambda: lambda: z"),
        ],
        "ANNOTATED": [
            "def f():\n x: int\n y: int = 1\n return y",
            "def f():\n x: y = z\n a.b: c = d\n e[g]: h",
            "def f():\n x: lambda: y = lambda: z\n return lambda: x",
            "def f():\n a[lambda: b]: lambda: c\n def g(): return a\n return lambda: g",
            "def f():\n a[lambda: b].c: lambda: d = lambda: e\n lambda: g",
            "def f():\n (x): lambda: y\n return lambda: z",
            "x: lambda: y = lambda: z\ndef f(): return x\nwhile a: b: f",
            "def f(x):\n x: int\n def g(): return x\n x: str = g",
            "def f():\n x: (y := z)\n return y",
            "def f():\n a: (lambda b=lambda: c: lambda: d)\n return lambda: e",
            "def f():\n x: [lambda: a, (lambda: b, lambda: c)] = [lambda: d]\n return lambda: e",
            "def f():\n x: [y for y in (lambda: z)]\n return lambda: a",
            noted("def f():\n b: lambda x: lambda: y\n return lambda: c", "x", "lambda: z"),
        ],
        "DOCSTRINGS": [
            *at_each("def f(): 'doc'"),
            *at_each("def f():\n 'doc'\n return 1"),
            *at_each("def f():\n 'doc'\n 'again'"),
            *at_each("'module'\ndef f(x):\n 'doc'\n def g():\n  'inner'\n  return x\n return g"),
            *at_each("@a\ndef f(b: c = d):\n f'a' 'b'\n yield b"),
            "def f():\n f'{a}'",
            "def f():\n b'doc'",
            At("0", "def f():\n a\n 'doc'"),
            At("1", "def f(): f''"),
            At("2", "def f():\n 'doc'\n lambda: 'doc'"),
        ],
        "PASSED": [
            *at_each("assert lambda: a\ndef f(): return b"),
            *at_each("assert (lambda: a)(), lambda: b\nlambda: c\ndef f(): return lambda: d"),
            *at_each("def f(x):\n assert lambda: x, lambda: y\n def g(): return y\n return g"),
            *at_each("def f(x):\n assert (lambda y=lambda: x: y)(lambda: z), (lambda: (lambda: a))\n return lambda: b"),
            *at_each("assert [a for a in (lambda: b)], {c: d for c in e for d in (lambda: c)}\nlambda: f"),
            At("1", "assert lambda a: b, lambda: c\nassert lambda: d\n@(lambda: e)\ndef f(g=lambda: h, *, i=lambda: j) -> lambda: k: return lambda: l"),
            At("2", "def f():\n if a: assert lambda: b\n else:\n  assert lambda: c\n  def g(): assert lambda: d\n return lambda: e"),
            At("1", "def f(x):\n def g():\n  nonlocal x\n  assert (x := lambda: x)\n assert g\n return lambda: x"),
            At("2", noted("assert lambda x: (lambda: y), lambda: a\nlambda: b", "x", "lambda: z")),
            At("1", "def f():\n assert (yield lambda: a)\n return lambda: b"),
        ],
        "RETURNS_WITHIN": [
            *at_each("def f():\n for x in a: return x"),
            "def f():\n for x in a:\n  if x: return\n  continue\n else: return b",
            "def f():\n while a:\n  while b: return c\n  break\n return 1",
            *at_each("def f():\n with a as b: return b"),
            "def f():\n with a, b as c:\n  for x in c: return x",
            *at_each("def f():\n try: return a\n finally: b"),
            "def f():\n try: a\n finally: return b",
            "def f():\n try: return a\n except E as e: return e\n else: return b\n finally: c",
            "def f():\n for x in a:\n  try: return x\n  finally: break",
            "def f():\n for x in a:\n  try:\n   with x as y: return y\n  finally: continue\n return",
            "def f():\n try:\n  try: return a\n  finally: b\n finally: return c",
            "def f():\n while True:\n  try: a\n  except E as e:\n   if e: return e\n   break\n  else: continue",
            "def f(x):\n for x in x:\n  try: return lambda: x\n  except E as e: return lambda: e",
            *[within_function(nested(outer, inner, ["return", "return k", "return 1"][(i + j) % 3])) for i, outer in enumerate(WRAPS) for j, inner in enumerate(WRAPS) if (i * 7 + j * 4) % 11 == 3],
        ],
        "BORDERS": [
            "while a:\n def f(): pass\n break",
            "for a in b:\n c = lambda: a\n continue",
            "while a:\n def f():\n  for b in c: break\n  while b: continue\n if f: break",
            "def f():\n while a:\n  def g():\n   while b: continue\n  break",
            "while a:\n def f(): break",
            "for a in b:\n def f(): continue",
            "def f():\n while a:\n  def g(): return a\n  break\n continue",
            "while a:\n def f():\n  for b in c: break\n  break",
            "def f(): break",
            "try: a\nfinally:\n def f():\n  with a: continue",
        ],
        "PLACE_FAULTS": [
            *at_each("return"),
            "return a",
            "if a: b\nelse: return *c, d",
            "for a in b: return a",
            "def f(): pass\nreturn f",
            *at_each("yield"),
            "x = yield a",
            "lambda: 1\n(yield from a)",
            "f(lambda: (yield), (yield a))",
            "def f(a=(yield)): return (yield)",
            "def f(a: (yield b)): return (yield)",
            "@(yield from a)\ndef f(): return",
            At("0", "assert (yield a)"),
            At("1", "assert (yield a), await b\nyield"),
            *at_each("await a"),
            "def f(): await a",
            "lambda: await a",
            "def f():\n def g(): return (yield await b)\n return await a",
            "def f(a=await b): await c",
        ],
        "DEBUG_FAULTS": [
            "def f(__debug__): pass",
            "def f(a, *, b, __debug__=1): pass",
            "def f(*__debug__): pass",
            "def f(a, **__debug__): pass",
            "lambda __debug__: a",
            "lambda a, /, *, __debug__: b",
            "lambda a=lambda __debug__: b: c",
            "def __debug__(): pass",
            "@a\ndef __debug__(b=1):\n 'doc'\n return c",
            "def f(): __debug__ = 1",
            "def f():\n global __debug__\n del __debug__",
            "def f(x):\n def g(): (__debug__ := x)\n return g",
            "def f():\n __debug__: a = 1",
            "def f(__debug__: a.b) -> c: break",
        ],
        "ORDER_FAULTS": [
            "def f(): return *a",
            "def f(): yield *a",
            with_part("lambda: *a", "*a"),
            with_part("lambda x=*a: (yield)", "*a"),
            with_part("def f(a=*b): break", "*b"),
            with_part("@*a\ndef f(b=c.d): break", "*a"),
            with_part("def f() -> *a: break", "*a"),
            with_part("def f(a: *b) -> c: pass", "*b"),
            "def f(*a: *b): pass",
            "def f() -> (await a): return *b",
            "def f(x: await y = await z): break",
            "def f(__debug__, a: await b = c): break",
            "lambda a=(yield), *, b=await c: (await d)",
            "def f():\n def g(): continue\n break",
            "def f() -> await a: pass",
            with_part("def g(x):\n lambda: x\n f(x) = 1", "f(x)"),
            with_part("def g(x):\n def h(): del -x\n return", "-x"),
        ],
        "SCOPE_FAULTS": [
            "def f(x):\n def g(x): nonlocal x",
            "def f():\n def g():\n  nonlocal y\n x = 1",
            "def f():\n global x\n def g(): nonlocal x",
            "def f():\n x = 1\n def g():\n  x\n  nonlocal x",
            "def f():\n def g():\n  x = 1\n  global x",
            "def f(a, *b, c=1, **d): global b",
            "def f(a, *b, c=1, **d): nonlocal d",
            "x = 1\ndef f(): nonlocal x",
            "def f(x):\n def g():\n  global x\n  def h(): nonlocal x",
            "def f(x: int): global x",
            "lambda: a\nreturn\ndef f(): nonlocal x",
            "def f():\n def g(): nonlocal g\n def h(): nonlocal f",
            "def f(): nonlocal x, y\nclass A: pass",
        ],
        "OTHERS": [
            *at_each("class A: pass"),
            "def f():\n class A: return",
            "from __future__ import annotations\ndef f(a: b): break",
            "async def f(): await a",
            "def f():\n async def g(): pass",
            "def f():\n async for x in y: await z",
            "def f():\n async with a as b: c",
            "def f():\n try: a\n except* E: b",
            "def f(a: [b for b in c]) -> (yield): a",
            "def f(a: [b for b in c]): break",
            "def f():\n return\n class A: pass",
            "def f(x):\n def g():\n  def h(): return (x for y in x)\n  import a\n return g",
            "def f(): yield [x async for x in y]",
            "def f(): break\nclass A: pass",
            "class A: break\ndef f(): break",
            "def f(): a: [b for b in c]\nimport a",
            "def f():\n match a:\n  case b: pass",
            rows_of("def f[T](): return T", [["TypeVar", 1, 7, "T", None], ["Arguments", [], [], None, [], None], ["Name", 1, 19, "T"], ["Return", 1, 12, 2], ["FunctionDef", 1, 1, "f", 1, [3], [], None, [0]], ["Module", [4]]]),
            rows_of("@a\ndef f[T: await b](): break", [["Name", 1, 2, "a"], ["Name", 2, 16, "b"], ["Await", 2, 10, 1], ["TypeVar", 2, 7, "T", 2], ["Arguments", [], [], None, [], None], ["Break", 2, 22], ["FunctionDef", 2, 1, "f", 4, [5], [0], None, [3]], ["Module", [6]]]),
            rows_of("def f():\n type X = a", [["Arguments", [], [], None, [], None], ["Name", 2, 7, "X"], ["Name", 2, 11, "a"], ["TypeAlias", 2, 2, 1, [], 2], ["FunctionDef", 1, 1, "f", 0, [3], [], None, []], ["Module", [4]]]),
            entered("lambda: a"),
        ],
        "WIDE": [
            named("a function with 300 parameters", "def f(" + ", ".join(f"n{i}" for i in range(300)) + "): return n0, n255, n256, n299"),
            named("a function that sees 258 cells", "def f(" + ", ".join(f"n{i}" for i in range(258)) + "):\n def g(): return " + ", ".join(f"n{i}" for i in range(257, -1, -1))),
            named("a function that makes 20 functions", "def f():\n" + "".join(f" def g{i}(): return {i}\n" for i in range(20)) + " return " + "+".join(f"g{i}" for i in range(20))),
            named("a function 20 deep", "\n".join(" " * i + f"def f{i}():" for i in range(20)) + "\n" + " " * 20 + "return f0, f18, f10"),
        ],
    },
    "eval": {
        "LAMBDAS": [
            *at_each("lambda: a"),
            "lambda x=1, *y, z=2, **w: (x, y, z, w)",
            "lambda a: lambda b: lambda c: lambda d: lambda e: (e, d, c, b, a)",
            "f(lambda: a, b=lambda: c)(lambda: d)",
            "[lambda: a, lambda: b][lambda: c]",
            "{lambda: a: lambda: b}",
            "a < (lambda: b) < c",
            "(lambda: a) if (lambda: b) else (lambda: c)",
            "not (lambda: a) and (x := lambda: x)",
            "f'{(lambda: a)()}{(lambda b: b)(c)!r}'",
            "lambda: (yield (yield from a))",
            ("a file with a generator", rows_text("def f(x=1):\n 'doc'\n yield lambda: x")),
            ("a file with a wrong return", rows_text("def f(): return\nreturn f")),
        ],
        "LAMBDA_FAULTS": [
            "(yield)",
            "f(a, (yield from b))",
            "await a",
            "lambda: await a",
            "lambda x=(y for y in z): await x",
            "lambda __debug__=await a: b",
            entered("def f(): pass"),
        ],
    },
    "single": {
        "FILES": [
            "f = lambda x: x\nf",
            "def f(a):\n 'doc'\n return a\nf",
            "def f(x):\n def g():\n  nonlocal x\n  x = yield\n return g",
            "lambda: a\nlambda: b",
            "return a",
        ],
        "PROMPTS": [entered("lambda: a"), entered("def f(): return 1"), entered("a = lambda: b")],
    },
    "block": {
        "FILES": [
            "def f(a, *, b=1): return lambda: a",
            "f = lambda: (yield)\nf",
            "@a\ndef f(b: c): yield b\n1",
            "def f():\n global x\n x = 1\nx",
            "def f(): await a",
            "class A: pass",
        ],
        "PROMPTS": [entered("lambda: a"), entered("def f(): return 1")],
    },
}

# Comprehensions, within one another and within functions
COMPREHENSIONS = {
    "exec": {
        "KINDS": [
            *at_each("[a for a in b]"),
            *at_each("{a for a in b}"),
            *at_each("{a: b for a in c}"),
            *at_each("(a for a in b)"),
            "f(a for a in b)",
            "f(a for a in b)(c for c in d)[[e for e in g]]",
            "a = [b for b in c]\na = {b for b in c}\na = {b: c for b in c}\na = (b for b in c)",
            "[1 for a in b]\n(None for a in b)",
            "[__debug__ for a in b]\n(not __debug__ for a in b)",
            "[f'a' 'b' for a in b]\n(f'{a!r:>{b}}' for a in b)",
            "{a + 1: -a for a in b}\n{a: a < b < c for a in b}",
            "[a.b(c, *a, d=a, **e) for a in b]",
            "{**a, 'x': 1}[(a for a in b)]",
            "[[*a] for a in b]\n(f(*a) for a in b)",
            "[(*a, b) for a in b]\n{a: {**a} for a in b}",
            "[(a, *b, [c, {*d}], {a: b, **c}) for a in e]",
            "[a if b else c for a in d]\n(a and b or not c for a in d)",
            "[a[b:a, ::c] for a in d]",
            "a = b = [c for c in a]\ndel a, b",
        ],
        "TARGETS": [
            "[a for a, b in c]",
            "{a for a, *b in c}",
            "{a: b for (a, [b, (*c, d)]) in e}",
            "[() for () in a]\n[() for [] in a]",
            "[a for a.b in c]",
            "(a for a[b] in c)",
            "[a for a[b:c], (d.e, *f[g]) in h]",
            "[a for a in b for a in a]",
            "{x: y for x, *y in z for x[y], z in x}",
            "[a for a in a]\na",
            "a = 1\n[b for a[0] in b]",
            "[a for __debug__[a] in b]",
        ],
        "CONDITIONS": [
            *at_each("[a for a in b if a]"),
            "[a for a in b if a if c if not d]",
            "{a for a in b if a and c}",
            "{a: b for a in c if a or b}",
            "(a for a in b if not (a and b or c))",
            "[a for a in b if a < c < d]",
            "[a for a in b if (a if b else c)]",
            *at_each("[a for a in b if __debug__ if not __debug__]"),
            "(a for a in b if True if False or None)",
            "[a for a in b if a for c in d if c or not a for e in f if e]",
            "{a for a in b if not not a for c in a if ~c}",
        ],
        "CLAUSES": [
            "[a for a in b for c in d]",
            "{a for a in b for c in a for d in c}",
            "{a: c for a in b for c in a}",
            *at_each("(c for a in b for c in a)"),
            "[a for a in b for b in a for c in b]",
            "(a + b for a, b in c if a for d.e in a.f(b) if d for g in d[e] if g)",
            "[x for a in b for c in d for e in f for g in h for i in j for k in l for x in m]",
            "[a for a in b or c for d in a and b for e in not d]",
            "[a for a in (b, c) for d in [a, *b] for e in {a: d, **c}]",
        ],
        "NESTED": [
            "[[a for a in b] for b in c]",
            "[[a + b for a in c] for b in d]",
            "{(a for a in b) for b in c}",
            "{a: {a: b for b in a} for a in b}",
            "([{a: (a for c in a) for a in b} for a in b] for a in b)",
            "[a for a in [b for b in c]]",
            "[a for a in [a for a in [a for a in b]]]",
            "[a for a in b for c in [d for d in a]]",
            "(a for a in (b for b in c) for d in (a for b in c) for e in (a for a in d))",
            "[a for a in b if [c for c in a if c]]",
            "[a for a in b if not [c for c in d for e in a] if {e for e in a}]",
            "[a for a[[b for b in c][0]] in d]",
            "{a: b for a.b, c[{a for a in b}] in {c for c in d}}",
            "[[[a, b, c] for a in b] for b in c for c in b]",
            "[lambda: [a for b in c] for a in d]",
            "[(lambda x=[a for a in b]: x) for a in b]",
            "[(x for x in y for y in z) for y in w for z in w]",
            "[[a for a in b] for a in [b for b in a]]",
        ],
        "PLACES": [
            "if [a for a in b]: c\nelif not (d for d in e): g",
            "while [a for a in b] and {a for a in c}: break",
            "for a in [b for b in a]: a\nelse: {a for a in b}",
            "for a[[b for b in c]] in d: continue",
            "with (a for a in b) as c, d as e[[a for a in c]]: [c for d in e]",
            "try: [a for a in b]\nexcept (c for c in d): {e for e in f}\nelse: (g for g in h)\nfinally: {i: j for i in k}",
            "raise [a for a in b] from (c for c in d)",
            *at_each("assert [a for a in b], {c for c in d}\n[e for e in f]"),
            "d[(lambda: k)()] = [x for x in y]",
            "a[[b for b in c]] += [d for d in e]",
            "[a for a in b].c += {d for d in e}",
            "del a[[b for b in c]], (d for d in e).f",
            "[a for a in b].c = [d for d in e][0] = f",
            "a: [b for b in c] = [d for d in e]",
            "a[[b for b in c]]: [d for d in e]\n[f for f in g]",
            "{[a for a in b]: {c for c in d}, **{e: f for e in f}, (g for g in h): i}",
            "f'{[a for a in b]:{(c for c in d)}}'",
            "[a for a in b] < [c for c in d] <= (e for e in f)",
            "f(*[a for a in b], c=[d for d in e], **{g: h for g in h})",
            "a.b([c for c in d], *(e for e in g), h={i for i in j})",
            "[a for a in b] if [c for c in d] else [e for e in f]",
            "a[[b for b in c]:[d for d in e]]",
            "x = y[[a for a in b]] = (z := [c for c in d])",
            "while a:\n [b for b in c]\n if d: break\n continue",
            "for a in b:\n try: [a for a in c]\n finally: (d for d in a)",
        ],
        "NAMES": [
            "a = 1\n[a for b in a]",
            "def f(a): return [a for b in a]",
            "def f(a): return [b for b in a if b < a]",
            "def f(): return [a for a in a]",
            "def f(a): return [a for a in a]",
            "def f(a, b): return [[a, b, c] for c in b]",
            "def f(a, b): return [[b, a, c] for d in c for c in a]",
            "def f(a): return [[a for b in c] for c in d]",
            "def f(a): return lambda: [a for b in c]",
            "def f(a): return [lambda: a for b in c]",
            "def f(a): return [lambda: (a, b) for b in c]",
            "def f():\n return [lambda: a for a in b], [lambda a: a for a in b]",
            "def f(a):\n def g(): return {a: b for b in c for c in a}\n return g",
            "def f():\n global a\n a = 1\n return [a for b in a if a]",
            "def f():\n global a\n return [a for a in a]",
            "def f(a):\n def g():\n  nonlocal a\n  a = [a for b in a]\n return g",
            "def f(*a, b, **c): return {d: (a, b, c) for d in a}",
            "def f(a):\n del a\n return [a for b in c]",
            "lambda a: (a for b in a for c in [a])",
            "lambda a, b=[a for a in b]: [a + b for a in a]",
            "lambda a: lambda b: {a: b for a in b}\nlambda: [f for f in f]",
            "def f(a):\n class_ = [[a, b] for b in a]\n def g(): return class_, a\n return g",
            "def f(): return [f for g in f]\n[f for f in f]",
            "def f(x, y, z): return [[[z, y, x] for a in x] for b in y if z]",
            "def f():\n for a in b: yield [a for c in a]\n return (a for c in a)",
            "def f(super): return [super for a in super]\ndef g(): return [super for a in b]",
            "def f(a):\n def g(): return [a for a in [a for b in a]]\n return lambda: [g for a in a]",
        ],
        "GENERATORS": [
            "def f(): yield [a for a in b]",
            "def f(): yield from (a for a in b)",
            "def f(): return [a for a in (yield b)]",
            "def f(): return (a for a in (yield from b))",
            "[(yield a) for a in b]",
            "{(yield): (yield a) for a in b}",
            "((yield from a) for a in b)",
            "[a for a in b if (yield)]",
            "[a for a in b for c in (yield from a)]",
            "def f(): return [(yield a) for a in (yield)]",
            "def f():\n return [a for a in b]\n yield",
            "lambda: ((yield a) for a in (yield))",
            "([(yield b) for b in a] for a in (yield_ for yield_ in c))",
            "[lambda: (yield a) for a in b]",
            "def f(a): return sum(b.n for b in a if b), max((yield), *(c for c in a))",
            "[(a for a in b) for c in (d for d in e)]",
        ],
        "FUNCTIONS": [
            "def f(a=[b for b in c], *, d={e for e in g}): return a",
            "def f(a=(b for b in c)): return [a for a in a]",
            "def f(a, b=lambda: [c for c in d]): return b",
            "@[a for a in b][0]\n@c(d for d in e)\ndef f(): return [f for g in h]",
            "def f(a: [b for b in c], *d: {e for e in g}) -> (h for h in i): return [a for j in k]",
            "def f(a: [b for b in c] = [d for d in e]) -> {g: h for g in h}:\n 'doc'\n return lambda: [a for a in a]",
            "def f():\n a: [b for b in c] = [d for d in e]\n g: (h for h in i)\n return [a for g in a]",
            "def f():\n a[[b for b in c]]: [d for d in e]\n return lambda: g",
            *at_each("def f(a):\n assert [a for a in a], (b for b in a)\n return {a for a in a}"),
            "def f(a):\n for b in [c for c in a]: return [b for d in a]\n else: return (b for d in a)",
            "def f(a):\n with [b for b in a] as c: return {c: b for b in a}",
            "def f(a):\n try: return [b for b in a]\n except E as e: return [e for b in a]\n finally: (a for b in c)",
            "def f(a):\n while [b for b in a]:\n  if a: return (b for b in a)\n  break\n def g(): return [a for c in d]",
            "def f(a):\n return 1\n [b for b in a]",
            "def f(x): return [y for y in x]",
            "def f(x):\n x = {y for y in x}\n return",
            "def f(x): yield {y: z for y, z in x}",
            "lambda x: f(y for y in x)",
            "lambda a, b={c for c in d}: (yield)",
            "f(lambda: a, b=[lambda: c for d in e])",
            noted("lambda x, y=[a for a in b]: [x for a in y]\n[c for c in d]", "x", "[e for e in [g for g in h]]"),
        ],
        "WALRUSES": [
            "[b := a for a in c]",
            "[b for a in c if (b := a)]",
            "def f(): return [y := v for v in z]",
            "[(lambda: y) for v in z if (y := v)]",
            "def f():\n x = [b := a for a in c]\n return b",
            "def f():\n [b := a for a in c]\n return lambda: b",
            "def f(b): return [b := a for a in b]",
            "def f():\n global b\n return [b := a for a in c]",
            "def f():\n global b\n return [[b := a for a in c] for c in b]",
            "def f(b):\n def g():\n  nonlocal b\n  return [b := a for a in c]\n return g",
            "def f(): return [[b := a for a in c] for c in d]",
            "def f(): return [(b := a, [c := b for d in a]) for a in e]",
            "[[j := i for i in a] for b in c]\nj",
            "def f(): return {(b := a): (c := b) for a in d if (e := a)}, b, c, e",
            "def f(): return (b := a for a in c)",
            "lambda: [b := a for a in c]\nlambda b: [b := a for a in b]",
            "def f():\n [b := a for a in c]\n def g(): return b\n b = 1\n return g",
            "def f():\n return lambda: [b := a for a in c]",
            "def f(): return [lambda: (b := a) for a in c]",
            "def f(): return [[a := b for b in c] for d in e if [a for a in f]]",
            "b = 1\ndef f():\n global b\n b = [b := a for a in c]\nb",
            "def f(b):\n del b\n return {a: (b := c) for a in c for c in a if (d := b)}",
            "[x for a in b if (x := a) if [y := x for c in x]]\nx, y",
            "def f():\n [b := a for a in c]\n global b",
            "{a: (lambda: [a := 0 for b in c]) for a in d}\n[[a := 0 for b in c] for b.a in d]",
            "[a for a in b(c := d)]\n[a for a in b[c := d]]\n[a for a in (b if (c := d) else e)]",
            "[a for a in f'{(b := c)}']\n[a for a in (lambda b=(c := d): b)]",
            "[a for a in (b := c).d]\n[a for a in b for d in c(e := a)]",
            with_part("[((b, *c) := a) for a in d]", "(b, *c)"),
            with_part("def f(): return [((b, [c]) := a) for a in d]", "(b, [c])"),
            with_part("[(b.c := a) for a in d]", "b.c"),
            with_part("def f(): return [lambda: (b[c] := a) for a in d]", "b[c]"),
            "def f():\n if any((hit := a) > b for a in c): return hit\n return [last := a for a in c], last",
        ],
        "WALRUS_FAULTS": [
            "(y := 0 for y in z)",
            "{x for y in z if (y := x)}",
            "[[y := 0 for x in z] for y in z]",
            "[a for a in (b := c)]",
            "[a for a in b for c in (d := a)]",
            "[a for a in [b, (c := d)]]",
            "[a for a in b + (c := d)]",
            "[a for a in (lambda: (b := c))]",
            "[a for a in [b for b in (c := d)]]",
            "{a: b for a in (b := c)(d)}",
            "(a for a in (b, *(c := d)))",
            "[a for a in (await (b := c))]",
            "def f(): return [a for a in (yield (b := c))]",
            "[a for a, b in c if (b := a)]",
            "[[a := b for b in c] for d, *a in e]",
            "def f(): return [[[a := 0 for b in c] for d in e] for a in g]",
            "[a for a in b for c in d if (a := c)]",
            "def f():\n nonlocal b\n return [b := a for a in c]",
            "[(__debug__ := a) for a in b]",
            "[a for a in (b := c)]\n*d",
            with_part("[((a, b) := c) for a in d]", "(a, b)"),
            with_part("[(f(a) := b) for a in c]", "f(a)"),
        ],
        "STAR_FAULTS": [
            with_part("[*a for a in b]", "*a"),
            with_part("{*a for a in b}", "*a"),
            with_part("(*a for a in b)", "*a"),
            with_part("{*a: c for a in b}", "*a"),
            with_part("{a: *c for a in b}", "*c"),
            with_part("[a + *c for a in b]", "*c"),
            with_part("[f(lambda: *a) for a in b]", "*a"),
            with_part("[[*a for a in b] for b in c]", "*a"),
            with_part("[{*a: c for a in b} for c in b]", "*a"),
            with_part("[{a: c for a in *d} for c in b]", "*d"),
            with_part("{a: [*c for c in a] for a in b}", "*c"),
            with_part("[a for a in *b]", "*b"),
            with_part("(a for a in b for c in *a)", "*a"),
            with_part("[a for a in b if *a]", "*a"),
            with_part("[a for a in b if not *a]", "*a"),
            with_part("[[a for a in b if *a] for b in c]", "*a"),
            with_part("[(a for a in *b) for b in c]", "*b"),
            with_part("(lambda c=*a: c for a in b)", "*a"),
            "[b[*a,] for a in b]\n*c",
            with_part("[a[*b] for a in c]", "*b"),
            with_part("[*a for a in *bc]", "*a", "*bc"),
        ],
        "ASYNC_FAULTS": [
            *at_each("[a async for a in b]"),
            "{a async for a in b}",
            "{a: b async for a in c}",
            "(a async for a in b)",
            "[a for a in b async for c in d]",
            "def f(): return [a for a in b for c in d async for e in g if h]",
            "async def f(): return [a async for a in b]",
            "(await a for a in b)",
            "(f(a, await b) for a in c)",
            "((lambda: await a) for a in b)",
            "((lambda c=await a: c) for a in b)",
            "([await a for a in b] for b in c)",
            "([a for a in await b] for b in c)",
            "([a for a in b if await a] for b in c)",
            "([a for a[await c] in b] for b in c)",
            "((await a for a in b) for b in c)",
            "[await a for a in b]",
            "{a: await b for a in c}",
            "(a for a in await b)",
            "(a for a in b for c in await a)",
            "(a for a in b if await a)",
            "[a for a in await b]\nbreak",
            "[a async for a in (yield)]",
            "[[a async for a in b] for c in d]",
            "[a for a in [b async for b in c]]",
            "def f(): return (f'{await a}' for a in b), [*(await c), d]",
        ],
        "TARGET_FAULTS": [
            with_part("[a for 1 in b]", "1"),
            with_part("[a for f(a) in b]", "f(a)"),
            with_part("[a for b, 'c' in d]", "'c'"),
            with_part("(a for *a in b)", "*a"),
            "{a for *b, *c in d}",
            "{a: b for a, (*b, *c) in d}",
            "[a for __debug__ in b]",
            "(a for a.__debug__ in b)",
            "[a for a in b for c.d, __debug__ in e]",
            with_part("[a for a in b.c for [d, e + f] in g]", "e + f"),
            with_part("[a for a in b if a for [c for c in d] in e]", "[c for c in d]"),
            with_part("[c for c in d] = e", "[c for c in d]"),
            with_part("(c for c in d) += e", "(c for c in d)"),
            with_part("del {c for c in d}", "{c for c in d}"),
            with_part("for {c: d for c in d} in e: f", "{c: d for c in d}"),
            "[a for a in b(__debug__=c)]",
            "[a(__debug__=b) for a in c]",
            "[a for a in b if a(__debug__=c)]",
        ],
        "ORDER_FAULTS": [
            with_part("[*a for a.__debug__ in b]", "*a"),
            with_part("[a(__debug__=b) for a in *c]", "*c"),
            with_part("[*a for a in b if *cd for e in f]", "*a", "*cd"),
            with_part("[a for a in *b for __debug__ in *cd]", "*b", "*cd"),
            "[a async for __debug__ in b]",
            "[(yield) for a in (yield b)]",
            "[a for a in (yield)]",
            "{a: b for a in c for b in (yield from a) for d in (await b)}",
            "{(yield from b) for a in (yield from c)}",
            "x = [a for a in b]\nbreak",
            "for a in [b for b in c]: pass\nelse: break",
            "while [a for a in b]:\n def f(): [continue_ for continue_ in a]; continue",
            "def f(a=[b for b in (yield)]): break",
            "def f(a=[b for b in c], *, d=(yield)): break",
            "@a\n@(b for b in c)\ndef f(): break",
            "def f(a: [await b for b in c]): continue",
            "lambda a=[await b for b in c]: (yield)",
            "@[b for b in await c]\ndef f(): break",
            "[a for a in b if a]\nreturn [c for c in d]",
            At("0", "assert [a for a in await b], [c async for c in d]"),
            At("1", "assert [a for a in await b], [c async for c in d]\nreturn"),
            rows_of("a list comprehension without a clause", [["Name", 1, 2, "a"], ["ListComp", 1, 1, 0, []], ["Expr", 1, 1, 1], ["Module", [2]]]),
            rows_of("a generator without a clause, in a set comprehension", [["Name", 1, 3, "a"], ["GeneratorExp", 1, 2, 0, []], ["Name", 1, 10, "b"], ["Name", 1, 15, "c"], ["Comprehension", 2, 3, [], False], ["SetComp", 1, 1, 1, [4]], ["Expr", 1, 1, 5], ["Module", [6]]]),
            rows_of("a dict comprehension without a clause", [["Name", 1, 2, "a"], ["Name", 1, 5, "b"], ["DictComp", 1, 1, 0, 1, []], ["Expr", 1, 1, 2], ["Module", [3]]]),
        ],
        "WIDE": [
            named("a comprehension of 60 clauses", "[a59 " + " ".join(f"for a{i} in {'a%d' % (i - 1) if i else 'b'}" for i in range(60)) + "]"),
            named("a comprehension of 260 conditions", "[a for a in b " + " ".join(f"if c{i}" for i in range(260)) + "]"),
            named("a generator over 258 cells", "def f(" + ", ".join(f"n{i}" for i in range(258)) + "): return (" + " + ".join(f"n{i}" for i in range(257, -1, -1)) + " for a in b)"),
            named("comprehensions 20 deep", "[" * 20 + "a0" + "".join(f" for a{i} in a{i + 1}]" for i in range(20))),
            named("20 comprehensions", "\n".join(f"a{i} = [b{i} for b{i} in c]" for i in range(20))),
            named("walruses of 20 names, 5 deep", "def f():\n return [[[[[(" + ", ".join(f"(n{i} := a)" for i in range(20)) + ") for a in b] for b in c] for c in d] for d in e] for e in g]"),
        ],
    },
    "eval": {
        "VALUES": [
            "[a for a in b]",
            "{a for a in b if a}",
            "{a: b for a, b in c.d()}",
            "(a for a in b)",
            "sum(a * b for a, b in zip(c, d) if a for e in a)",
            "[[a, b] for a in c for b in a]",
            "[b := a for a in c] or b",
            "[a for a in b] and {a for a in b}",
            "not [a for a in b] if (a for a in b) else {a: b for a in b}",
            "(lambda a: [a for b in a])([c for c in d])",
            "[lambda: a for b in c]",
            "[y for y in z if (x := y)][x]",
            ("a file with a comprehension", rows_text("x = [y for y in z]")),
        ],
        "FAULTS": [
            "[y := 0 for y in z]",
            with_part("[*a for a in b]", "*a"),
            "(await a for a in b)",
            "[a async for a in b]",
            "[a for a in (yield)]",
            "[await a for a in b]",
        ],
    },
    "single": {"FILES": ["[a for a in b]\na = (b for b in c)", "def f(a): return {a for b in c}\n[d for d in f]"]},
    "block": {"FILES": ["a = {b: c for b in c}\n[a for b in a]"]},
}


def returning(outer, inner, last):
    """A function that is left, or goes on, within one form of control that stands in another."""
    return within_function(nested(outer, inner, last) + "return q")


def three(outer, middle, inner, last):
    """A function with three forms of control in one another."""
    return within_function(WRAPS[outer](WRAPS[middle](f"if i: {last}\n" + WRAPS[inner](f"if j: {last}\n{last}")) + "m"))


def picked(count, *choices):
    """Some of the ways to take one of each, far from one another: 7919 is a prime."""
    ways = list(itertools.product(*choices))
    return [ways[i * 7919 % len(ways)] for i in range(count)]


LASTS = ["return", "return None", "return k", "return k, 1", "return 1", "raise", "raise k", "raise k from None", "yield", "yield k", "x = yield k", "yield from k"]

# A function that is left, or goes on, from within loops, handlers, last parts and `with`
LEAVING = {
    "exec": {
        "WORKED": [
            At("1", "assert all(x for x in y)"),
            At("0", "raise x\ndef f(): return y"),
            At("1", "raise x\ndef f(): return y"),
            At("0", "{**a, 'x': 1}"),
            At("0", "def f():\n with a as x: raise e"),
            At("0", "def f():\n with a as x: return x"),
        ],
        "ALONE": [within_function(WRAPS[wrap](last)) for wrap, last in zip(list(WRAPS) * 2, LASTS[1:] + LASTS)],
        "CONSTANTS": [
            *at_each("def f():\n try: return 1\n finally: return 2"),
            *at_each("def f():\n with a: return 'b'\n return ('c',)"),
            *at_each("def f():\n for a in b: return __debug__\n else: return not __debug__"),
            "def f():\n try: return None\n except: return ...\n else: return b'a'\n finally: return True",
            "def f():\n while a: return f'a' 'b'\n return f'{a}'",
            "def f():\n try: return\n finally:\n  try: return 1\n  finally: a",
        ],
        "LOOPS": [
            "def f():\n for a in b:\n  try: break\n  finally: c\n return d",
            "def f():\n for a in b:\n  try: continue\n  finally: c\n return d",
            "def f():\n for a in b:\n  try: return a\n  finally: continue",
            "def f():\n while a:\n  try: return b\n  finally: break\n return c",
            "def f():\n for a in b:\n  for c in a:\n   try: return c\n   finally: break\n  else: continue\n  break",
            "def f():\n for a in b:\n  with a as c:\n   if c: continue\n   if a: break\n   return a, c\n else: return b",
            "def f():\n while a:\n  with b:\n   with c: break\n   return d\n else: return 1",
            "def f():\n for a in b:\n  try:\n   for c in a:\n    try: break\n    finally: continue\n  finally: break\n return a",
            "def f():\n while True:\n  try: a\n  except E as e: continue\n  except F as e: break\n  except: return e\n  else: raise G\n  finally: b",
            "def f():\n for a in b:\n  try: a\n  except E as e:\n   if e: break\n   if a: continue\n   return e\n  yield a",
            "def f():\n for a in b:\n  while a:\n   try: continue\n   except E: break\n   else: return\n   finally:\n    for c in d: break\n    else: continue\n  else: break",
            "def f():\n while a:\n  try: pass\n  finally:\n   while b:\n    try: break\n    finally: c\n   continue\n  return d",
            "def f(a):\n for a in a:\n  def g():\n   for b in a:\n    try: return b\n    finally: break\n  with g() as h: return h\n return lambda: a",
        ],
        "LASTS": [
            "def f():\n try: return a\n finally: return b",
            "def f():\n try: raise a\n finally: return b",
            "def f():\n try: return a\n finally: raise b",
            "def f():\n try: a\n except E: return b\n finally: return c",
            "def f():\n try:\n  try: return a\n  finally: raise b\n except E as e: return e\n finally: yield c",
            "def f():\n try: return (yield a)\n finally: yield b",
            "def f():\n try: yield a\n finally: return (yield from b)",
            "def f():\n with a as b:\n  try: return b\n  finally:\n   with c as d: return d",
            "def f():\n try:\n  with a: raise b\n except E as e:\n  with c: raise\n else: return d\n finally: e",
            "def f():\n try: a\n except E as e:\n  try: raise\n  except F as g: raise g from e\n  finally: return e",
            "def f():\n try: a\n except E as e:\n  try: return e\n  finally: e\n return 1",
            "def f():\n try: a\n except E as e: raise\n except F as f: return f\n else: yield\n finally: del g",
            "def f():\n def g():\n  try: return h\n  finally: break_\n try: return g()\n finally: return lambda: f",
            "def f(e):\n try: a\n except E as e: return lambda: e\n finally: return e",
            "def f():\n global e\n try: a\n except E as e: return e",
            "def f(e):\n def g():\n  nonlocal e\n  try: a\n  except E as e: return e\n return g",
            "def f():\n with a as b, c as d:\n  with e: return b\n  raise d",
            "def f():\n with a as b:\n  yield b\n  return (yield from b)",
            *at_each("def f():\n try: return a\n finally: pass\n b"),
            *at_each("def f():\n while a:\n  try:\n   return b\n   c\n  finally:\n   break\n   d\n  e\n return g\n h"),
            "def f(): return [a for a in b]\ndef g():\n try: return (a for a in b)\n finally: return {a for a in b}",
        ],
        "WITHIN": [returning(outer, inner, last) for outer, inner, last in picked(24, WRAPS, WRAPS, LASTS[:8])],
        "YIELDS": [returning(outer, inner, last) for outer, inner, last in picked(12, WRAPS, WRAPS, LASTS[8:])],
        "THREE": [three(outer, middle, inner, last) for outer, middle, inner, last in picked(24, WRAPS, WRAPS, WRAPS, LASTS)],
        "FROM_LOOPS": [within_function(WRAPS[loop](nested(outer, inner, last)) + "return q") for loop, last, outer, inner in picked(24, ["for", "while"], ["break", "continue", "return k"], WRAPS, WRAPS)],
        "FAULTS": [
            "def f():\n try: return\n finally: break",
            "def f():\n with a: continue\n return",
            "def f():\n for a in b: pass\n else:\n  try: return\n  finally: continue",
            "def f():\n while a:\n  def g():\n   try: return\n   finally: break\n  break",
            "try: return a\nfinally: b",
            "with a:\n for b in c: yield b",
            "for a in b:\n try: break\n finally: return",
            "def f():\n try: return *a\n finally: return",
            "def f():\n try: a\n except E as __debug__: return\n finally: break",
            "def f():\n with a as b.__debug__: return (yield await c)",
        ],
    },
}

def importing(module, names, level=0):
    """Rows of an import from a module, of names that Python's parser does not take together."""
    aliases = [["Alias", name, other] for name, other in names]
    source = ", ".join(name if other is None else f"{name} as {other}" for name, other in names)
    whole = ["ImportFrom", 1, 1, module, list(range(len(names))), level]
    return rows_of(f"from {'.' * level}{module or ''} import {source}", [*aliases, whole, ["Module", [len(names)]]])


# Imports but those from the future
IMPORTS = {
    "exec": {
        "MODULES": [
            *at_each("import a"),
            "import a.b",
            "import a.b.c.d",
            "import a as b",
            "import a.b as c",
            "import a.b.c.d as e",
            "import a, b, c",
            "import a as b, c.d",
            "import a.b, a.c, a",
            "import a.b as a, a.b as b",
            "import a\nimport a",
            "import a as a\na.b",
            "import a; a.b = a",
            "import __a, __a.__b, __a.__b as __c",
            "'doc'\nimport a\nx: a",
        ],
        "NAMES": [
            *at_each("from a import b"),
            "from a import b as c, d",
            "from a.b.c import d, e as f, g",
            "from a import (b, b as c, b)",
            "from . import a",
            "from .. import a as b, c",
            "from .a import b",
            "from ...a.b import c, d as e",
            "from a import *",
            "from . import *",
            "from ..a.b import *",
            "from a import b\nfrom b import a\nfrom a import b",
            "from __a import __b as __c, __d",
            "from a import future, annotations as __future__",
            importing("a", [("b", None), ("*", None), ("c", "d")]),
            importing("a", [("*", "b")]),
            importing(None, [("__debug__", None), ("*", None)], 2),
            importing("a", []),
            rows_of("an import at the highest level", [["Alias", "b", None], ["ImportFrom", 1, 1, "a", [0], 4294967295], ["Module", [1]]]),
            rows_of("import nothing", [["Import", 1, 1, []], ["Module", [0]]]),
        ],
        "WITHIN": [
            within_function("import b"),
            within_function("import b.c"),
            within_function("import b.c as a\nreturn a"),
            within_function("from b import c as a, d\nreturn d"),
            within_function("import b\nfrom . import c\nreturn lambda: (a, b, c)"),
            within_function("global b, c\nimport b.d, e as c\nfrom f import b as c"),
            within_function("import b\ndef g():\n nonlocal a, b\n import c as b\n from c import a\nreturn g"),
            "if a: import b\nelse: from c import b",
            "for x in y:\n import x.z as x\n continue",
            "while a:\n from b import *\n break",
            "try: import a\nexcept ImportError: a = None",
            "try:\n from a import b\nfinally:\n import c",
            "with a as b: from b import c\nimport d",
            "if a:\n def f():\n  from .a import b\n  yield b",
            "def f(): import a.b as c",
            "def f():\n a\n from . import b as c",
            "while a:\n from b import *\ndef f(): return",
        ],
        "IMPORT_FAULTS": [
            "import __debug__",
            "import __debug__.a",
            "import a, b as __debug__",
            "import a.__debug__",
            "import a.__debug__ as b",
            "import __debug__ as b",
            "from a import __debug__",
            "from a import __debug__ as b",
            "from __debug__ import a",
            "from a import b as __debug__, c as __debug__",
            within_function("from b import *"),
            "x\ndef f():\n if a:\n  from . import *",
            "from a import *\ndef f():\n lambda: a\n for b in c: from a import *",
            "from __future__ import division",
            "from __future__ import annotations as __debug__",
            "from .__future__ import a",
            "x\nfrom __future__ import *",
            within_function("from __future__ import *"),
            "import __future__",
            "import a\nbreak",
            "return\nimport __debug__",
            "class A: import a",
        ],
        "LARGE_IMPORTS": [
            named("an import of 300 modules", "import " + ", ".join(f"m{i}.n as n{i}" for i in range(300))),
            named("an import by 300 segments", "import " + ".".join(f"n{i}" for i in range(300)) + " as m"),
            named("an import of 300 names", "from m import " + ", ".join(f"n{i}" for i in range(300))),
        ],
    },
    "single": {
        "FILES": ["import a.b\na", "from a import *", "def f(): import a", "def f(): from a import *"],
        "PROMPTS": [entered("import a")],
    },
    "block": {
        "FILES": ["import a.b as c\nc", "from .a import b, c\nb", "def f():\n import a\n return a"],
        "PROMPTS": [entered("from a import b")],
    },
}

# Classes
CLASSES = {
    "exec": {
        "BODIES": [
            *at_each("class A: pass"),
            "class A():\n x = 1\n y = x\n del x",
            "class A: 1\nclass B: ...",
            "class A:\n x\n x.y = x[x]\n x += 1\n x, *y = x",
            "class A:\n if a: b = 1\n else: c = b",
            "class A:\n for x in y: x\n else: z",
            "class A:\n while x:\n  if y: break\n  continue\n z",
            "class A:\n try: x\n except E as e: e\n else: y\n finally: z",
            "class A:\n with a as b, c as d.e: b",
            *at_each("class A:\n assert x, y\n raise x from y\n z"),
            "class A:\n import a.b, c\n from d import e as f, g",
            "class A: from a import *",
            "class A:\n global x\n x = 1\n del x",
            "x = 1\nclass A: x = x\nx",
            "class A: ...\nclass A(A): A = A\nA",
            "class A: x = f'a{b!r}', f'c'",
            "class A:\n __module__ = a\n __qualname__ = __module__\n __doc__ = __name__",
            "class A:\n __class__ = 1\n __classcell__ = __class__",
            "class A: __class__",
            "class A:\n __classcell__ = 1\n def f(): return super()",
            "class A: x = y if z else {a: b, **c}",
        ],
        "CLASS_DOCSTRINGS": [
            *at_each("class A: 'doc'"),
            *at_each("class A:\n 'doc'\n 'again'\n x = 'doc'"),
            *at_each("'module'\nclass A:\n 'doc'\n def f(self): 'inner'\n class B: 'within'"),
            *at_each("class A: f'a' 'b'"),
            *at_each("class A:\n x\n 'doc'"),
            "class A: f'{a}'",
            "class A: b'doc'",
            "class A: None",
            At("2", "class A:\n 'doc'\n x: 'note'"),
            At("1", "def f():\n 'doc'\n class A: ''"),
        ],
        "CLASS_NOTES": [
            *at_each("class A: x: int"),
            *at_each("class A:\n 'doc'\n x: int\n x: str = x"),
            "x: int\nclass A: pass",
            "class A: pass\nx: A",
            "class A:\n a.b: c = d\n e[g]: h\n (i): j = k",
            "class A:\n if x: y: int\n else: z: str",
            "class A:\n while x:\n  for y in z:\n   with a: b: c",
            "class A:\n try: a\n except E: x: int",
            "class A:\n try: a\n except E: b\n else: x: int",
            "class A:\n try: a\n finally: x: int",
            "class A:\n class B: x: int",
            "class A:\n def f(self): x: int = 1",
            "class A:\n def f(self, x: int, *y: z) -> str: pass",
            "def f():\n class A:\n  x: y = z\n a: b",
            "def f(y):\n class A: x: y = y\n return A",
            "def f():\n x = 1\n class A:\n  x: int\n  x\n return A",
            "class A: x: lambda: y = lambda: z",
            "class A: x: [y for y in z]",
            "class A:\n __x: __y = __z\n (__a): __b\n __c.__d: __e\n __f: int",
            "class A:\n x: (y := int) = y",
            noted("class A: x = lambda y: y", "y", "lambda: z"),
        ],
        "METHODS": [
            "class A:\n def f(self): return self",
            "class A:\n def f(self): return super().f()",
            "class A:\n def f(self): return __class__",
            "class A:\n def f(self):\n  super = 1\n  return super",
            "class A:\n def f(super): return super.x",
            "class A:\n def f(self):\n  def g(): return super()\n  return g",
            "class A:\n def f(self):\n  def g():\n   def h(): return __class__\n   return h\n  return g",
            "class A:\n def f(self):\n  def g(): return __class__\n  return super().x, g",
            "class A:\n def f(self): return lambda: lambda: __class__",
            "class A:\n def f(self): return [super().x for y in z]",
            "class A:\n def f(self): return (__class__ for y in __class__ if __class__)",
            "class A:\n def f(self, x=__class__, *, y=super): return x",
            "class A:\n def f(self): yield super()",
            "class A:\n f = lambda self: super().f\n g = lambda: __class__",
            "class A:\n x = [super() for y in z]\n y = {__class__ for y in z}",
            "class A:\n def f(self):\n  __class__ = 1\n  return __class__",
            "class A:\n def f(self, __class__): return super()",
            "class A:\n def f(self):\n  global __class__\n  return super()",
            "class A:\n def f(self):\n  del __class__",
            "class A:\n def f(self):\n  class B:\n   def g(self): return __class__\n  return super(), B",
            "class A:\n class B:\n  def f(self): return super()\n def g(self): return super()",
            "class A:\n class B: x = __class__\n def g(self): return super()",
            "class A:\n class B(super): x = super\n def g(self): return B",
            "class A(super().x, k=__class__): pass",
            "class A:\n @super\n def f(self): pass",
            "class A:\n @property\n def x(self): return self.__x\n @x.setter\n def x(self, y): self.__x = y",
            "class A:\n @staticmethod\n def f(): return A()\n @classmethod\n def g(cls, *a, **b): return cls(*a, **b)",
            "class A:\n x = 1\n def f(self, *, k=x, **m): return x, k, f",
            "class A:\n def f(self): return f\n f = f(f)",
            *at_each("class A:\n def __init__(self, n, *, unit='m'):\n  super().__init__()\n  self.n = n"),
            "__class__\nsuper()\ndef f(): return __class__, super()",
            "def f():\n __class__ = 1\n class A:\n  def g(self): return __class__\n return A",
            "def f(__class__):\n class A: x = __class__\n return super()",
            "def f():\n class A:\n  __class__ = 1\n  def g(self): return __class__\n return A",
            *at_each("import os.path as p\nclass Shape(Base):\n \"\"\"A shape.\"\"\"\n def __init__(self, n, *, unit='m'):\n  super().__init__()\n  self.n = n\n @staticmethod\n def make(n): return Shape(n)\ndef total(items):\n try: return sum(i.n for i in items if i)\n except (TypeError, ValueError) as e:\n  print(f'bad {e!r}')\n  raise\n finally: p.flush()"),
        ],
        "CLASSES_IN_FUNCTIONS": [
            *at_each("def f(y):\n class A:\n  y = 1\n  def g(self):\n   super()\n   return y"),
            "def f(x):\n class A: x = x\n return A",
            "def f(x):\n class A: y = x\n return A",
            "def f(x):\n class A:\n  x = x\n  def g(self): return x\n return A, x",
            "def f(x):\n class A:\n  def g(self): return x\n  class B:\n   def h(self): return x",
            "def f(x, y):\n class A:\n  z = y, x\n  def g(self): return x, __class__, y\n return A",
            "def f(x, y):\n class A:\n  def g(self): return y\n  class B:\n   z = x\n   def h(self): return super(), y, x\n  def i(self): return x, super",
            "def f(x):\n class A:\n  nonlocal x\n  x = 1\n  del x",
            "def f(x):\n class A:\n  nonlocal x\n  x += 1\n  def g(self):\n   nonlocal x\n   x = self",
            "def f(x):\n class A:\n  global x\n  x = 1\n  def g(self): return x\n return x",
            "def f(x):\n class A:\n  def g(self):\n   global x\n   x = 1\n   return lambda: x\n return x",
            "def f():\n class A:\n  def g(): return A\n return A",
            "def f():\n class A(A): x = A",
            "def f(B):\n class A(B, k=B): x = B\n return lambda: B",
            "def f():\n class A:\n  def g(self):\n   class B:\n    def h(self): return A, B, g\n   return B\n return A",
            "def f():\n for x in y:\n  class A:\n   z = x\n   def g(self): return x\n  yield A",
            "def f(x):\n class A:\n  for x in x: x\n  y = lambda: x",
            "def f(x):\n class A:\n  if x: x = 1\n  del x\n  x",
            "def f(x):\n class A: (x := x)\n return A",
            "def f(x):\n class A:\n  import x\n  def g(self): return x",
            "def f(x):\n class A:\n  class x: x\n return x",
            "def f(x):\n class A:\n  def x(self): return x\n return x",
            "def f(x, /, *y, z=1, **w):\n class A: a = x, y, z, w",
            "def f(x):\n class A:\n  with x as x: x\n  try: x\n  except x as x: x",
            "def f(x):\n class A:\n  [x, *y] = x\n  x += y",
            *at_each("def f():\n return\n class A: pass"),
            "lambda x: x\nclass A: lambda y: y\ndef f():\n class B: lambda: z\n return lambda: B",
        ],
        "NESTED_CLASSES": [
            "class A:\n class B:\n  class C: pass",
            "class A:\n class B: x = 1\n y = B.x\n class C(B): z = B",
            "class A:\n def f(self):\n  class B:\n   def g(self):\n    class C: pass",
            "class A:\n class A:\n  class A: A\n  A",
            "class A:\n x = 1\n class B:\n  x\n  def f(self): return x",
            "class A:\n class B(lambda: x): y = lambda: z\n w = lambda: B",
            "class A: pass\nclass B: pass\nclass C(A, B): pass",
            "class A:\n x = lambda: 1\n class B:\n  def f(self): return lambda: 2\n y = lambda: 3\nz = lambda: 4",
            "class A:\n class B:\n  def f(self): return super\n class C:\n  def f(self): return super, __class__",
        ],
        "GLOBAL_CLASSES": [
            *at_each("def f():\n global A\n class A:\n  def g(self): return A\n  class B: x = A\n return A"),
            "def f():\n global A, g\n class A:\n  class B: pass\n  def g(self): return lambda: self\n def g():\n  class C: pass",
            "global A\nclass A:\n class B: pass\n def f(self): return lambda: self",
            "class A:\n global B\n class B:\n  def f(self):\n   class C: pass",
            "class A:\n global f\n def f(self):\n  class B: pass",
            "class A:\n def f(self):\n  global A\n  class A:\n   def g(self): return super()",
            "def f():\n global A\n class B:\n  class A: pass\n class A: pass",
            "def f():\n global A\n def g():\n  class A: pass\n  class B: A",
            "def f():\n global A\n class A: pass\n del A",
            "def f(A):\n def g():\n  nonlocal A\n  class A:\n   class B: pass\n return g",
            "def f():\n def g():\n  nonlocal A\n  class A:\n   def h(self): return A, super()\n class A: pass",
            "def f(A):\n class B:\n  nonlocal A\n  class A:\n   class C: pass",
            "class A:\n def f(self):\n  global __B\n  class __B:\n   class C: __x",
            "class A:\n def f(self):\n  global _A__B\n  class __B:\n   class C: __x",
            "class A:\n global __B\n class __B(A):\n  def f(self): return self.__x",
        ],
        "CLASSES_IN_CONTROL": [
            "if a:\n class A: pass\nelse:\n class A: b",
            "for a in b:\n class A(a): c = a\n break",
            "while a:\n class A:\n  while b: break\n continue",
            "while a:\n class A:\n  for b in c: continue\n  else: d\n break\nelse:\n class B: e",
            "try:\n class A: a\nexcept E:\n class B: b\nelse:\n class C: c\nfinally:\n class D: d",
            "with a as b:\n class A(b): c",
            "def f():\n with a:\n  class A: b\n  return A",
            "def f():\n try:\n  class A: a\n  return A\n finally:\n  class B: b",
            "class A:\n try:\n  for x in y:\n   with z: break\n finally: del x",
            "class E(Exception): pass\ntry: raise E(a)\nexcept E as e: e",
            "class A:\n class E(Exception): pass\n try: raise E from E\n except E as E: E\n except (A.E, E): E",
            "def f():\n class E: pass\n try: a\n except E:\n  class E(E): pass\n return lambda: E",
            "try: a\nexcept (lambda: E)():\n class E: pass",
            "class A: a\ndel A",
            "def f():\n class A: a\n del A\n return lambda: A",
            "def f():\n class A: a\n A += 1\n A: int = A",
            "class A:\n class B: pass\n del B, A.B",
            *at_each("class A:\n assert lambda: a, lambda: b\n def f(self): assert self\n x = lambda: c"),
            *at_each("assert [a for a in b]\nclass A: c = lambda: d"),
            "raise a\nclass A: b",
            "while a:\n class A: pass\n break\n class B: pass\nclass C: pass",
            "for x in y:\n class A:\n  for x in y: break\n  else: x\n if x: continue",
            "with a, b as c:\n class A:\n  with c as d: d\n  def f(self):\n   with a: return b",
        ],
        "COMPREHENSIONS_IN_CLASSES": [
            "class A: x = [y for y in z]",
            "class A:\n x = 1\n y = [x for z in x]",
            "class A:\n x = 1\n y = {x: z for z in x if x for x in x}",
            "class A:\n x = 1\n y = lambda: x",
            "class A:\n x = 1\n y = (x for z in x)",
            "class A:\n x = 1\n y = [[x for z in x] for z in x]",
            "class A:\n x = y = 1\n z = {x for a in x for b in y}",
            "def f(x):\n class A:\n  x = 1\n  y = [x for z in x]\n  z = lambda: x\n return A",
            "def f(x):\n class A: y = [[x for z in x] for w in x]",
            "class A:\n __x = 1\n y = {__x for __y in __x if __y}",
            "class A: x = [(lambda: y) for y in z]",
            "class A: x = (lambda: [y for y in z])()",
            "class A:\n x = lambda y=x: (y, x)",
            "class A: (x := lambda: x)",
            "class A:\n (x := 1)\n def f(self): return x",
            "def f(x):\n class A:\n  (x := 1)\n  y = x\n return A",
            "def f():\n class A: (x := 1)\n return x",
            "class A:\n def f(self): return [x := y for y in z]",
            "class A: x = lambda: [y := z for z in w]",
            "class A: x = lambda: (y := z)",
            "class A:\n if (x := y): x\n while (x := x): x",
            "class A:\n def f(self): return [self.__x for self.__y in __z]",
            "class A: x = [(lambda: (y := z)) for z in w]",
            "class A: x = [(yield_, __class__) for yield_ in super]",
            "def f(x):\n class A:\n  y = [x for x in x]\n  z = [x for y in y]\n  def g(self): return [x for z in z]",
        ],
        "CLASS_DECORATORS": [
            "@a\nclass A: pass",
            "@a\n@b.c\n@d(e)\nclass A: f",
            *at_each("@a(lambda: b)\nclass A(lambda: c, d=lambda: e): f = lambda: g"),
            "@(x := a)\nclass A(x): x",
            "class A:\n @a\n class B:\n  @b\n  def f(self): pass",
            "def f(x):\n @x\n class A:\n  y = x\n return A",
            "@[x for x in y][0]\nclass A([z for z in w]): v = [u for u in t]",
            *at_each("@a\nclass A:\n 'doc'\n b: c"),
            "def f():\n @(yield)\n class A: pass",
            "class A:\n @__a\n class __B(__c, __d=__e): pass",
            "@a\n\n@b\n\nclass A(\n c): pass\n@A\ndef f(): pass",
        ],
        "BASES": [
            "class A(B): pass",
            "class A(B, C.d, e(f)): pass",
            *at_each("class A(metaclass=M): pass"),
            "class A(B, metaclass=M, k=1): pass",
            "class A(*B): pass",
            "class A(B, *C, D, *E): pass",
            "class A(**B): pass",
            "class A(B, k=c, **D, e=f, **G): pass",
            "class A(*B, **C): pass",
            "class A(B, *C, k=1): pass",
            "class A(*B, *C, k=d, l=e): pass",
            "class A(k=1, *B): pass",
            "class A(B, lambda: C, k=lambda: d, **{e: lambda: f}): g = lambda: h",
            "class A(*(lambda: b)(), c, *[lambda: d]): e = lambda: f",
            "class A(lambda: (yield)): pass",
            "class A((x := B), k=x): x",
            "class A((x for x in y), *[z for z in w]): x",
            "class A(B if c else D, k=e and f): pass",
            "def f():\n class A((yield a), k=(yield from b)): c\n return A",
            *at_each("class A(__debug__, k=not __debug__): pass"),
            "class A(\n  B,\n  k=c,\n ):\n d\ne",
            "class A(A, f'{B}', -C, not D): pass",
            "x = lambda: 1\nclass A(lambda: 2):\n def f(self): return lambda: 3\ny = lambda: 4",
        ],
        "PRIVATE_NAMES": [
            "class A:\n __x = 1\n __x\n __x += 1\n del __x\n __x__ = __x",
            "class A:\n def f(self):\n  self.__x = self.__y.__z__\n  self.__x += 1\n  del self.__x",
            "class A:\n import __a\n import __a.__b\n import __a.__b as __c\n from __d import __e\n from __g import __h as __i",
            "class A:\n def f(self):\n  import __a.b, __c as __d\n  from .__e import __g\n  return lambda: (__a, __d, __g)",
            "class A:\n def f(self, __a, /, __b=1, *__c, __d=2, **__e): return __a, __b, __c, __d, __e",
            "class A:\n def f(self, *, __k=1, __l, m=__n): pass",
            "class A: f(__k=__v, **__w)",
            "class A:\n def f(self): return g(__k=1).__h(__l=self)",
            "class A:\n def f(self):\n  global __x\n  __x = 1",
            "class A:\n def f(self):\n  __x = 1\n  def g():\n   nonlocal __x\n   __x = 2\n  return g",
            "def f(_A__x):\n class A:\n  nonlocal __x\n  __x = 1",
            "class A:\n global __x\n __x = 1\ndef f(): return _A__x",
            "class A:\n try: a\n except __E as __e: __e",
            "class A:\n with __a as __b: __b\n for __c in __d: __c",
            "class A:\n x = [__a for __a in __b if __c]\n y = {__a: __b for (__a, __b) in __c}",
            "class A:\n (__x := 1)\n y = lambda __z: __x",
            "class A:\n def __f(self): return __f\n class __B:\n  def __g(self): return __g, self.__h",
            "class _A:\n __x = 1\n def f(self): return self.__x",
            "class __A:\n __x = 1\n def f(self): return self.__x",
            "class ___:\n __x = 1\n def f(self): return self.__x",
            "class _: __x\nclass __: __x.__y",
            "class A_:\n __x_ = __x__ = ___x = __\n __x.__, __x._, _x",
            "class __A__:\n __x = 1\n class B: __x",
            "class A:\n class _B:\n  class __C: __x = __y.__z",
            "class A:\n class ___:\n  __y = 1\n  def f(self): return self.__x",
            "class A:\n def f(self):\n  class B:\n   def __g(self): return __h\n  return B.__g",
            "class A:\n def __f(self):\n  class __B:\n   class __C: __D\n  return __B",
            "def f(__x):\n class A:\n  y = __x\n  def g(self): return __x",
            "def f(_A__x):\n class A:\n  y = __x\n  def g(self): return __x\n return A",
            "class A:\n @__d\n def f(self, x: __y = __z) -> __w: pass",
            "class A:\n def f(self, __x: int, *__y: str, __z: bytes = 1): pass",
            "class Z:\n class A(__B, __k=__c): pass",
            "class A(__B, __k=__c): __d\n__e",
            "class A:\n assert __x, __y\n raise __x from __y",
            "class A: f'{__x.__y!r:{__z}}'",
            "class A:\n __a.b, *__c[__d] = __e = __f",
            "class A:\n def f(self):\n  yield __x\n  yield from __y\n  return lambda *__z, **__w: (__z, __w)",
            "__x = 1\ndef f(__y): return __x.__y",
            "class A: x = __a.__b.c.__d(__e=__f)[__g:__h]",
            "class A:\n def f(self): return __class__.__x, super().__y",
            "class A:\n def f(self, __a, *, __b):\n  def g(): return __a, __b\n  return g",
            "class A:\n def f(self): self.__x: int = 1\n __x.__y: int\n del __x.__y, __z[__w]",
            "class A:\n __x, [__y, *__z] = __w\n for __x, __y in __z: pass",
            "class \u00c9_:\n __\u00e9 = 1\n def f(self): return self.__\u00e9",
            "class A:\n def f(self, __x=lambda __y: __z): return [__x for __y in __z for __w.__v in __x]",
            "class A:\n def f(self):\n  __x = 1\n  class B:\n   y = _A__x, __x\n   def g(self): return _A__x, __x",
        ],
        "CLASS_PLACE_FAULTS": [
            *at_each("class A: return"),
            "class A: return x",
            "def f():\n class A: return",
            "class A: yield",
            "class A: x = yield y",
            "class A: yield from x",
            "def f():\n class A: x = (yield)",
            "class A: await x",
            "class A((yield)): pass",
            "class A(B, k=(yield from x)): pass",
            "class A(await x): pass",
            "@(yield)\nclass A: pass",
            "@(await x)\nclass A: return",
            *at_each("class A: break"),
            "while x:\n class A: break",
            "for x in y:\n class A: continue\n break",
            "while x:\n class A:\n  while y: break\n  continue",
            "class A:\n for x in y: break\n else: break",
            "class A:\n while x:\n  def f(self): break",
            "class A:\n while x:\n  class B: continue",
            "while x:\n class A: pass\nelse: break",
            "class A: from __future__ import division",
            "class A:\n def f(self): from a import *",
        ],
        "CLASS_DEBUG_FAULTS": [
            *at_each("class __debug__: pass"),
            "class __debug__(x, k=y):\n def f(self): z",
            "class A: __debug__ = 1",
            "class A:\n def __debug__(self): pass",
            "class A:\n def f(self, __debug__): pass",
            "class A(__debug__=1): pass",
            "class A(B, k=f(__debug__=1)): pass",
            "class A(B, *c, k=d, __debug__=lambda: e): g",
            "class A:\n class __debug__: pass",
            "class A: x.__debug__ = 1",
            "class A: import __debug__",
            "class A:\n del __debug__",
            "class A: x: int = (__debug__ := 1)",
            "class A: __debug__: int",
            "class A:\n for __debug__ in x: pass",
            "class A:\n def f(self): return [x for __debug__ in y]",
        ],
        "CLASS_ORDER_FAULTS": [
            "class A(await b): break",
            "class A(b, __debug__=(yield)): return",
            "class A(b, __debug__=(yield)): pass",
            "class A((yield), __debug__=c): pass",
            "class __debug__: break",
            "class __debug__((yield)): pass",
            "@(yield)\nclass __debug__(await a, __debug__=b): break",
            "class A: x = *y",
            "class A(f(*x), *y): *z",
            "class A: *a, *b = c",
            with_part("class A(k=*b): pass", "*b"),
            with_part("@*a\nclass A: break", "*a"),
            with_part("class A: f(x) = 1", "f(x)"),
            with_part("class A:\n del -x", "-x"),
            "class A:\n def f(self): return\n return\n def g(self): break",
            "class A:\n def f(self, __debug__): break\n continue",
            "class A(*b, (yield)): c\nbreak",
            "class A: pass\nclass B(A): return\nclass __debug__: pass",
        ],
        "CLASS_SCOPE_FAULTS": [
            "class A: nonlocal x",
            "def f():\n class A: nonlocal x",
            "class A:\n x = 1\n class B: nonlocal x",
            "class A:\n x = 1\n def f(self): nonlocal x",
            "def f(x):\n class A:\n  x\n  nonlocal x",
            "class A:\n x = 1\n global x",
            "class A:\n global x\n nonlocal x",
            "def f(x):\n class A:\n  global x\n  def g(self): nonlocal x",
            "class A: nonlocal __class__",
            "def f(): nonlocal __class__",
            "class A:\n def f(self): nonlocal __class__",
            "class A:\n def f(self):\n  nonlocal __class__\n  __class__ = super()",
            "class A:\n def f(self):\n  super()\n  global __class__",
            "class A: x = [y := 1 for z in w]",
            "class A: x = [[y := 1 for z in w] for v in u]",
            "def f():\n class A: x = {z: (y := 1) for z in w}",
            "class A: x = [y for y in (z := w)]",
            "class A:\n def f(self): return [y for y in z if [y := 1 for w in v]]",
            "class A:\n def f(self, __x, _A__x): pass",
            "class A:\n def f(self, __x, __x): pass",
            "class A: f = lambda __x, *, _A__x: 1",
            "class A:\n def f(self, *__x, **_A__x): pass",
            "class ___:\n def f(self, __x, _A__x): pass",
            "class A:\n def f(self, __x): global __x",
            "class A:\n def f(self, __x): nonlocal _A__x",
            "class A:\n def f(self, __x): global _A__x",
            "class A:\n x: int\n global x",
            "class A:\n global x\n x: int",
            "x\nclass A:\n x\n global x",
            "class A:\n class x: pass\n global x",
            "class A:\n def f(self): nonlocal A",
            "class x: break\ndef f(): nonlocal x",
        ],
        "OTHER_CLASSES": [
            "class A:\n async def f(self): await x",
            "class A:\n x = 1\n async for y in z: pass",
            "class A:\n def f(self):\n  async with a: b",
            "class A: x = [y async for y in z]",
            "class A:\n try: a\n except* E: b",
            "class A:\n match x:\n  case y: pass",
            "class A([await b for c in d]): break",
            rows_of("class A[T]: pass", [["TypeVar", 1, 9, "T", None], ["Pass", 1, 13], ["ClassDef", 1, 1, "A", [], [], [1], [], [0]], ["Module", [2]]]),
            rows_of("@await a\nclass A[T](*b, c=d): break", [["Name", 1, 8, "a"], ["Await", 1, 2, 0], ["TypeVar", 2, 9, "T", None], ["Name", 2, 13, "b"], ["Starred", 2, 12, 3], ["Name", 2, 18, "d"], ["Keyword", "c", 5], ["Break", 2, 22], ["ClassDef", 2, 1, "A", [4], [6], [7], [1], [2]], ["Module", [8]]]),
            rows_of("class A:\n def f[T](): pass", [["TypeVar", 2, 8, "T", None], ["Arguments", [], [], None, [], None], ["Pass", 2, 14], ["FunctionDef", 2, 2, "f", 1, [2], [], None, [0]], ["ClassDef", 1, 1, "A", [], [], [3], [], []], ["Module", [4]]]),
            rows_of("class A:\n type X = a", [["Name", 2, 7, "X"], ["Name", 2, 11, "a"], ["TypeAlias", 2, 2, 0, [], 1], ["ClassDef", 1, 1, "A", [], [], [2], [], []], ["Module", [3]]]),
            rows_of("a class without statements", [["ClassDef", 1, 1, "A", [], [], [], [], []], ["Module", [0]]]),
            entered("class A: pass"),
        ],
        "LARGE_CLASSES": [
            named("a class of 300 bases", "class A(" + ", ".join(f"n{i}" for i in range(300)) + "): pass"),
            named("a class with 300 keywords", "class A(" + ", ".join(f"n{i}=n{i}" for i in range(300)) + "): pass"),
            named("a class with 300 names", "class A:\n" + "".join(f" n{i} = __n{i}\n" for i in range(300))),
            named("a class 20 deep", "\n".join(" " * i + f"class A{i}:" for i in range(20)) + "\n" + " " * 20 + "x = A0, __x"),
            named("a class with 30 methods", "class A:\n" + "".join(f" def f{i}(self): return super().f{i}(self.__x)\n" for i in range(30))),
            named("a class that hands on 258 cells", "def f(" + ", ".join(f"n{i}" for i in range(258)) + "):\n class A:\n  def g(self): return __class__, " + ", ".join(f"n{i}" for i in range(257, -1, -1)) + "\n  x = n0"),
        ],
    },
    "eval": {
        "FILES": [("a file with a class", rows_text("class A(B):\n 'doc'\n x = 1")), entered("class A: pass")],
    },
    "single": {
        "FILES": ["class A: pass\nA", "class A:\n 'doc'\n def f(self): return super()\nx", "class A: return", "class A:\n x: int\ny: A", "@a\nclass A(b, k=c): __x\nA()"],
        "PROMPTS": [entered("class A: pass")],
    },
    "block": {
        "FILES": ["class A(B):\n 'doc'\n x\ny", "class A:\n def f(self): return __class__\nA", "def f():\n class A: x\n return A\nf", "class A: break"],
        "PROMPTS": [entered("class A: pass")],
    },
}

# What is entered at a prompt, and files whose last value is given
INTERACTIVE = {
    "single": {
        "PRINTED": [
            entered(""),
            *at_each(entered("1")),
            *at_each(entered("'doc'")),
            entered("x"),
            entered("x\ny"),
            entered("x\ny = x\ny"),
            entered("x\ny = x"),
            entered("'doc'\n1\n__debug__"),
            entered("f'a' 'b'\nf'{a}{b!r}'"),
            entered("x if y else z\nx and y or z\nnot x"),
            entered("a < b < c"),
            entered("(x := y)\nx"),
            entered("[x for x in y]\n(a for b in c)"),
            entered("lambda x: x"),
            entered("f(x)(*y, **z).w[0]"),
            entered("(1, (2, None))\n..."),
        ],
        "NOT_PRINTED": [
            entered("if x: y"),
            entered("if x: y\nelse: z\nw"),
            entered("for x in y: x"),
            entered("while x:\n x\n break\nelse: y"),
            entered("with a as b: b"),
            entered("try: x\nexcept E as e: e\nfinally: y"),
            entered("x: int = 1\ny: str"),
            entered("del x\nx += 1\nassert x, y"),
            *at_each(entered("assert x")),
            entered("import a.b\nfrom c import d as e\ne"),
            entered("global x\nx\npass"),
            entered("raise x\ny"),
            entered("def f(a, b=1):\n 'doc'\n a\n return b"),
            entered("@d\ndef f(): x\nf()"),
            entered("class A(B):\n 'doc'\n x\n def f(self): return super()"),
            entered("class A: x: int\nA"),
        ],
        "FAULTS": [
            entered("x\nbreak"),
            entered("return x"),
            entered("(yield)"),
            entered("x\n__debug__ = y"),
            entered("x\n[*y, *z] = *a, b = c\nf(*(yield))"),
            entered("nonlocal x"),
            entered("def f(x): global x"),
            entered("def __debug__(): pass"),
            entered("async def f(): pass"),
            entered("await a"),
        ],
    },
    "block": {
        "VALUES": [
            entered(""),
            *at_each(entered("1")),
            *at_each(entered("'doc'\n'again'")),
            entered("x"),
            entered("x\ny"),
            entered("x = 1\nx"),
            entered("'doc'\nx: int = 1\n(x, 2)"),
            entered("x\n(1, (2, None))"),
            entered("x\n__debug__"),
            entered("f'a' 'b'"),
            entered("x if y else z"),
            entered("a < b < c"),
            entered("x and y"),
            entered("(x := y)"),
            entered("[x for x in y]"),
            entered("lambda x: x"),
            entered("super().x"),
        ],
        "DEFINITIONS": [
            entered("def f(): pass"),
            *at_each(entered("x\ndef f(a, /, b=1, *c, d=2, **e):\n 'doc'\n return a")),
            entered("@a\n@b.c(d)\ndef f(x: int, *y: z) -> str: yield x"),
            entered("def f(x):\n def g(): return x\n return g"),
            entered("global f\ndef f(): return f"),
            entered("class A: pass"),
            *at_each(entered("x\n@a\nclass A(B, *c, k=d):\n 'doc'\n x: int\n def f(self): return __class__")),
            entered("def f(): pass\nclass A: pass\nx"),
            entered("def f(): pass\npass"),
            entered("if x:\n def f(): pass"),
        ],
        "OTHERS": [
            entered("x\ny = x"),
            entered("x: int"),
            entered("if x: y\nelse: z"),
            entered("while x: y"),
            entered("for x in y: x\nelse: z"),
            entered("try: x\nfinally: y"),
            entered("with a: b"),
            entered("import a.b"),
            entered("global x"),
            entered("del x\npass"),
            entered("raise x"),
            *at_each(entered("assert x")),
        ],
        "FAULTS": [
            entered("x\nbreak"),
            entered("return"),
            entered("yield x"),
            entered("@__debug__\ndef __debug__(): pass"),
            entered("class __debug__(f(*a, **b)): break"),
            entered("class A:\n nonlocal x"),
            entered("def f(__debug__): pass"),
            entered("async def f(): pass"),
            entered("x\nawait a"),
        ],
    },
    # The mode comes before all else that is wrong with the tree
    "exec": {"WRONG_MODES": [entered(""), entered("x\nbreak")]},
    "eval": {"WRONG_MODES": [entered(""), entered("def f(x): global x")]},
}


# Imports from the future, and annotations that they postpone
FUTURES = {
    "exec": {
        "HEADS": [
            *at_each("'a'\nfrom __future__ import annotations\nx: y"),
            "from __future__ import nested_scopes, generators, division, absolute_import, with_statement, print_function, unicode_literals, generator_stop, annotations",
            "from __future__ import division\nfrom __future__ import annotations as a, generators\nx: y\nb: c = d",
            "from .__future__ import annotations\nfrom ..__future__ import division\nx: y",
            "from __future__ import annotations\nfrom __future__ import annotations\nfrom a import b\nx: y",
            "from __future__ import annotations\nfrom a import __future__\nimport __future__",
            "f'a' 'b'\nfrom __future__ import division\nx: y",
            "from __future__ import division\nx: y\ndef f(a: b) -> c: d: e",
            importing("__future__", []),
        ],
        "TEXTS": [
            "from __future__ import annotations\nx: a.b[c, 1:2] | None = f(y)",
            "from __future__ import annotations\n(x): lambda a=1, *b: a\nx[y]: z\nx.y: z = w",
            "from __future__ import annotations\nx: 'y'\nz: (yield)",
            "from __future__ import annotations\nif a: x: [b for b in c]\nelse: y: (z := w)\nlambda: x",
            "from __future__ import annotations\ndef f(a: b, c: (lambda: d) = e, *g: h, i: [j for j in k], **l: m) -> n:\n 'o'\n return lambda: p",
            "from __future__ import annotations\ndef f(return_: b): x: (lambda: y)\nf(lambda: z)",
            "from __future__ import annotations\nclass A:\n __x: __y\n def f(self, __a: __b) -> A: pass\n lambda: c",
            "from __future__ import annotations\ndef f():\n def g(a: {b for b in c}): return a\n x: (d for d in e) = lambda: f\n return g, x",
            "from __future__ import annotations\n@a\ndef f(b: c = [d for d in e]): return [b for f in b]",
            "from __future__ import annotations\nwhile a:\n x: await b\n break",
            "from __future__ import annotations\ndef f(*, a: __debug__): b: (yield) = 1",
            "from __future__ import annotations\ntry: x: y\nexcept A: z: w\nfinally: v: u",
            At("0", "from __future__ import annotations\ndef f(a: List[int] | None): pass"),
        ],
        "FAULTS": [
            "from __future__ import a",
            "from __future__ import annotations, a, b",
            "from __future__ import *",
            "from __future__ import a as __debug__",
            "from __future__ import annotations as __debug__, a",
            "from __future__ import division as __debug__",
            "from __future__ import division\nfrom __future__ import a",
            "pass\nfrom __future__ import division",
            "x\nfrom __future__ import a",
            "'a'\n'b'\nfrom __future__ import division",
            "import a\nfrom .__future__ import *",
            "from a import b\nfrom __future__ import annotations\nx: y",
            "if a: from __future__ import division",
            "try: from __future__ import a\nfinally: pass",
            "while a:\n from __future__ import division as __debug__\n break",
            within_function("from __future__ import *"),
            "class A:\n 'a'\n from __future__ import annotations",
            "from __future__ import division\ndef f():\n from __future__ import annotations",
            "from __future__ import annotations\nx: f'a'",
            "from __future__ import annotations\nx: f'{y}' = 1\nz: f''",
            "from __future__ import annotations\ndef f(a: b = c) -> f'{d}':\n x\n return y",
            "from __future__ import annotations\ndef f(a, b: g[f'{c}'], *c: (lambda: f'')): pass",
            "from __future__ import annotations\ndef f():\n x: f'{y}' = z",
            "from __future__ import annotations\nclass A:\n x: {f'{y}': 1}\n break",
            "from __future__ import annotations\nx: y = (yield)",
        ],
    },
    "single": {
        "AT_A_PROMPT": [
            entered("from __future__ import annotations"),
            entered("x\nfrom __future__ import annotations\ny\nfrom __future__ import division\nz\na: b"),
            entered("from __future__ import annotations\ndef f(a: b) -> c: return lambda: a"),
            entered("from __future__ import annotations\na: b\nx"),
            entered("'a'\n'b'\nfrom __future__ import division\nx"),
            entered("x = 1\nfrom __future__ import division"),
            entered("x\npass\nfrom __future__ import annotations"),
            entered("x\nfrom __future__ import a"),
            entered("from __future__ import annotations\nx: f'{y}'"),
            entered("f(lambda: x)\nfrom __future__ import annotations\na: [b for b in c]\nlambda: y"),
        ],
    },
    "block": {
        "IN_A_BLOCK": [
            entered("from __future__ import annotations"),
            entered("from __future__ import annotations\nfrom __future__ import division\nx: y\nz"),
            entered("from __future__ import annotations\ndef f(a: b) -> c: return a"),
            entered("from __future__ import annotations\nclass A: x: y"),
            entered("'a'\nfrom __future__ import annotations"),
            entered("x\nfrom __future__ import annotations\ny"),
            entered("from __future__ import annotations, a"),
            entered("from __future__ import annotations\ndef f(a: f''): pass"),
        ],
    },
}


# Type parameters of functions, classes and aliases
TYPE_PARAMETERS = {
    "exec": {
        "FUNCTIONS": [
            generic("def f[T](): pass"),
            generic("def f[T](x: T = 1): pass"),
            generic("def f[T](x=1, y=2): pass"),
            generic("def f[T](*, k=1): pass"),
            generic("def f[T](a, /, b=1, *c, d, e=2, **g) -> T: return a"),
            generic("def f[T, U](x: T, y: U) -> T: return y"),
            generic("def f[T: int](x): return T"),
            generic("def f[T: (int, str)](x: T): pass"),
            generic("def f[T: a.b[c], U: g(d, *e, k=h)](): pass"),
            *at_each(generic("def f[T](x=1):\n 'doc'\n return x")),
            generic("@a\n@b.c(d)\ndef f[T](x=e): pass"),
            generic("def f[T]():\n def g(): return T\n return g"),
            generic("def f[T](x=lambda: y, *, k=[a for a in b]): return T"),
            generic("def f[T: (lambda: a)](x=lambda: b, *, y=lambda: c): return lambda: T"),
            generic("def f[T: [a for a in b]](): pass\ndef g(): pass"),
            generic("def f[T]():\n def g[U](x: T, y: U): return T, U"),
            generic("def f[T]():\n def g[T](x: T): return T"),
            generic("def f[f](x: f): return f"),
            generic("def f[T](T): return T"),
            generic("def f[T](x=(y := 1)): pass"),
            generic("def g():\n def f[T](x=(y := 1)): return y\n return y"),
            generic("def f[T](): yield T"),
            generic("def f[T](x: T):\n y: T = x\n T = 1"),
            generic("def g():\n global f\n def f[T](): pass"),
            generic("def g():\n def f[T](): return f\n def h():\n  nonlocal f\n  f = 1"),
            generic("def g(x):\n def f[T: x](y=x): return x, T"),
            generic("def f[T](x: T): return [T for a in x if T]"),
            generic("def f[T](x: T): return {T: lambda: T}"),
            generic("while a:\n def f[T](): pass\n break"),
            generic("try:\n def f[T: a](x=b): pass\nfinally: c"),
        ],
        "CLASSES": [
            generic("class A[T]: x = T"),
            generic("class A[T]: pass"),
            generic("class A[T](B): pass"),
            generic("class A[T](B[T], C, metaclass=D[T]): pass"),
            generic("class A[T](*b, **c): pass"),
            generic("class A[T](a, *b, k=T, **c): pass"),
            *at_each(generic("class A[T]:\n 'doc'\n x: T = 1")),
            generic("@a\nclass A[T: b]: pass"),
            generic("class A[T, U: T]: x: U"),
            generic("class A[T]:\n def f(self, x: T): return T"),
            generic("class A[T]:\n def f(self): return __class__, super()"),
            generic("class A[T]:\n def f[U](self, x: T, y: U): return T, U, __class__"),
            generic("class A:\n def f[T](self, x: T): return __class__"),
            generic("class A:\n def f[__T](self, x: __T): return __T"),
            generic("class A[__T]:\n x = __T"),
            generic("class A:\n class B[__T](__C, __k=__T): y = __T"),
            generic("class A[T]:\n class B[U]: x = T, U"),
            generic("def f():\n class A[T]: x = T\n return A"),
            generic("def f():\n global A\n class A[T]:\n  class B: pass\n  def g(self): pass"),
            generic("def f(x):\n class A[T: x](x): y = x"),
            generic("class A[T]: T = T"),
            generic("class A[A]: x = A"),
            generic("class A[T](B := C): pass"),
            generic("class A[T](lambda: T): y = [T for a in b]"),
        ],
        "ALIASES": [
            generic("type X = int"),
            generic("type X[T] = int"),
            generic("type X[T] = list[T]"),
            generic("type X[T: a, U] = {T: U}"),
            generic("type X = X"),
            generic("type X[X] = X"),
            generic("type X = lambda: x"),
            generic("type X[T] = lambda: T"),
            generic("type X[T: [a for a in b]] = [T for c in d]"),
            generic("def f():\n type X[T] = T\n return X"),
            generic("def f(x):\n type X[T: x] = (x, T)"),
            generic("def f():\n global X\n type X[T] = T"),
            generic("class A:\n type X = A\n type __Y[__T] = __T"),
            generic("class A[T]:\n type X[U] = (T, U)"),
            generic("type X = a if b else c"),
            generic("type X[T] = a < b < T"),
            generic("type X = (y := z)"),
            *at_each(generic("type X[T: __debug__] = __debug__")),
        ],
        "POSTPONED": [
            generic("from __future__ import annotations\ndef f[T: (lambda: a)](x: T = lambda: b, *, y: [c for c in d] = lambda: e) -> T: return lambda: T"),
            generic("from __future__ import annotations\nclass A[T]:\n x: T\n def f[U](self, y: __class__) -> U: z: T"),
            generic("from __future__ import annotations\ntype X[T: (lambda: a)] = lambda: T\nlambda: b"),
            generic("from __future__ import annotations\nclass A:\n y = 1\n def m[T](self, z: y): pass"),
            generic("from __future__ import annotations\n@a\ndef f[T: b](x: f'{c}' = d): pass"),
        ],
        "FAULTS": [
            generic("def f[**P](): pass"),
            generic("def f[*Ts](): pass"),
            generic("class A[T, *Ts]: pass"),
            generic("type X[**P] = a"),
            generic("def f[T, T](): pass"),
            generic("class A[T, U, T]: pass"),
            generic("class A:\n def f[__T, _A__T](): pass"),
            generic("def f[T: (x := 1)](): pass"),
            generic("class A[T](x := 1): pass"),
            generic("type X[T] = (x := 1)"),
            generic("def f[T: (yield)](): pass"),
            generic("def g():\n type X[T] = (yield a)"),
            generic("def g():\n class A[T]((yield)): pass"),
            generic("type X = (yield)"),
            generic("def g():\n type X = (yield)"),
            generic("def f[T: await a](): pass"),
            generic("class A:\n y = 1\n def m[T](self, z: y): pass"),
            generic("class A:\n y = 1\n def m[T: y](self): pass"),
            generic("class A:\n y = 1\n type X[T] = y"),
            generic("class A:\n y = 1\n def m[T](self, z=y): pass"),
            generic("class A:\n def m[T](self): return __class__\n def n[T: __class__](self): pass"),
            generic("def f[__debug__](): pass"),
            generic("def f[T: a, __debug__](): pass"),
            generic("class A[__debug__]: break"),
            generic("def f[T](__debug__): break"),
            generic("def f[T](x=f(__debug__=1)): break"),
            generic("def f[T: f(__debug__=1)](x=f(*(yield))): pass"),
            generic("def __debug__[T](x=\n1): pass"),
            generic("class __debug__[T: a](b): pass"),
            generic("type __debug__ = a"),
            generic("type __debug__[T] = a"),
            generic("type X[__debug__] = __debug__"),
            generic("def f[T](x: (yield) = 1): pass"),
            generic("class A[T](f(__debug__=1)): continue"),
            generic("async def f[T](): pass"),
            rows_of("type a.b = c", [["Name", 1, 6, "a"], ["Attribute", 1, 6, 0, "b"], ["Name", 1, 12, "c"], ["TypeAlias", 1, 1, 1, [], 2], ["Module", [3]]]),
            rows_of("type a[b] = await c", [["Name", 1, 6, "a"], ["Name", 1, 8, "b"], ["Subscript", 1, 6, 0, 1], ["Name", 1, 19, "c"], ["Await", 1, 13, 3], ["TypeAlias", 1, 1, 2, [], 4], ["Module", [5]]]),
        ],
    },
}


# The calls that take a part of a tree: each answers what `compile_top` does in a mode, for the tree that the part makes
CALLS = {
    "compile_program": (
        "exec",
        [
            "'doc'\nx: int = a\nprint(x)",
            "",
            "'doc'\ndef f(a):\n 'inner'\n return a",
            "a = b\nbreak",
            "def f(a, a): pass",
            "def f():\n nonlocal x",
            At("0", "if True or False or False:\n pass"),
            At("0", "if True and False and False:\n pass"),
        ],
    ),
    "compile_program_single": (
        "single",
        [
            entered("a\nb = c\nd"),
            entered(""),
            entered("'text'\nf(b)"),
            entered("'text'\nassert a, b"),
            entered("def f(a, a): pass"),
            entered("f(*c, **d)\nreturn a"),
        ],
    ),
    "compile_block_expression": (
        "block",
        [
            entered("a\nb = c\nd"),
            entered("def f(a, b=1):\n return a"),
            entered(""),
            entered("class A:\n x = 1\n def f(self): return __class__"),
            entered("global x\nx: a"),
            entered("x\nyield a"),
        ],
    ),
    "compile_expression": (
        "eval",
        [
            "a if __debug__ else [b for b in c]",
            "lambda x: (x, __debug__)",
            "f(*a, b=1)",
            "(yield a)",
            "f(__debug__=a)",
            "lambda a, a: b",
            At("0", "1"),
            At("0", "x if c else 1"),
        ],
    ),
}


def as_statement(name, *rows):
    """Rows by hand, under a name, the last of which is an expression that stands in a program."""
    return as_program(name, *rows, ["Expr", 1, 1, len(rows) - 1])


def as_program(name, *rows):
    """Rows by hand, under a name, the last of which is a statement of a program."""
    return rows_of(name, [*rows, ["Module", [len(rows) - 1]]])


def with_parameters(name, *parameters):
    """A lambda with these parameters: a name for one without default, and a tuple with a name for one with a default."""
    rows, places = [["Name", 1, 1, "a"]], []
    for it in parameters:
        default = None
        if isinstance(it, tuple):
            (it,), default = it, len(rows)
            rows.append(["Name", 1, 1, "d"])
        rows += [["Arg", 1, 1, it, None], ["ArgWithDefault", len(rows), default]]
        places.append(len(rows) - 1)
    return as_statement(name, *rows, ["Arguments", [], places, None, [], None], ["Lambda", 1, 1, len(rows), 0])


NAME = ["Name", 1, 1, "a"]

# Trees that no source has
SHAPES = {
    "exec": {
        "OPERANDS": [
            as_statement("an `and` of nothing", ["BoolOp", 1, 1, "And", []]),
            as_statement("an `or` of nothing", ["BoolOp", 1, 1, "Or", []]),
            as_statement("a comparison without operators", NAME, ["Compare", 1, 1, 0, [], []]),
            as_statement("a comparison without operators, of a comparand", NAME, NAME, ["Compare", 1, 1, 0, [], [1]]),
            as_program("an assignment to nothing", NAME, ["Assign", 1, 1, [], 0]),
            as_statement("a list comprehension without clauses", NAME, ["ListComp", 1, 1, 0, []]),
            as_statement("a set comprehension without clauses", NAME, ["SetComp", 1, 1, 0, []]),
            as_statement("a dict comprehension without clauses", NAME, NAME, ["DictComp", 1, 1, 0, 1, []]),
            as_statement("a generator expression without clauses", NAME, ["GeneratorExp", 1, 1, 0, []]),
        ],
        "LISTS": [
            as_statement("a comparison of too few", NAME, ["Compare", 1, 1, 0, ["Lt"], []]),
            as_statement("a comparison of too many", NAME, NAME, NAME, ["Compare", 1, 1, 0, ["Lt"], [1, 2]]),
            as_statement("a dict of more keys than values", NAME, ["Dict", 1, 1, [0], []]),
            as_statement("a dict of more values than keys", NAME, ["Dict", 1, 1, [], [0]]),
            as_statement("a dict that unpacks nothing", ["Dict", 1, 1, [None], []]),
        ],
        "NAMES": [
            as_program("a cause alone", NAME, ["Raise", 1, 1, None, 0]),
            as_program("a handler that names no type", ["Pass", 1, 1], ["Pass", 2, 1], ["ExceptHandler", None, "e", [1]], ["Try", 1, 1, [0], [2], [], []]),
            as_statement("an empty name", ["Name", 1, 1, ""]),
            as_statement("a name with a dot", ["Name", 1, 1, "a.b"]),
            as_statement("an attribute without a name", NAME, ["Attribute", 1, 1, 0, ""]),
            as_statement("an attribute with a dot", NAME, ["Attribute", 1, 1, 0, "b.c"]),
            as_program("a global without a name", ["Global", 1, 1, ["a", ""]]),
            as_program("an import of a path with an empty part", ["Alias", "a..b", None], ["Import", 1, 1, [0]]),
            as_program("an import as a path", ["Alias", "a.b", "c.d"], ["Import", 1, 1, [0]]),
            as_program("an import of a path from a module", ["Alias", "a.b", None], ["ImportFrom", 1, 1, "m", [0], 0]),
            as_program("an import from a path with an empty part", ["Alias", "a", None], ["ImportFrom", 1, 1, "m.", [0], 0]),
        ],
        "PARAMETERS": [
            with_parameters("two parameters of one name", "x", "x"),
            with_parameters("two parameters of one name behind another", "y", "x", ("x",)),
            with_parameters("a default before none", ("x",), "y"),
            with_parameters("two parameters of one name, with a default before none", ("x",), "x"),
            as_program(
                "two parameters of one name in a class",
                NAME, ["Arg", 1, 1, "__x", None], ["ArgWithDefault", 1, None], ["Arg", 1, 1, "_A__x", None], ["ArgWithDefault", 3, None],
                ["Arguments", [], [2, 4], None, [], None], ["Lambda", 1, 1, 5, 0], ["Expr", 1, 1, 6], ["ClassDef", 1, 1, "A", [], [], [7], [], []],
            ),
            as_statement(
                "two parameters of one name, one of which takes what is left",
                NAME, ["Arg", 1, 1, "x", None], ["ArgWithDefault", 1, None], ["Arg", 1, 1, "x", None], ["Arguments", [2], [], 3, [], None], ["Lambda", 1, 1, 4, 0],
            ),
            as_statement(
                "keyword parameters, a default before none",
                NAME, ["Name", 1, 1, "d"], ["Arg", 1, 1, "x", None], ["ArgWithDefault", 2, 1], ["Arg", 1, 1, "y", None], ["ArgWithDefault", 4, None],
                ["Arguments", [], [], None, [3, 5], None], ["Lambda", 1, 1, 6, 0],
            ),
        ],
        "SEVERAL": [
            as_statement("a comparison without operators, within a dict of uneven lists", NAME, ["Compare", 1, 1, 0, [], []], ["Dict", 1, 1, [1], []]),
            as_statement("a dict of uneven lists, in a comparison of too few", ["Dict", 1, 1, [None], []], ["Compare", 1, 1, 0, ["Lt"], []]),
            as_program("a name with a dot before an empty one", ["Name", 1, 1, "a.b"], ["Name", 1, 1, ""], ["Assign", 1, 1, [0], 1]),
            as_program("an empty name in a test before a break", ["Name", 1, 1, ""], ["Break", 1, 1], ["If", 1, 1, 0, [1], []]),
            rows_of("a break before an empty name", [["Break", 1, 1], ["Name", 2, 1, ""], ["Expr", 2, 1, 1], ["Module", [0, 2]]]),
        ],
        "MODES": [
            rows_of("a statement at a prompt", [["Pass", 1, 1], ["Interactive", [0]]]),
            rows_of("the type of a function", [NAME, ["FunctionType", [], 0]]),
        ],
    },
    "eval": {
        "MODES": [rows_of("a statement at a prompt", [["Pass", 1, 1], ["Interactive", [0]]])],
    },
    "single": {
        "MODES": [
            rows_of("the type of a function", [NAME, ["FunctionType", [], 0]]),
            rows_of("an empty name at a prompt", [["Name", 1, 1, ""], ["Expr", 1, 1, 0], ["Interactive", [1]]]),
        ],
    },
    "block": {
        "MODES": [
            rows_of("the type of a function", [NAME, ["FunctionType", [], 0]]),
            rows_of("an `and` of nothing in a block", [["BoolOp", 1, 1, "And", []], ["Expr", 1, 1, 0], ["Interactive", [1]]]),
        ],
    },
}


# Chains of functions in which a name is used that a scope further out binds.
CAPTURES = {
    "exec": {
        "CAPTURES": [
            "def f(x): return lambda: x",
            "def f(y):\n  class A:\n    y = 1\n    def g(self):\n      super()\n      return y",
            "def f(): return [y := v for v in z]",
            "def f(p):\n  class A:\n    class B(A):\n      def m(self):\n        super().m()\n        return p",
            "def f(x, y):\n  def g(): return lambda: (x, y)\n  return lambda: (y, x)",
        ],
    },
}


def refused_trees():
    """Trees that are refused, of each shape and each fault, under what is told of them, which is the same at each level."""
    for number, (tree, line) in enumerate(hostile_cases.refused_trees()):
        rows = hostile_cases.text_of(hostile_cases.rows_of(tree)).decode("utf-8")
        status, _, told, _ = compile_rows.run(["exec", "012"[number % 3], "m.py"], rows.encode("utf-8"), True)
        assert (status, told) == (1, line + "\n"), (line, told)
        yield f"a tree that is refused: {line}", rows


# Trees of each wrong shape, with each field that holds a name, and of each fault of a tree.
REFUSED = {"exec": {"REFUSED": list(refused_trees())}}

GROUPS = [CHOICES, DISPLAYS, TARGETS, CONTROL, ORDER, SCOPES, LARGE, FUNCTIONS, COMPREHENSIONS, LEAVING, IMPORTS, CLASSES, INTERACTIVE, FUTURES, TYPE_PARAMETERS, SHAPES, CAPTURES, REFUSED]


def escaped(source):
    """A source in one line."""
    return source.replace("\\", "\\\\").replace("\n", "\\n")


def case(source, mode, level):
    """The head of a case, its rows, and the model's answer."""
    if isinstance(source, At):
        source, level = source.source, source.level
    if isinstance(source, Generic):
        source, rows = source.source, source.rows()
    elif isinstance(source, tuple):
        source, rows = source
    else:
        rows = rows_text(source, "eval" if mode == "eval" else "exec")
    status, out, err, _ = compile_rows.run([mode, level, "m.py"], rows.encode(), True)
    assert status in (0, 1, 3), (source, err)
    return f"{mode} {level} {escaped(source)}", rows, out if status == 0 else err


def cases(groups):
    """The cases of these groups, in order."""
    for group in groups:
        for mode in ("exec", "eval", "single", "block"):
            for sources in group.get(mode, {}).values():
                for i, source in enumerate(sources):
                    yield case(source, mode, "012"[i % 3])


def call_cases(calls):
    """The cases of the calls that take a part of a tree, with the call in the place of the mode."""
    for name, (mode, sources) in calls.items():
        for i, source in enumerate(sources):
            head, rows, answer = case(source, mode, "012"[i % 3])
            yield name + head[len(mode) :], rows, answer


# The rows of a file's own scope, and its names, or why it is refused.
SCANS = [
    ("x = 1", '[["Name",1,1,"x"],["int","1"],["Constant",1,5,1],["Assign",1,1,[0],2],["Module",[3]]]', "top: x Local Some(0) true"),
    ("nonlocal x", '[["Nonlocal",1,1,["x"]],["Module",[0]]]', "1:1 cannot define nonlocal 'x' at top level."),
]


def scan_cases():
    """The cases of the scan alone, with its name in the place of the mode."""
    for source, rows, answer in SCANS:
        yield f"scan_program 0 {source}", rows, answer


def write(crate, answered):
    """Writes the input of a crate's program, and what it is to write."""
    answered = list(answered)
    for name, at in ("stdin", 1), ("stdout", 2):
        with open(CRATES / crate / name, "w", encoding="utf-8", newline="\n") as file:
            file.writelines(f"{it[0]}\n{it[at].rstrip()}\n\n" for it in answered)
    print(f"{crate}: {len(answered)} cases")


def arguments():
    """The words of the call."""
    parser = argparse.ArgumentParser(prog="source_tables.py", description=__doc__.split("\n")[0])
    parser.add_argument("--python", metavar="PYTHON", default="python3.12", help="a Python of 3.12 or later, for type parameters (%(default)s)")
    return parser.parse_args()


if __name__ == "__main__":
    ARGUMENTS = arguments()
    write("codegen_vectors", [*cases(GROUPS), *call_cases(CALLS), *scan_cases()])
