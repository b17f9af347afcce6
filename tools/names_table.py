"""Writes crates/names_vectors/stdin and stdout: sources, with what a report tells of their names or why there is none.

usage: names_table.py [--library COUNT [--program FILE]]

What is wanted comes from tools/model, whose `names.py` makes reports.
Each case is a line with its source, and a line with its rows; in stdout what the model says of the rows
stands in their place: a line for each item, with the names of the tables that lead to a scope, and the same once more,
set in, with the child numbers that lead to it. Type parameters are put into the tree, so that any Python 3.8 or later
serves.
With --library nothing is written: so many files of the library of this Python are handed to the program as cases, and
what it writes is compared with what the model says. The status is 1 where they differ.
"""
import argparse
import json
import os
import pathlib
import subprocess
import sys

TOOLS = pathlib.Path(__file__).resolve().parent
sys.path.insert(0, str(TOOLS / "model"))
import names  # the model's
import scopes
import shapes
from py2rows import rows_text, tree_of
from rows_reader import RowsError, read_rows
from stdlib import library_files
from tree import Node, rows_of

CRATE = TOOLS.parent / "crates" / "names_vectors"

WORKED = [
    "def f(x): return lambda: x",
    "def g(): y = z",
    "x = 1\ndef h(x): pass",
    "",
    "print(1)",
    "print = 1\nprint(1)",
    "def f(): global x",
    "def f(): global x\ndef g(): return x",
    "def f():\n global x\n x = 1\ndef g(): return x",
    "def f():\n global x\n import x\nclass A: y = x",
    "def f():\n global x\n del x\ndef g(): return x",
    "def f():\n global x\n return x",
    "def f():\n global x\n x += 1",
    "[x := v for v in z]\nprint(x)",
    "def f():\n global x\n [x := v for v in z]\ndef g(): return x",
    "x\nclass A: x = 1",
    "x\ndef f(): x = 1",
    "x\ndef f(x): pass",
    "x: int\nx",
    "x: int = 1\nx",
    "def f():\n x: int\n return x",
    "def f(): x: int = 0",
    "def f(): (x): int = 0",
    "def f(x): y: int = 0",
    "def f():\n x = 1\n del x",
    "def f():\n x = 1\n x = 2",
    "def f():\n x = 1\n x += 1",
    "def f(): import a, b.c as d",
    "def f(): from a import b, c as d\ndef g(): from a import *",
    "from a import *\nb",
    "def f():\n with a as (b, c): return b",
    "def f():\n for a, *b in c: a",
    "def f():\n try: pass\n except E as e: pass\n except G as h: h",
    "def f(a, b=c, /, d=e, *g, h, i=j, **k): return a",
    "def f():\n def g(): pass\n class A: pass",
    "def f():\n def g(): g",
    "class A: x = 1",
    "class A:\n def f(self): pass",
    "class A(B, metaclass=C): x = y",
    "@a\nclass A:\n @b\n def f(self: c, d: e = g) -> h: pass",
    "from __future__ import annotations\ndef f(a: b) -> c: d: e = 1",
    "lambda x: x",
    "lambda x: lambda x: x",
    "lambda x, y=x: (lambda: x + y)",
    "f = lambda: (y := 1)",
    "x + 1",
]

CLOSURES = [
    "def f(x):\n def g():\n  def h(): return x",
    "def f():\n x = 1\n def g():\n  nonlocal x\n  x = 2\n  def h(): return x",
    "def f():\n x = 1\n def g():\n  nonlocal x\n  x = 2\n def h():\n  x = 3\n  return lambda: x",
    "def f():\n x = 1\n def g():\n  global x\n  x = 2\n  def h(): return x",
    "def f():\n x = 1\n def g():\n  nonlocal x\n  def h():\n   nonlocal x\n   def i(): return x",
    "def f():\n x = 1\n def g():\n  x = 2\n  def h():\n   x = 3\n   def i(): return x",
    "def f(x):\n def g(x): return x\n def h(y): return x, y",
    "def f(x, y):\n def g():\n  def h(y): return x, y\n  return y",
    "def f(): return f\ndef g():\n def g(): return g",
    "def f(): pass\ndef f():\n def a(): pass\n def b(x): return lambda: x",
    "def f():\n def g():\n  def h(): return x, y\n  x = 1\n y = 2",
    "def f(a):\n def g(b):\n  def h(c): return a, b, c, d\n  return h\n return g",
    "def f(a=lambda: b, *, c=[d for d in e]): return a",
    "def f():\n if a: b = 1\n else: b = 2\n while b: c = b\n else: return lambda: c",
    "x = 1\ndef f():\n y = x\n def g(): return x, y",
]

COMPREHENSIONS = [
    "[[a for a in b] for b in c]",
    "{x: [x for x in x] for x in x}",
    "def f(): return [y := v for v in z]",
    "def f(): return [[y := v for v in w] for w in z]",
    "def f():\n [y := v for v in z]\n return lambda: y",
    "def f(y):\n return [(lambda: y) for v in z if (y := v)]",
    "def f():\n x = 1\n return [x for y in z]",
    "def f():\n x = 1\n return [lambda: x for x in z]",
    "def f():\n y = 0\n def g():\n  nonlocal y\n  [y := v for v in z]\n return y",
    "class A:\n x = 1\n y = [x for z in w]",
    "class A:\n x = 1\n y = [z for z in x]",
    "class A:\n def f(self): return [__class__ for x in y]",
    "class A: x = lambda: [y := v for v in z]",
    "[x for x in y for z in x if z]",
    "(a for a in (b for b in (c for c in d)))",
    "[a for x in y for a in x for b in (lambda: a)()]",
    "x = [x for x in x]\nx",
]

CLASSES = [
    "def f(y):\n class A:\n  y = 1\n  def g(self): return y",
    "def f(y):\n class A:\n  def g(self): return y",
    "def f(y):\n class A:\n  class B:\n   def g(self): return y",
    "def f(x):\n class A:\n  x = x\n  def g(self): return x",
    "def f(x):\n class A(x): x = x",
    "class A:\n def g(self): super()",
    "class A:\n def g(self): return __class__",
    "class A:\n class B:\n  def g(self): return __class__\n def h(self): return __class__",
    "def f(__class__):\n class A:\n  def g(self): return __class__",
    "class A:\n x = 1\n def g(self):\n  x = 2\n  return x",
    "class A:\n x = 1\n def g(self): return x",
    "x = 1\nclass A:\n x = 2\n class B: x = 3",
    "def f(x):\n class A:\n  nonlocal x\n  x = 1",
    "def f(x):\n class A:\n  global x\n  x = 1\n  def g(self): return x",
    "class A:\n global x\n x = 1\ndef f(): return x",
    "def f():\n class A: pass\n class B(A):\n  def g(self): return A",
    "class A: x = __module__, __qualname__, __name__",
    "class A:\n def f(self):\n  __x = 1",
    "class A:\n def f(self): return __x, self.__y",
    "def f():\n __x = 1\n class A:\n  def g(self): return __x",
    "def f():\n _A__x = 1\n class A:\n  def g(self): return __x",
]

# a source, and the type parameters of its functions, classes and aliases by their names
GENERIC = [
    ("def f(x: T): return x", {"f": ["T"]}),
    ("def f(x): return x", {"f": ["T"]}),
    ("class A: x = T", {"A": ["T"]}),
    ("class A(B[T]):\n def g(self): return T", {"A": ["T"], "g": ["T"]}),
    ("def f():\n def g(): return T, U", {"f": ["T"], "g": ["U"]}),
    ("T = 1\ndef f(): return T", {"f": ["T"]}),
    ("class A:\n y = 1\n def m(self, z: y): pass", {"m": ["T"]}),
    ("def f(y):\n class A:\n  y = 1\n  def m(self, z: y): pass", {"m": ["T"]}),
    ("def f(T):\n class A: T = T", {"A": ["T"]}),
    ("def f(a: T = T): T = 1", {"f": ["T"]}),
    ("def f():\n nonlocal T\n T = 1", {"f": ["T"]}),
    ("class A:\n def f(self): return __T", {"f": ["__T"]}),
]

# where the name stands around what uses it
AROUND = [
    "{}",
    "x = 0\n{}",
    "def f(x):\n {}",
    "def f():\n x = 0\n {}",
    "def f():\n {}\n x = 0",
    "def f():\n global x\n x = 0\n {}",
    "class A:\n x = 0\n {}",
    "def f(x):\n class A:\n  {}",
    "def f(x):\n class A:\n  x = 0\n  {}",
    "def f():\n [x := v for v in w]\n {}",
    "def f():\n import x\n def h():\n  {}",
    "def h():\n global x\n x = 0\n{}",
]

USES = [
    "x",
    "del x",
    "def g(): return x",
    "def g(): x = 1",
    "def g(x): pass",
    "def g():\n nonlocal x\n x = 1",
    "def g():\n global x\n return x",
    "def g():\n global x\n x = 1\n return lambda: x",
    "def g():\n x = 1\n return lambda: x",
    "def g():\n def h(): return x",
    "(lambda: x)",
    "[x for x in x]",
    "[x := y for y in z]",
    "class B: x = x",
    "class B:\n def g(self): return x",
    "class B:\n x = 1\n def g(self): return x",
    "def g():\n for x in y: pass",
]

NAME = ["Name", 1, 1, "a"]

# trees that no source has, and refused ones
ROWS = [
    ("the type of a function", [NAME, ["FunctionType", [], 0]]),
    ("the type of a function, with a wrong shape", [["Name", 1, 1, ""], NAME, ["FunctionType", [0], 1]]),
    ("an empty file", [["Module", []]]),
    ("an empty input at a prompt", [["Interactive", []]]),
    ("a store at a prompt", [NAME, ["Name", 1, 5, "b"], ["Assign", 1, 1, [0], 1], ["Interactive", [2]]]),
    ("an expression", [NAME, ["Expression", 0]]),
    ("an empty name", [["Name", 1, 1, ""], ["Expression", 0]]),
    ("no operand", [["BoolOp", 1, 1, "And", []], ["Expression", 0]]),
    ("a name with a dot", [["Name", 1, 1, "a.b"], ["Expression", 0]]),
    ("a wrong shape after what the scan refuses", [["Nonlocal", 1, 1, ["x"]], NAME, ["Assign", 2, 1, [], 1], ["Module", [0, 2]]]),
    ("a function and a class without a body", [["Arguments", [], [], None, [], None], ["FunctionDef", 1, 1, "f", 0, [], [], None, []], ["ClassDef", 2, 1, "A", [], [], [], [], []], ["Module", [1, 2]]]),
]

REFUSED = [
    "nonlocal x",
    "def f(): nonlocal x",
    "def f(x): global x",
    "def f():\n x = 1\n global x",
    "def f():\n print(x)\n nonlocal x",
    "def f(x):\n global y\n def g(): nonlocal y",
    "[x := x for x in y]",
    "[y for y in (x := z)]",
    "class A: [x := y for y in z]",
    "def f(a, a): pass",
]


def escaped(source):
    """A source in one line."""
    return source.replace("\\", "\\\\").replace("\n", "\\n")


def within(around, use):
    """A use in its place, each of its lines set in as far as the place is."""
    before = around[: around.index("{}")]
    indent = " " * (len(before) - before.rfind("\n") - 1)
    return around.replace("{}", use.replace("\n", "\n" + indent))


def put_parameters(at, parameters):
    """Gives functions and classes the type parameters of their names."""
    if isinstance(at, list):
        for node in at:
            put_parameters(node, parameters)
    elif isinstance(at, Node):
        if at.kind in ("FunctionDef", "ClassDef"):
            names_here = parameters.get(at.name, [])
            at.f["type_params"] = [Node("TypeVar", at.loc, {"name": name, "bound": None}) for name in names_here]
        put_parameters(list(at.f.values()), parameters)


def generic(source, parameters):
    """A source whose definitions have type parameters: how it reads, and its rows."""
    tree = tree_of(source)
    put_parameters(tree, parameters)
    for name, those in parameters.items():
        for word in "def", "class":
            for end in "(:":
                source = source.replace(f"{word} {name}{end}", f"{word} {name}[{', '.join(those)}]{end}")
    return source, dumped(rows_of(tree))


def dumped(rows):
    """Rows as they are written."""
    return json.dumps(rows, separators=(",", ":"), ensure_ascii=False)


def child_numbers(scope):
    """The child numbers that lead to a scope, with a dot before each."""
    if scope.parent is None:
        return "top"
    place = [it is scope for it in scope.parent.children].index(True)
    return f"{child_numbers(scope.parent)}.{place}"


def by_numbers(tree):
    """The lines of the report, with child numbers in the place of the names of tables."""
    by_names = scopes.Scope.path
    scopes.Scope.path = child_numbers
    try:
        lines = names.report(tree)
    finally:
        scopes.Scope.path = by_names
    return [" " + line.replace(" over top", " top").replace(" from top", " top") for line in lines]


def check(tree):
    """Raises the first fault of a tree: its shape comes before what its scopes refuse."""
    if tree.kind == "FunctionType":
        raise scopes.Fault("MalformedTree", "malformed tree: WrongMode", None)
    wrong = shapes.valid(tree, "single")
    if wrong:
        raise scopes.Fault("MalformedTree", "malformed tree: " + wrong, None)
    scopes.build(scopes.scan(tree, True))


def refusal(tree):
    """The line that says why there is no report on a tree; None where there is one."""
    try:
        check(tree)
    except scopes.Fault as fault:
        return f"{'-:-' if fault.loc is None else '%d:%d' % fault.loc} {fault.text}"
    return None


def answer(text):
    """The lines of the report on a tree, or the line that says why there is none."""
    tree = read_rows(text.encode())
    assert not isinstance(tree, RowsError), (text[:200], tree.text())
    line = refusal(tree)
    return names.report(tree) + by_numbers(tree) if line is None else [line]


def sources():
    """How each case reads, and its rows."""
    for group in WORKED, CLOSURES, COMPREHENSIONS, CLASSES, REFUSED:
        for source in group:
            yield source, rows_text(source)
    for source, parameters in GENERIC:
        yield generic(source, parameters)
    for around in AROUND:
        for use in USES:
            yield (source := within(around, use)), rows_text(source)
    for title, rows in ROWS:
        yield title, dumped(rows)


def written(cases):
    """The input of the program over these cases, and what it is to write."""
    asked = "".join(f"{head}\n{text}\n\n" for head, text, lines in cases)
    wanted = "".join("\n".join([head, *lines, "", ""]) for head, text, lines in cases)
    return asked, wanted


def write():
    """Writes both files."""
    cases = [(f"case {escaped(source)}", text, answer(text)) for source, text in sources()]
    for name, text in zip(("stdin", "stdout"), written(cases)):
        with open(CRATE / name, "w", encoding="utf-8", newline="\n") as file:
            file.write(text)
    print(f"names_vectors: {len(cases)} cases")


def library_cases(count):
    """So many cases of files of the library that have rows."""
    folder = pathlib.Path(os.__file__).parent
    for file in library_files(folder):
        if count == 0:
            return
        try:
            text = rows_text(file.read_text(encoding="utf-8"))
        except Exception:  # what rows have no word for, or no Python
            continue
        count -= 1
        yield f"case {file.relative_to(folder)}", text, answer(text)


def compare(count, program):
    """Counts the files over which the program writes what the model says."""
    items, files, differ = 0, 0, []
    for case in library_cases(count):
        asked, wanted = written([case])
        ran = subprocess.run([program], input=asked.encode(), stdout=subprocess.PIPE, check=False)
        files, items = files + 1, items + len(case[2])
        if ran.stdout.decode() != wanted:
            differ.append(case[0])
    print(f"{files} files, {items} lines: {len(differ)} differ")
    for head in differ:
        print(head)
    return 1 if differ else 0


def main():
    parser = argparse.ArgumentParser(prog="names_table.py", description=__doc__.split("\n")[0])
    parser.add_argument("--library", metavar="COUNT", type=int, help="compare the program with the model over so many files of the library")
    parser.add_argument("--program", metavar="FILE", default=str(CRATE / "out" / "names_vectors"), help="the built program (%(default)s)")
    words = parser.parse_args()
    if words.library is None:
        write()
        return 0
    return compare(words.library, words.program)


if __name__ == "__main__":
    sys.exit(main())
