"""Writes crates/scope_vectors/stdin and stdout: small programs, with the tables of their scopes, and other calls.

usage: scope_tables.py

What is wanted of programs comes from tools/model, whose `scopes.py` scans trees; the answers to other calls stand below.
Each source below gives one case: the calls of its scan, and the tables of the model, or its refusal.
A call is `+` with a letter for the kind, and the name, of a scope that is entered, `-` for one that is left,
or a letter for a role and the name that is used.
"""
import argparse
import pathlib
import sys

sys.path.insert(0, str(pathlib.Path(__file__).resolve().parent / "model"))
import case_files
import scopes
from py2rows import tree_of

KINDS = {"Module": "M", "Class": "C", "Function": "F", "Comprehension": "G", "TypeParams": "T"}
ROLES = {"Used": "u", "Assigned": "a", "Imported": "i", "Parameter": "p", "AnnotatedParameter": "n",
         "AnnotationAssigned": "t", "Walrus": "w", "Iter": "r", "Global": "g", "Nonlocal": "l"}
SOURCES = [
    "def f(x): return lambda: x",
    "def f(y):\n class A:\n  y = 1\n  def g(self):\n   super()\n   return y",
    "def f(): return [y := v for v in z]",
    "[(lambda: y) for v in z if (y := v)]",
    "def f(x): global x",
    "def f(): nonlocal x",
    "global x\nnonlocal x",
    "nonlocal x",
    "x = 1\nprint(x)",
    "def f(a, b=1, *c, d, **e): return a",
    "def f():\n x = 1\n def g():\n  nonlocal x\n  x = 2",
    "def f():\n x = 1\n def g():\n  def h(): return x\n  return h",
    "def f():\n global x\n x = 1\n def g(): return x",
    "x = 1\ndef f():\n global x\n x = 2",
    "x = 1\ndef f():\n def g():\n  global x\n  x = 2",
    "x = 1\nclass A:\n global x\n x = 2",
    "class A:\n x = 1\n def f(self): return x",
    "class A:\n def f(self): return __class__",
    "class A:\n def f(self): return super().f()",
    "class A:\n class B:\n  def f(self): return super().f()",
    "class A:\n __x = 1\n def f(self): return self.__x, __x",
    "class _A:\n class __B:\n  __y = 1",
    "def f(a):\n class A:\n  def g(self):\n   class B:\n    def h(self):\n     super()\n     return a",
    "def f(x):\n class A:\n  x = x",
    "def f():\n class A:\n  nonlocal x\n x = 1",
    "[v for v in z]",
    "def f(a): return [v + a for v in a]",
    "def f(): return {v: w for v in z for w in v if v}",
    "def f(): return [[y := v for v in w] for w in z]",
    "def f():\n global y\n return [y := v for v in z]",
    "def f():\n y = 0\n def g():\n  nonlocal y\n  return [y := v for v in z]",
    "def f():\n def g():\n  nonlocal y\n  return [y := v for v in z]",
    "class A:\n x = [y := v for v in z]",
    "[v := 1 for v in z]",
    "[[v := 1 for w in v] for v in z]",
    "[[y := v for v in w] for y in z]",
    "def f(): return [(lambda: y) for v in z if (y := v)]",
    "def f(): return [lambda: v for v in z]",
    "(y := 1)",
    "def f(): return (y := 1)",
    "[(a, [b := 1 for c in d]) for e in g]\ndef h(): return b",
    "import os.path as p, sys\nfrom a import b",
    "try:\n pass\nexcept E as e:\n print(e)",
    "def f():\n x: int = 1\n return x",
    "def f(a: int, b): return a",
    "del x",
    "def f():\n del x\n def g(): return x",
    "def f():\n print(x)\n global x",
    "def f():\n x = 1\n global x",
    "def f():\n x: int = 1\n global x",
    "def f():\n x: int\n nonlocal x",
    "def f(x): nonlocal x",
    "def f():\n x\n nonlocal x",
    "def f():\n x = 1\n nonlocal x",
    "def f():\n global x\n global x",
    "def f():\n global x\n nonlocal x",
    "class A(B, metaclass=C):\n def f(self): pass",
    "@d\ndef f(x=y): return x\nlambda x, y=z: x + y",
    "def f():\n def g():\n  def h(): return x\n  nonlocal x",
    "def f(x):\n def g():\n  global x\n  def h(): return x",
    "class A:\n __class__ = 1\n def f(self): return __class__",
    "def f(__class__):\n class A:\n  def g(self): return __class__",
    "for i in range(3):\n with open(i) as g: print(g)\nwhile i: pass",
]
# programs with type parameters, and the calls of their scans
TYPED = [
    ("def f[T](x: T): return T",
     "+T <f>|a T|+F f|n x|u T|-|u T|-|a f"),
    ("class A[T]: x = T",
     "+T <A>|a T|+C A|a __module__|a __qualname__|a __doc__|a __class__|u T|a x|-|-|a A"),
    ("class A:\n y = 1\n def m[T](self, z: y): pass",
     "+C A|a __module__|a __qualname__|a __doc__|a __class__|a y|+T <m>|a T|+F m|p self|n z|-|u y|-|a m|-|a A"),
    ("class A:\n y = 1\n def m[T: int](self, z: T): y",
     "+C A|a __module__|a __qualname__|a __doc__|a __class__|a y|+T <m>|u int|a T|+F m|p self|n z|u y|-|u T|-|a m|-|a A"),
    ("def f(a):\n def g[T](b: a): return a\n return g",
     "+F f|p a|+T <g>|a T|+F g|n b|u a|-|u a|-|a g|u g|-|a f"),
    ("def f(a):\n class A:\n  a = 1\n  def g[T](): return a",
     "+F f|p a|+C A|a __module__|a __qualname__|a __doc__|a __class__|a a|+T <g>|a T|+F g|u a|-|-|a g|-|a A|-|a f"),
]


class Recorder(scopes.Scanner):
    """A scan that writes down its calls."""

    def __init__(self, typed):
        super().__init__(typed)
        self.calls = []

    def enter(self, typ, name, node, line):
        self.calls.append("+" + KINDS[typ] + " " + name)
        return super().enter(typ, name, node, line)

    def leave(self):
        self.calls.append("-")
        return super().leave()

    def register(self, name, role, loc):
        self.calls.append(ROLES[role] + " " + scopes.mangle(self.class_name, name))
        return super().register(name, role, loc)


def dump(scope):
    symbols = ",".join(f"{s.name}:{s.scope}:{s.flags}" for s in scope.symbols.values())
    return KINDS[scope.typ] + scope.name + "{" + symbols + "}[" + "".join(dump(c) for c in scope.children) + "]"


def answer(scan, fault):
    """The tables of a scan, or why it is refused."""
    try:
        return dump(scopes.build(scopes.Scan(scan.root, scan.uses, fault)))
    except scopes.Fault as f:
        return "refused: " + f.text


def scanned(source):
    """The calls of the scan of a source, and their answer."""
    recorder, fault = Recorder(False), None
    try:
        recorder.body(tree_of(source).f["body"])
    except scopes.Fault as f:
        fault = f
    return "|".join(recorder.calls), answer(recorder, fault)


def replayed(calls):
    """The answer to these calls."""
    scanner, fault = scopes.Scanner(True), None
    kinds = {v: k for k, v in KINDS.items()}
    roles = {v: k for k, v in ROLES.items()}
    try:
        for call in calls.split("|"):
            if call == "-":
                scanner.leave()
            elif call[0] == "+":
                scanner.enter(kinds[call[1]], call[3:], None, 0)
            else:
                scanner.register(call[2:], roles[call[0]], None)
    except scopes.Fault as f:
        fault = f
    return answer(scanner, fault)


# Other calls, and their answers: names as a class writes them, what symbols are, the scopes of `def f(x): return lambda: x`,
# and a stack that is lent.
CLOSURE = "+F f|p x|+F lambda|u x|-|-|a f"
OTHERS = [
    ("mangle A __x", "_A__x"), ("mangle _A __x", "_A__x"), ("mangle __A __x", "__A__x"), ("mangle A __x__", "-"),
    ("mangle A __a.b", "-"), ("mangle A x", "-"), ("mangle - __x", "-"),
    ("symbol Unknown 1", "false false false"), ("symbol Local 1", "false true false"), ("symbol GlobalExplicit 1", "true false false"),
    ("symbol GlobalImplicit 1", "true false false"), ("symbol Free 1", "false false false"), ("symbol Cell 1", "false true false"),
    ("symbol Free 2", "false false true"), ("symbol Free 4", "false false true"), ("symbol Free 8", "false false false"),
    ("symbol Free 16", "false false true"), ("symbol Free 32", "false false false"), ("symbol Free 64", "false false false"),
    ("symbol Free 128", "false false true"), ("symbol Free 256", "false false false"),
    ("names " + CLOSURE, "Some(Local) None Some(Cell) Some(Free) f Local 2"),
    ("flat " + CLOSURE, "next 0: Some(3) 1: Some(3) 2: Some(3) 3: None"),
    ("stack 7", "true Ok((1, 7)) Ok(((false, Some(7), Some(7)), 7)) Ok(((), 9)) Ok(((), 8)) 0 true"),
]


def cases():
    """Lines of the input, and what is written in their places."""
    for source in SOURCES + TYPED:
        text, calls = source if isinstance(source, tuple) else (source, None)
        calls, want = (calls, replayed(calls)) if calls else scanned(text)
        note = "# " + text.replace("\n", "\\n")
        yield note, note
        yield "scan " + calls, want
    yield "# other calls", "# other calls"
    yield from OTHERS


def main():
    argparse.ArgumentParser(prog="scope_tables.py", description=__doc__.split("\n")[0]).parse_args()
    case_files.settle("scope_vectors", cases())


if __name__ == "__main__":
    main()
