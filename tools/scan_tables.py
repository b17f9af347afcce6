"""Writes crates/scan_vectors/stdin and stdout: sources, with the tables of their scopes or why they are refused.

usage: scan_tables.py

What is wanted comes from tools/model, whose `scopes.py` scans trees.
Each case is a line with its mode and its source, and a line with its rows; in stdout what the model says of the rows
stands in their place. The last cases are of the library of the Python that runs this: small files, and of larger ones the
definition that makes the most scopes. It wants Python 3.12 or later, which reads type parameters. The stored cases are
of 3.12.1.
"""
import argparse
import ast
import itertools
import json
import os
import pathlib
import sys

from source_tables import constant, escaped, rows_of, with_part, write
from rows_reader import read_rows
from stdlib import library_files
import scopes
import shapes
from py2rows import Converter, NotCarried, rows_text
from tree import rows_of as rows_of_tree

# the longest rows of a file and of a definition of the library, in characters; every so many of those found is taken
FILE_ROWS = 1200
DEFINITION_ROWS = 900
EVERY = 2

WORKED = [
    "def f(x): return lambda: x",
    "def f(y):\n class A:\n  y = 1\n  def g(self):\n   super()\n   return y",
    "def f(): return [y := v for v in z]",
    "[(lambda: y) for v in z if (y := v)]",
    "d[(lambda: k)()] = [x for x in y]",
    "def f(x): global x",
    "nonlocal x",
    "[y := 0 for y in z]",
    "def f(): nonlocal x",
    "global x\nnonlocal x",
    "import os.path as p\nclass Shape(Base):\n    \"\"\"A shape.\"\"\"\n    def __init__(self, n, *, unit='m'):\n        super().__init__()\n        self.n = n\n    @staticmethod\n    def make(n): return Shape(n)\ndef total(items):\n    try:\n        return sum(i.n for i in items if i)\n    except (TypeError, ValueError) as e:\n        print(f'bad {e!r}')\n        raise\n    finally:\n        p.flush()",
    "from __future__ import annotations\ndef f(a: List[int] | None): pass",
    "def f[T](x: T = 1): pass",
    "class A[T]: x = T",
    "type X[T] = int",
    "class A:\n y = 1\n def m[T](self, z: y): pass",
    "def f[**P](): pass",
    "f(a + 1)",
    "pass",
]

STATEMENTS = [
    "x",
    "x = y = z",
    "x, (y.a, [z, *w[i]]) = v",
    "x = x",
    "(x) = 1",
    "x += y",
    "x += x",
    "x.a += y",
    "x[i] += y",
    "(x) += (y := 1)",
    "del x, y.a, z[i], (w, [v])",
    "del x\nx",
    "x\ndel x",
    "for x, y.a in z: w\nelse: v",
    "for x in x: pass",
    "while x: y\nelse: z",
    "if x: y\nelif z: w\nelse: v",
    "with a as b, c as (d, e.g), h: i",
    "with a, b: c",
    "raise",
    "raise x from y",
    "try: a\nexcept B as c: d\nexcept: e\nelse: g\nfinally: h",
    "try: a\nexcept B as b: b\nfinally: b",
    "try: a\nexcept* B as c: d",
    "assert x, y",
    "assert (x := y), (z := x)",
    "import a.b, c.d as e, g",
    "from a.b import c, d as e",
    "from a import *",
    "from . import a\nfrom ..b import c",
    "from __future__ import division, annotations\nx: y",
    "import a\nimport a\na",
    "import a.b\na = 1",
    "return x",
    "break\ncontinue\nreturn",
    "async def f():\n async for x in y: await z\n async with a as b: c",
    "def f():\n for x in y:\n  while z:\n   with w as v: return v",
    "'doc'\nx",
    "def f():\n 'doc'\n return None",
    "match x:\n case _: y",
    "def f(a):\n match a.b(c):\n  case _: d",
    "x = 1\nmatch (y := x):\n case _: pass",
    "match [z for z in w if (q := z)]:\n case _: pass",
    "__debug__ = x\ndel __debug__",
    "x = __debug__, __name__",
]

EXPRESSIONS = [
    "1",
    "x",
    "x + y * -z @ w",
    "x and y or not z",
    "x < y <= z is not w in v",
    "x if y else z",
    "[x, *y, (z, {w, v})]",
    "{x: y, **z, w: v, **u}",
    "{**x}",
    "f(x, *y, a=z, **w)",
    "x.a.b[y:z:w, ...].c",
    "x[y, z]",
    "x[:]",
    "f'{x}'",
    "f'a{x!r:{y}.{z:w}}b{q}'",
    "f'{x:{y}}{(z := w)}'",
    "f'{[a for a in b]}{lambda_}'",
    "(yield x)",
    "(yield)",
    "(yield from x)",
    "(x := y)",
    "(x := (y := z))",
    "(x := x)",
    "[x := y, x, (z := x)]",
    "f(x := y)[z := x]",
    "super",
    "super()",
    "super().a(b)",
    "__class__",
    "lambda: x",
    "lambda x: x",
    "lambda x, y=x, *z, w=y, **v: (x, y, z, w, v, u)",
    "lambda a, b, /, c, d=e, *, g, h=i: a",
    "lambda x: lambda y: x + y + z",
    "lambda: lambda: lambda: x",
    "lambda x: (lambda x: x)(x)",
    "lambda x: (y := x)",
    "lambda: (yield x)",
    "(lambda: (lambda: x))((lambda x: x))",
    "lambda x=(lambda y: y): x",
    "lambda x=(y := 1): y",
    "lambda: super()",
    "[x for x in y]",
    "{x for x in y}",
    "(x for x in y)",
    "{x: y for x, y in z}",
    "[x for x in x]",
    "[x for x in y if x if z]",
    "[x + w for x in y for z in x if z]",
    "[x for x in y for x in x]",
    "[[z for z in x] for x in y]",
    "[(x, z) for x, (y, *z) in w]",
    "[x.a for x.a in y]",
    "[x for x[i] in y]",
    "[a for x in y for a in x for b in (lambda: a)()]",
    "[lambda: x for x in y]",
    "[lambda x=x: x for x in y]",
    "[x for x in [z for z in w]]",
    "[x for x in (lambda: v)()]",
    "[f(x) async for x in y]",
    "[await x for x in y]",
    "[(yield x) for x in y]",
    "{x: [x for x in x] for x in x}",
    "[super() for x in y]",
    "[x for x in super()]",
    "[[[[a for a in b] for b in c] for c in d] for d in e]",
    "(a for a in (b for b in (c for c in d)))",
]

WALRUSES = [
    "[y := v for v in z]",
    "y\n[y := v for v in z]\ny = 1",
    "def f():\n [y := v for v in z]\n def g(): return y",
    "def f(y): [y := v for v in z]",
    "def f():\n global y\n [y := v for v in z]",
    "def f():\n y = 0\n def g():\n  nonlocal y\n  [y := v for v in z]\n return y",
    "def f():\n def g():\n  nonlocal y\n  [y := v for v in z]",
    "def f():\n [y := v for v in z]\n global y",
    "def f():\n [[y := v for v in w] for w in z]\n return y",
    "def f(): return {(y := v): (u := y) for v in z}",
    "def f(): return [lambda: y for v in z if (y := v)]",
    "def f(): return [[y for w in y] for v in z if (y := v)]",
    "[y := v for v in z if (w := y)]",
    "[[y := v for v in w] for w in z]",
    "[[w := v for v in w] for w in z]",
    "[[y := v for v in w] for y in z]",
    "[v := 1 for v in z]",
    "[v for v in z if (v := 1)]",
    "[0 for v in z for w in v if (w := 1)]",
    "[0 for v in z if (w := 1) for w in v]",
    "[0 for v, (w, *u) in z if (u := 1)]",
    "class A: [y := v for v in z]",
    "class A:\n def f(self): return [y := v for v in z]",
    "class A: x = (y := 1)",
    "class A: x = lambda: (y := 1)",
    "class A: x = lambda: [y := v for v in z]",
    "class A: [[v := y for v in w] for y in z]",
    "[x for x in (y := z)]",
    "[x for x in [y := z]]",
    "[x for x in f(y := z)]",
    "[x for x in (y := z)()]",
    "[x for x in a[y := z]]",
    "[x for x in (y := z).a]",
    "[x for x in (a if (y := z) else b)]",
    "[x for x in f'{(y := z)}']",
    "[x for x in (y := z) + w]",
    "[x for x in -(y := z)]",
    "[x for x in a < (y := z)]",
    "[x for x in a or (y := z)]",
    "[x for x in {a: (y := z)}]",
    "[x for x in {*a, (y := z)}]",
    "[x for x in (a, *(y := z))]",
    "[x for x in (await (y := z))]",
    "[x for x in (yield (y := z))]",
    "[x for x in (yield from (y := z))]",
    "[x for x in a[(y := z):]]",
    "[x for x in (lambda: (y := z))]",
    "[x for x in (lambda a=(y := z): a)]",
    "[x for x in (lambda: (y := z))()]",
    "[x for x in (w for w in (y := z))]",
    "[x for x in (w for w in z if (y := w))]",
    "[x for x in w for v in (y := z)]",
    "[x for x in w for v in f(y := z)]",
    "[x for x in w for v in [u for u in v if (y := u)]]",
    "{(y := v): 1 for v in (lambda: w)((u := z))}",
    "(y := [y for y in z])",
    "[y for v in z]\n(y := 1)",
    "def f():\n (y := 1)\n return [y for v in z]",
    "def f():\n x = [y := v for v in z]\n def g():\n  nonlocal y\n  return y",
    "def f():\n def g(): return y\n [y := v for v in z]",
    "def f():\n x = [y := v for v in z]\n class A:\n  def g(self): return y",
    "global y\n[y := v for v in z]",
    "def f():\n global y\n def g(): return [y := v for v in z]",
    "if (x := y): x\nwhile (z := x): z",
    "(x := 1) + x",
    "def f(a=(b := 1)): return b",
    "@(d := e)\ndef f(): return d",
    "class A((B := C), k=(D := E)): pass",
    with_part("((a, *b) := c)", "(a, *b)"),
    with_part("[(a.b, c) := d for e in g]", "(a.b, c)"),
    with_part("[(e, c) := d for e in g]", "(e, c)"),
    with_part("[x for x in ((a, b) := c)]", "(a, b)"),
]

FUNCTIONS = [
    "def f(): pass",
    "def f(): return f",
    "def f(a, b=1, /, c=2, *d, e, g=h, **i): return a, b, c, d, e, g, i, j",
    "def f(a: b, c: d = e, *g: h, i: j = k, **l: m) -> n: pass",
    "def f(a: a, b: f): pass",
    "def f(x=x): return x",
    "def f(x=lambda: x): return x",
    "def f(a=[b for b in c], *, d=[e for e in g]): pass",
    "@a\n@b.c(d)\ndef f(): pass",
    "@f\ndef f(): pass",
    "@(lambda g: g)\ndef f(x=(lambda: y)) -> (lambda: z): return lambda: x",
    "def f():\n def g(): pass\n return g",
    "def f(a):\n def g(b):\n  def h(c): return a, b, c, d\n  return h\n return g",
    "def f(a):\n def g():\n  def h(): return a",
    "def f(a):\n def g(a):\n  def h(): return a",
    "def f():\n def g(): return x\n x = 1",
    "def f():\n x = 1\n def g():\n  x = 2\n  def h(): return x\n return lambda: x",
    "def f():\n x = 1\n return [x for y in z]",
    "def f():\n x = 1\n return [lambda: x for x in z], lambda: x",
    "def f():\n for x in y: pass\n return lambda: x",
    "def f():\n import a.b as c, d.e\n from g import h\n return lambda: (c, d, h)",
    "def f():\n with a as b: return lambda: b",
    "def f():\n try: pass\n except E as e: return lambda: e",
    "def f():\n del x\n return lambda: x",
    "def f():\n x += 1\n def g(): return x",
    "def f():\n return x\n def x(): return f",
    "def f():\n class x: pass\n return lambda: x",
    "def f(x): return [x := y for y in x]",
    "def f(_): _\ndef f(_): return lambda: _",
    "async def f(a=b) -> c: return [d async for d in a]",
    "def f():\n yield x\n x = yield\n yield from x",
    "def f(): return f\nf = f(f)",
    "x = 1\ndef f(): return x\ndef g():\n x = 2\n return x",
    "def f():\n def f(): return f\n return f",
    "def f(a, b=c): a = b",
    "def f(a, *, b): return lambda c, *, b=b: (a, b, c)",
    "def f():\n x: int\n def g(): return x",
    "def f():\n if x: y = 1\n else: del y\n while y: z = y\n return lambda: (x, y, z)",
]

CLASSES = [
    "class A: pass",
    "class A: x = A",
    "class A(B, C.d, *E, metaclass=F, **G): pass",
    "@a\n@b(c)\nclass A(B): d = e",
    "class A:\n x = 1\n def f(self): return x",
    "class A:\n x = 1\n y = [x for z in x]",
    "class A:\n x = 1\n y = [z for z in x if x]",
    "class A:\n x = 1\n y = lambda: x",
    "class A:\n x = 1\n def f(self, y=x) -> x: pass",
    "class A:\n x = 1\n class B(x):\n  y = x",
    "class A:\n class B: pass\n x = B",
    "def f(x):\n class A:\n  y = x\n return A",
    "def f(x):\n class A:\n  x = x",
    "def f(x):\n class A:\n  def g(self): return x",
    "def f(x):\n class A:\n  x = 1\n  def g(self): return x",
    "def f(x):\n class A:\n  class B:\n   def g(self): return x",
    "def f(x):\n class A:\n  class B:\n   y = x",
    "def f(x):\n class A:\n  del x",
    "def f(x):\n class A:\n  import x\n  def g(self): x",
    "def f(x):\n class A:\n  for x in x: pass",
    "def f(x):\n class A:\n  x: int\n  def g(self): return x",
    "def f(x):\n class A(x):\n  def x(self): return x",
    "class A:\n def f(self): return __class__",
    "class A:\n def f(self): return super()",
    "class A:\n def f(self): return super().f(super)",
    "class A:\n def f(self): super = 1; return super",
    "class A:\n def f(self): return lambda: super()",
    "class A:\n def f(self): return [super() for x in y]",
    "class A:\n def f(self): return [x for x in super()]",
    "class A:\n def f(self): return [x for x in super().f()]",
    "class A:\n def f(self):\n  def g(): return super()\n  return g",
    "class A:\n x = super()",
    "class A:\n x = super().y\n def f(self): return super",
    "class A:\n x = lambda self: super()",
    "class A:\n x = [super() for y in z]",
    "class A:\n __class__ = 1",
    "class A:\n __class__\n def f(self): return __class__",
    "class A:\n def f(self):\n  __class__ = 1\n  return super()",
    "class A:\n def f(self):\n  class B:\n   def g(self): return super(), __class__",
    "class A:\n class B:\n  def f(self): return __class__\n def g(self): return __class__",
    "def f(__class__):\n class A:\n  def g(self): return __class__\n return __class__",
    "def f():\n return super()",
    "class A:\n def f(self): del super",
    "class A:\n def f(self): self.super()\n def g(self, super): super",
    "class A:\n async def f(self): await super().f()",
    "class A:\n __module__ = __qualname__\n __doc__ = 1\n def f(self): return __module__",
    "class A:\n \"doc\"\n x: int = 1\n y: str\n (z): int = 2\n w.a: int",
    "class A:\n x = 1\nx = A.x\nclass A(A): pass",
    "def f():\n class A: pass\n class B(A):\n  def g(self): return A",
]

PRIVATE = [
    "class A: __x = 1",
    "class A: x = __x",
    "class A:\n def f(self): return __x, self.__x",
    "class A:\n def f(self, __x, *, __y=__z): return __x, __y",
    "class A:\n def __f(self): return __f",
    "class A:\n class __B:\n  __x = 1",
    "class _A: __x = 1",
    "class __A: __x = 1",
    "class ___: __x = __y",
    "class A: __x__ = __y__ = __",
    "class A:\n import __a.b, c.__d, e as __g\n from h import __i, __j as k",
    "class A:\n def f(self):\n  global __x\n  __x = 1",
    "def f():\n __x = 1\n class A:\n  def g(self): return __x",
    "def f():\n _A__x = 1\n class A:\n  def g(self): return __x",
    "def f():\n _A__x = 1\n class A:\n  def g(self):\n   nonlocal __x\n   __x = 2",
    "class A: x = [__y for __y in __z]",
    "class A: x = lambda __y: __y + __z",
    "class A:\n try: pass\n except E as __e: __e",
    "class A:\n def f(self): return [(__y := z) for z in w]",
    "class A(__B, k=__C): pass\nclass D:\n class E(__F): __g = 1",
    "class A:\n @__d\n def f(self, x: __y = __z) -> __w: pass",
    "class A:\n __x: int = 1\n del __x",
    "class A:\n def f(self, _A__x, __y): return __x",
    "class A:\n def f[__T](self, x: __T): return __T",
    "class A[__T]: x = __T",
]

ANNOTATIONS = [
    "x: int",
    "x: int = y",
    "(x): int",
    "(x): int = y",
    "x.a: b = c",
    "x[i]: b",
    "x: x",
    "x: int\nx = 1\nx",
    "x: (lambda: y)",
    "x: [y for y in z]",
    "def f():\n x: y\n return lambda: x",
    "def f():\n x: y = z\n return x",
    "def f():\n (x): y\n (w): y = z\n x.a: b\n c[d]: e = g",
    "def f(a: (lambda: b), c: [d for d in e]) -> {g: h}: pass",
    "lambda: [x for x in y]",
    "from __future__ import annotations\nx: y\ndef f(a: b, *c: d) -> e: g: h = i",
    "from __future__ import annotations\ndef f(a: (lambda: b)) -> [c for c in d]: pass\nlambda: x",
    "from __future__ import annotations\nx.a: y = z\n(w): (v := 1)",
    "x: y\nfrom __future__ import annotations\nz: w",
    "def f():\n from __future__ import annotations\nx: y",
    "from __future__ import division\nx: y",
    "from .__future__ import annotations\nx: y",
    "from __future__ import annotations as a\nx: y",
    "from __future__ import annotations\nclass A[T]:\n x: T\n def f[U: T](self, a: U) -> T: pass",
    "def f(a: (x := 1)): return x",
    "def f(a: (yield)) -> (yield b): pass",
    "class A:\n x: B\n def f(self, a: x) -> y: pass\n y: x = 1",
]

DECLARATIONS = [
    "global x",
    "global x, y\nx = y",
    "x = 1\ndef f():\n global x\n x = 2",
    "x = 1\ndef f():\n def g():\n  global x\n  x = 2",
    "x = 1\nclass A:\n global x\n x = 2",
    "x = 1\nclass A:\n def f(self):\n  global x",
    "def f():\n global x\n return x",
    "def f():\n global x\n def g(): return x",
    "def f():\n global x\n def g():\n  x = 1\n  def h(): return x",
    "def f(x):\n def g():\n  global x\n  def h(): return x",
    "def f():\n x = 1\n class A:\n  global x\n  y = x\n  def g(self): return x",
    "def f():\n global x\n global x",
    "def f():\n global x\n x = 1\n global x",
    "def f():\n global x\n for x in y: pass\n import x\n del x",
    "def f():\n global f\n def f(): pass\n class f: pass",
    "def f():\n global x\n [x for x in y]",
    "def f():\n x = 1\n def g():\n  nonlocal x\n  x = 2\n return g",
    "def f():\n x = 1\n def g():\n  nonlocal x\n  def h():\n   nonlocal x\n   x = 2",
    "def f():\n x = 1\n def g():\n  def h():\n   nonlocal x\n   x = 2",
    "def f():\n x = 1\n class A:\n  nonlocal x\n  x = 2\n  def g(self): return x",
    "def f():\n x = 1\n class A:\n  def g(self):\n   nonlocal x\n   x = 2",
    "def f(x):\n def g():\n  nonlocal x",
    "def f(x):\n def g():\n  nonlocal x\n  return [x := y for y in z]",
    "def f():\n nonlocal x\n x = 1",
    "x = 1\ndef f():\n nonlocal x",
    "def f():\n global x\n def g():\n  nonlocal x",
    "class A:\n x = 1\n def f(self):\n  nonlocal x",
    "class A:\n nonlocal x",
    "class A:\n def f(self):\n  nonlocal __class__",
    "class A:\n nonlocal __class__",
    "class A:\n global __class__",
    "class A:\n nonlocal __doc__",
    "def f():\n class A:\n  nonlocal x\n x = 1",
    "def f():\n def g():\n  def h(): return x\n  nonlocal x",
    "def f(x):\n def g():\n  nonlocal x\n  global x",
    "def f(x):\n def g():\n  global x\n  nonlocal x",
    "def f():\n x = 1\n def g():\n  nonlocal x, y",
    "def f():\n def g():\n  nonlocal y, x\n x = 1",
    "def f():\n def g():\n  nonlocal x\n def h():\n  nonlocal y",
    "def f(): nonlocal x\nclass A: [y := v for v in z]",
    "global x\nnonlocal x\nclass A: [y := v for v in z]",
    "def f():\n for x in y: pass\n def g():\n  nonlocal x\n  del x",
    "def f(x):\n nonlocal x",
    "def f():\n x\n global x",
    "def f():\n x\n nonlocal x",
    "def f():\n x = 1\n global x",
    "def f():\n x = 1\n nonlocal x",
    "def f():\n x: int\n global x",
    "def f():\n x: int = 1\n nonlocal x",
    "def f(x: int):\n global x",
    "def f(x):\n x\n x = 1\n nonlocal x",
    "def f():\n x = x\n global x",
    "def f():\n x: int = x\n global x",
    "def f():\n import x\n global x",
    "def f():\n def x(): pass\n nonlocal x",
    "def f():\n class x: pass\n global x",
    "def f():\n for x in y: pass\n global x",
    "def f():\n with y as x: pass\n global x",
    "def f():\n del x\n global x",
    "def f():\n x += 1\n global x",
    "def f():\n (x := 1)\n global x",
    "def f():\n [x for x in y]\n global x",
    "def f():\n lambda: x\n global x",
    "def f():\n x()\n if a:\n  while b:\n   global y, x",
    "x = 1\nglobal x",
    "x\nglobal x",
    "x\nnonlocal x",
    "nonlocal x, y",
    "if a:\n nonlocal x",
    "def f():\n try: pass\n except E as x: pass\n global x",
    "lambda x: x\nglobal x",
    "def f(a, x=1, *b, c: d, **e): global b",
    "def f(a, *, c: d): nonlocal c",
]

TYPE_PARAMETERS = [
    "def f[T](): pass",
    "def f[T, U: T, V: (T, U)](x: T, y: U = z, *, w: V = v) -> T: return T, U, V",
    "def f[T](*, x=1): pass",
    "def f[T](x=1, /, y=2, *, z=3, w): return x",
    "@d\ndef f[T](x=T): return f",
    "@T\ndef f[T](x: T): pass",
    "@a\n@b\nclass A[T](B[T], k=T): pass",
    "def f[T]():\n def g(): return T\n return g",
    "def f[T](a=lambda: T): return lambda: T",
    "def f[T: (lambda: x)](): pass",
    "def f[T: [x for x in y]](): pass",
    "def f[T: T](): pass",
    "def f[T: U, U: T](): pass",
    "def f[T]():\n T = 1\n def g(): return T",
    "def f[T]():\n nonlocal T\n T = 1",
    "def f[T]():\n global T",
    "def f[T](T): return T",
    "def f[T](x: [T for y in T]) -> (lambda: T): pass",
    "def f[f](x: f): return f",
    "async def f[T](x: T) -> T: return T",
    "def f(a):\n def g[T: a](b: a) -> T: return a, T\n return g",
    "def f(a):\n class A[T: a](a):\n  x = a, T\n return A",
    "def f(a):\n type X[T] = a\n return X",
    "def f(a):\n class A:\n  a = 1\n  def g[T](self): return a",
    "class A[T]: pass",
    "class A[T](T): T = T",
    "class A[T]:\n def f(self, x: T) -> T: return T",
    "class A[T]:\n def f[U](self, x: T, y: U): return T, U",
    "class A[T]:\n class B[U](T): x = T, U",
    "class A[T]:\n def f(self): return super(), T, __class__",
    "class A[T](super()): pass",
    "class A[A]: x = A",
    "class A[T]:\n global T\n x = T",
    "class A[T]:\n nonlocal T\n T = 1",
    "class A[T](metaclass=[T for x in T]): pass",
    "class A[T](lambda: T): pass",
    "type X = int",
    "type X = X",
    "type X[T] = (T, X)",
    "type X[T: int, U: T] = dict[T, U]",
    "type X = lambda: y",
    "type X[T] = lambda: T",
    "type X[T] = [T for x in T]",
    "type X = [x for x in y]",
    "class A:\n type X = A\n type Y[T] = Z",
    "class A:\n y = 1\n type X[T] = y",
    "class A:\n y = 1\n def m[T: y](self): pass",
    "class A:\n y = 1\n def m[T](self) -> y: pass",
    "class A:\n y = 1\n def m[T](self, z=y): return y",
    "class A:\n y = 1\n class B[T](y): pass",
    "class A:\n y = 1\n class B[T]: x = y",
    "class A:\n def m[T](self, z: y): pass\n y = 1",
    "class A:\n def m[T](self, z: m): pass",
    "class A:\n y = 1\n def m[T](self, z: (lambda: y)): pass",
    "class A:\n y = 1\n def m[T](self, z: [w for w in y]): pass",
    "class A:\n y = 1\n def m[y](self, z: y): pass",
    "class A:\n y = 1\n @y\n def m[T](self, z: T): return y",
    "class A:\n import y\n for x in z: pass\n def m[T](self, a: x): pass",
    "class A:\n y: int\n def m[T](self, a: y): pass",
    "class A:\n y\n def m[T](self, a: y): pass",
    "class A:\n global y\n def m[T](self, a: y): pass",
    "class A:\n global y\n y = 1\n def m[T](self, a: y): pass",
    "class A:\n def m[T: __class__](self): pass",
    "class A:\n def m[T](self, a: __class__): return __class__",
    "class A:\n def m[T](self, a: __doc__): pass",
    "class A:\n def f(self): nonlocal x\n y = 1\n def m[T](self, z: y): pass",
    "class A:\n y = 1\n def m[T](self, z: y): pass\n def f(self): nonlocal x",
    "class A:\n y = 1\n def m[T](self, z: y): pass\n x = [w := v for v in u]",
    "def f[T](): pass\ndef f[T](): return T\nT",
    "def f[T, T](): pass",
    "def f[T, U: V, T: W](): pass",
    "class A[T, U, U]: pass",
    "type X[T, T] = int",
    "class A:\n def f[__T, _A__T](): pass",
    "def f[T: (x := 1)](): pass",
    "def f[T: (lambda: (x := 1))](): pass",
    "def f[T: [x := y for y in z]](): pass",
    "def f[T: [y for y in (x := z)]](): pass",
    "def f[T](a: (x := 1)): pass",
    "def f[T](a: (lambda: (x := 1))): pass",
    "def f[T](a=(x := 1)): return x",
    "def f[T]() -> [x := y for y in z]: pass",
    "@(x := d)\ndef f[T](): return x",
    "def f[T]():\n (x := T)",
    "class A[T]((x := B)): pass",
    "class A[T](k=(x := B)): pass",
    "class A[T]: (x := B)",
    "class A[T]: [x := y for y in z]",
    "type X[T] = (x := y)",
    "type X = (x := y)",
    "type X[T] = [x := y for y in z]",
    "def f[T: (yield)](): pass",
    "def f[T: (yield x)](): pass",
    "def f[T: (yield from x)](): pass",
    "def f[T: (lambda: (yield))](): pass",
    "def f[T](a: (yield)): pass",
    "def f[T]() -> (yield from x): pass",
    "def f[T](a=(yield)): yield",
    "class A[T]((yield)): pass",
    "class A[T]: (yield)",
    "type X[T] = (yield)",
    "type X = (yield)",
    "type X[T] = [(yield) for x in y]",
    "def f[T: (await x)](): pass",
    "def f[*Ts](): pass",
    "def f[T, *Ts, **P](): pass",
    "@d\n@e\ndef f[T: (x := 1), *Ts](a=(y := 1)): pass",
    "class A[**P](B): pass",
    "type X[T, *Ts] = int",
    "def f[T: (x := 1), T](): pass",
    "def f[T, T: (x := 1)](): pass",
    "def f[T](a: b):\n class A[U]:\n  type X[V] = (T, U, V)\n  def g[W](self, c: T, d: U, e: W) -> a: return V\n return A",
    "def f[T]():\n def g[U]():\n  def h[V](): return T, U, V",
    "def f[T](): return [T for x in [T for y in T]]",
    "def f[T]():\n class A:\n  T = T\n  def g(self): return T",
]

TARGETS = [
    with_part("f(a) = b", "f(a)"),
    with_part("a + b = c", "a + b"),
    with_part("a, -b = c", "-b"),
    with_part("a if b else c = d", "a if b else c"),
    with_part("(lambda a: b) = c", "(lambda a: b)"),
    with_part("[a for a in b] = c", "[a for a in b]"),
    with_part("f'{a}' = b", "f'{a}'"),
    with_part("{a: c} = d", "{a: c}"),
    with_part("a and b = c", "a and b"),
    with_part("a < b = c", "a < b"),
    with_part("(yield a) = b", "(yield a)"),
    with_part("await a = b", "await a"),
    with_part("(a := b) = c", "(a := b)"),
    with_part("a(b).c, d[e:g] = h", "a(b).c"),
    with_part("del f(a)", "f(a)"),
    with_part("del a + b", "a + b"),
    with_part("del [a, *b]", "[a, *b]"),
    with_part("del (yield a)", "(yield a)"),
    with_part("a, b += c", "a, b"),
    with_part("f(a) += b", "f(a)"),
    with_part("-a += a", "-a"),
    with_part("*a += b", "*a"),
    with_part("f(a): b = c", "f(a)"),
    with_part("a, b: c = d", "a, b"),
    with_part("for f(a) in b: a", "f(a)"),
    with_part("for a + b in a: b", "a + b"),
    with_part("with a as b + c: b", "b + c"),
    with_part("with a as f(b): c", "f(b)"),
    with_part("[a for f(a) in b]", "f(a)"),
    with_part("[a for a + b in c]", "a + b"),
    with_part("[a for (a if b else c) in d]", "(a if b else c)"),
    with_part("[a for -a in b if (a := c)]", "-a"),
    with_part("(f(a) := b)", "f(a)"),
    with_part("[(f(a) := b) for c in d]", "f(a)"),
    with_part("[(a + b := b) for c in d]", "a + b"),
]

# trees that no source has, and their wrong shapes
NAME = ["Name", 1, 1, "a"]
SHAPES = [
    rows_of("a type alias of an attribute", [NAME, ["Attribute", 1, 1, 0, "b"], ["Name", 1, 9, "c"], ["TypeAlias", 1, 1, 1, [], 2], ["Module", [3]]]),
    rows_of("a type alias of an attribute with a type parameter", [NAME, ["Attribute", 1, 1, 0, "b"], ["TypeVar", 1, 5, "T", None], ["Name", 1, 9, "T"], ["TypeAlias", 1, 1, 1, [2], 3], ["Module", [4]]]),
    rows_of("a type alias of two names with a type parameter", [NAME, ["Name", 1, 3, "b"], ["Tuple", 1, 1, [0, 1]], ["TypeVar", 1, 5, "T", None], ["Name", 1, 9, "a"], ["TypeAlias", 1, 1, 2, [3], 4], ["Module", [5]]]),
    rows_of("a lambda with annotations", [["Name", 1, 3, "x"], ["Arg", 1, 2, "b", 0], ["ArgWithDefault", 1, None], ["Name", 1, 5, "b"], ["Arg", 1, 4, "c", 3], ["Arguments", [], [2], 4, [], None], ["Name", 1, 8, "b"], ["Lambda", 1, 1, 5, 6], ["Expression", 7]]),
    rows_of("a lambda with an annotation that is a lambda, and a default", [["Arguments", [], [], None, [], None], ["Name", 1, 3, "x"], ["Lambda", 1, 3, 0, 1], ["Arg", 1, 2, "b", 2], ["Arguments", [], [], None, [], None], ["Name", 1, 5, "y"], ["Lambda", 1, 4, 4, 5], ["ArgWithDefault", 3, 6], ["Arguments", [], [7], None, [], None], ["Arguments", [], [], None, [], None], ["Name", 1, 7, "b"], ["Lambda", 1, 6, 9, 10], ["Lambda", 1, 1, 8, 11], ["Expression", 12]]),
    rows_of("a lambda with postponed annotations", [["Alias", "annotations", None], ["ImportFrom", 1, 1, "__future__", [0], 0], ["Name", 2, 3, "x"], ["Arg", 2, 2, "b", 2], ["ArgWithDefault", 3, None], ["Arguments", [], [4], None, [], None], ["Name", 2, 8, "b"], ["Lambda", 2, 1, 5, 6], ["Expr", 2, 1, 7], ["Module", [1, 8]]]),
    rows_of("a walrus within an annotation of a lambda in an iterable", [["Name", 1, 1, "v"], ["Name", 1, 2, "v"], ["Name", 1, 3, "y"], ["Name", 1, 4, "z"], ["NamedExpr", 1, 3, 2, 3], ["Arg", 1, 5, "b", 4], ["ArgWithDefault", 5, None], ["Arguments", [], [6], None, [], None], ["Name", 1, 6, "b"], ["Lambda", 1, 7, 7, 8], ["Comprehension", 1, 9, [], False], ["ListComp", 1, 1, 0, [10]], ["Expression", 11]]),
    rows_of("an annotated name that is said to be none", [NAME, ["Name", 1, 4, "b"], ["AnnAssign", 1, 1, 0, 1, None, False], ["Module", [2]]]),
    rows_of("an annotated attribute that is said to be a name", [NAME, ["Attribute", 1, 1, 0, "c"], ["Name", 1, 4, "b"], ["AnnAssign", 1, 1, 1, 2, None, True], ["Module", [3]]]),
    rows_of("a global statement without names", [["Global", 1, 1, []], ["Nonlocal", 2, 1, []], ["Module", [0, 1]]]),
    rows_of("an import without names", [["Import", 1, 1, []], ["ImportFrom", 2, 1, None, [], 0], ["Module", [0, 1]]]),
    rows_of("a function without a body", [["Arguments", [], [], None, [], None], ["FunctionDef", 1, 1, "f", 0, [], [], None, []], ["Module", [1]]]),
    rows_of("a class without a body", [["ClassDef", 1, 1, "A", [], [], [], [], []], ["Module", [0]]]),
    rows_of("a match without cases", [["Name", 3, 7, "a"], ["Match", 3, 1, 0, []], ["Module", [1]]]),
    rows_of("a with without items or a body", [["With", 1, 1, [], []], ["Module", [0]]]),
    rows_of("a bare handler before another", [["ExceptHandler", None, None, []], ["Name", 1, 8, "E"], ["ExceptHandler", 1, "e", []], ["Try", 1, 1, [], [0, 2], [], []], ["Module", [3]]]),
    constant("a tuple as a constant", [["str", "a"], ["tuple", [0]]]),
    rows_of("an empty file", [["Module", []]]),
    rows_of("an empty input at a prompt", [["Interactive", []]]),
    rows_of("a name that is called 1,020 times", [NAME] + [["Call", 1, 1, i, [], []] for i in range(1020)] + [["Expr", 1, 1, 1020], ["Module", [1021]]]),
    rows_of("no operand", [["BoolOp", 1, 1, "And", []], ["Expression", 0]]),
    rows_of("no comparison", [NAME, ["Compare", 1, 1, 0, [], []], ["Expression", 1]]),
    rows_of("no target", [NAME, ["Assign", 1, 1, [], 0], ["Module", [1]]]),
    rows_of("no clause", [NAME, ["GeneratorExp", 1, 1, 0, []], ["Expression", 1]]),
    rows_of("uneven comparison", [NAME, ["Compare", 1, 1, 0, ["Lt"], []], ["Expression", 1]]),
    rows_of("uneven dict", [NAME, ["Dict", 1, 1, [0], []], ["Expression", 1]]),
    rows_of("raise from a alone", [NAME, ["Raise", 1, 1, None, 0], ["Module", [1]]]),
    rows_of("except as e", [["ExceptHandler", None, "e", []], ["Try", 1, 1, [], [0], [], []], ["Module", [1]]]),
    rows_of("empty name", [["Name", 1, 1, ""], ["Expression", 0]]),
    rows_of("empty segment", [["Alias", "a..b", None], ["Import", 1, 1, [0]], ["Module", [1]]]),
    rows_of("name with a dot", [["Name", 1, 1, "a.b"], ["Expression", 0]]),
    rows_of("global with a dot", [["Global", 1, 1, ["a", "b.c"]], ["Module", [0]]]),
    rows_of("same parameter", [["Arg", 1, 1, "a", None], ["Arg", 1, 2, "a", None], ["Arguments", [], [], 0, [], 1], ["FunctionDef", 1, 1, "f", 2, [], [], None, []], ["Module", [3]]]),
    rows_of("same private parameter", [["Arg", 2, 1, "__a", None], ["Arg", 2, 2, "_A__a", None], ["Arguments", [], [], 0, [], 1], ["FunctionDef", 2, 1, "f", 2, [], [], None, []], ["ClassDef", 1, 1, "A", [], [], [3], [], []], ["Module", [4]]]),
    rows_of("no default after one", [["Arg", 1, 1, "a", None], NAME, ["ArgWithDefault", 0, 1], ["Arg", 1, 2, "b", None], ["ArgWithDefault", 3, None], ["Arguments", [], [2, 4], None, [], None], ["Name", 1, 9, "c"], ["Lambda", 1, 1, 5, 6], ["Expression", 7]]),
    rows_of("a wrong shape after what the scan refuses", [["Nonlocal", 1, 1, ["x"]], NAME, ["Assign", 2, 1, [], 1], ["Module", [0, 2]]]),
]

EXEC = [WORKED, STATEMENTS, WALRUSES, FUNCTIONS, CLASSES, PRIVATE, ANNOTATIONS, DECLARATIONS, TYPE_PARAMETERS, TARGETS, SHAPES]
EVAL = EXPRESSIONS

KINDS = {"Module": "module", "Class": "class", "Function": "function", "Comprehension": "comprehension", "TypeParams": "type parameter"}


def lines_of(scope, indent=""):
    """The line of a scope, then those of its symbols and of the scopes in it."""
    nested = ", nested" if scope.nested else ""
    yield f"{indent}{KINDS[scope.typ]} {scope.name}, line {scope.line}{nested}"
    for symbol in scope.symbols.values():
        yield f"{indent} {symbol.name} {symbol.scope} {symbol.flags:03x}"
    for within in scope.children:
        yield from lines_of(within, indent + " ")


def table_of(tree):
    """The table of a tree. What is wrong with the tree comes before what its scopes refuse."""
    if shapes.nesting(tree) >= shapes.NESTING_LIMIT:
        raise scopes.Fault("TooLarge", "tree is too large: nesting", None)
    wrong = shapes.valid(tree, "single")
    if wrong:
        raise scopes.Fault("MalformedTree", "malformed tree: " + wrong, None)
    return scopes.build(scopes.scan(tree, True))


def answer(text):
    """The lines of the table of a tree, or the line that says why there is none."""
    try:
        return "\n".join(lines_of(table_of(read_rows(text.encode()))))
    except scopes.Fault as fault:
        return f"{'-:-' if fault.loc is None else '%d:%d' % fault.loc} {fault.text}"


def case(mode, source):
    """The head of a case, its rows, and the model's answer."""
    if isinstance(source, tuple):
        source, text = source
    else:
        text = rows_text(source, mode)
    return f"{mode} {escaped(source)}", text, answer(text)


def short_rows(converter, body, most):
    """The rows of statements; None where rows cannot say them, or they are longer than so many characters."""
    try:
        tree = converter.mod(ast.Module(body, []))
    except NotCarried:
        return None
    text = json.dumps(rows_of_tree(tree), separators=(",", ":"), ensure_ascii=False)
    return text if len(text) <= most else None


def scopes_of(text):
    """How many scopes the tables have, 0 where there are none."""
    return answer(text).count(", line ")


def piece_of(file):
    """A name and the rows: of a small file, else of its definition with the most scopes, if it has three."""
    source = file.read_text("utf-8")
    parsed, converter = ast.parse(source), Converter(source)
    whole = short_rows(converter, parsed.body, FILE_ROWS)
    if whole is not None:
        return file.name, whole
    best, most = None, 2
    for it in parsed.body:
        if isinstance(it, (ast.FunctionDef, ast.AsyncFunctionDef, ast.ClassDef)):
            text = short_rows(converter, [it], DEFINITION_ROWS)
            if text is not None and scopes_of(text) > most:
                best, most = (f"{file.name}, {it.name}", text), scopes_of(text)
    return best


def library_pieces(folder):
    """What the files of a library give, in order, without installed packages."""
    for file in library_files(folder):
        try:
            piece = piece_of(file)
        except (SyntaxError, ValueError):
            continue
        if piece is not None:
            yield piece


def cases():
    """All cases: the made sources, then those of the library."""
    for sources in EXEC:
        for source in sources:
            yield case("exec", source)
    for source in EVAL:
        yield case("eval", source)
    for piece in itertools.islice(library_pieces(pathlib.Path(os.__file__).parent), 0, None, EVERY):
        yield case("exec", piece)


if __name__ == "__main__":
    argparse.ArgumentParser(prog="scan_tables.py", description=__doc__.split("\n")[0]).parse_args()
    if sys.version_info < (3, 12):
        sys.exit("scan_tables.py: Python 3.12 or later is wanted, which reads type parameters")
    write("scan_vectors", cases())
