#!/usr/bin/env python3
"""Writes crates/step_tree_vectors/stdin and stdout: trees, and what their runs over scripts of answers are told as.

usage: step_trees.py

What is wanted comes from tools/model alone: its `machine.py` runs the code that `emit.py` makes of a tree, its `meaning.py`
says what the tree does, and both must be told alike. The trees are those of the sources below. The scripts are drawn by
chance from a fixed seed, so that each run writes the same files: the model asks, and an answer is chosen that mostly fits.
A tree is a line with its rows. Behind it stands a line `run` with a mode, a level and a script for each of its runs. In
stdout the lines of both runs stand behind that line.
"""
import argparse
import pathlib
import random
import sys

TOOLS = pathlib.Path(__file__).resolve().parent
sys.path.insert(0, str(TOOLS / "model"))
import agree  # the model's
import answers
import emit
import machine
import meaning
from names_table import dumped, put_parameters
from py2rows import tree_of
from step_rows import event_text, outcome_text, script_of
from tree import Node, rows_of

CRATE = TOOLS.parent / "crates" / "step_tree_vectors"

# sources of files
FILES = [
    "f(a + 1)",
    "'a text'\nx = 1",
    "x",
    "x = y = z\nx, [y, *z] = a, b",
    "a.b = c[d] = e\na[b:c, ::d] = e\ndel a.b, c[d], (e, [f])",
    "x += 1\na.b -= c\na[b] **= c\na[b, c] @= d",
    "x: int = 1\ny: a.b\nz.w: c = d\n(u): e\nv[0]: g",
    "from __future__ import annotations\nx: int = 1\ny: a.b[c, 'd']\ndef f(p: q, *r: s, t: u = 1, **v) -> w: pass",
    "if a: b\nelif c and not d: e\nelse: f\nx = y if z else w",
    "while a:\n if b: break\n if c: continue\n d\nelse: e\nf",
    "while not a or b and c:\n while d: break\n else: continue\n e",
    "for x in y:\n for a, b in c:\n  if d: break\n  if e: continue\n else: f\nelse: g",
    "for x.y in z: w\nelse: v",
    "try: a\nexcept b: c\nexcept d as e: f\nexcept: g\nelse: h",
    "try:\n try: a\n finally: b\nexcept c as d:\n raise\nelse: e\nfinally: f",
    "try: raise a from b\nexcept c:\n try: raise d\n except e as f: raise\n finally: g",
    "for x in y:\n try:\n  if a: break\n  if b: continue\n  c\n except d: continue\n finally:\n  if e: break\n  f",
    "while a:\n try: b\n finally:\n  if c: continue\n  raise",
    "with a as b, c, d as (e, f): g\nh",
    "while a:\n with b as c:\n  if d: break\n  if e: continue\n  f\ng",
    "try:\n with a:\n  with b as c: raise d\nexcept e as f: g\nh",
    "with a:\n try: b\n except c:\n  with d: raise\n finally: e",
    "raise",
    "raise a",
    "assert a\nassert b, c\nassert not d",
    "import a, b.c, d.e.f as g\nimport h as i",
    "from a import b, c as d\nfrom .e import f\nfrom ... import g\nfrom h import *",
    "def f(a, b=c, /, d=e, *g, h, i=j, **k): 'doc'; return a",
    "@a\n@b.c\ndef f(x: y, *z: w) -> v: pass\n@d\nclass A(B, C, m=n): 'doc'",
    "class A: pass\nclass B(*c, d, **e): f = 1\nclass C(g, *h, i): pass\nclass D(j, k=l): pass\nclass E(**m): pass",
    "def f(): return lambda: f\ng = lambda x, y=a, *, z=b: c",
    "f()\nf(a)\nf(a, b=c)\nf(*a, b, **c)\nf(a, *b, c=d, **e, g=h, i=j)\nf(**a, **b)\nx.f(a)\nx.f(a, b=c)\nx.f(*a)\nx.f(**a, b=c)",
    "a < b <= c != d\na in b not in c is d is not e\na == b\nx = a > b >= c",
    "a and b or c\nx = a or b and c\ny = not a\nz = (a and b) if (c or not d) else e",
    "[a, *b, c]\n(*a,)\n{*a, b, *c}\n{a, b}\n[]\n()\n{a: b, **c, d: e}\n{**a}\n{}\n{a: b}",
    "[x for x in y if z]\n{x: y for x in z}\n{x for x in y for z in x}\n(x for x in y)",
    "f'{a}b{c!r:>{d}}'\nf'e' 'g'\nf'{a!s}{b!a}{c:x}'",
    "-a\n+b\n~c\na[b]\na.b.c\n(x := a)\na @ b // c % d << e >> g & h | i ^ j",
    "x = None, True, False, ..., b'a\\n', 'b', 12, (1, ('c',))\n__debug__\nif __debug__: a",
    "global x\nx = 1\npass\nNone",
    "a if b else c\nd if not e and f else g\nwhile a if b else c: d",
    "def f(a):\n global b\n yield a\n b = yield\n yield from c\n def g():\n  nonlocal a\n  a = d\n  return a\n return g",
]

# sources of files in which an assignment stands for a type alias of that name
ALIASES = ["A = b", "A = b[c, d]\nf(A)", "try: A = b.c\nexcept d as e: f\nA", "G = b[T]\nG", "B = b[T, U]"]

# the type parameters of these aliases: the name of each, and that of its bound
PARAMETERS = {"G": [("T", None)], "B": [("T", "c"), ("U", None)]}

# names of type parameters, by the names of functions and classes
GENERIC = {"G": ("T",), "H": ("T", "U"), "h": ("T",)}
GENERICS = ["class G(a): pass", "@b\nclass H: x = 1\n@c\ndef h(x=d, *, y=e): return x"]

PROMPTS = [
    "", "a", "a\nb", "x = 1\na", "a\nx = 1", "from __future__ import annotations\nx: int\na", "if a: b\nc", "def f(): pass", "class A: pass\n@b\ndef f(x=c): 'd'",
    "from __future__ import division\nfrom __future__ import annotations\na\nfrom b import c",
    "for x in y: x\nelse: z\nw", "'a'\nb", "try: a\nexcept b as c: d\nfinally: e\nf",
]

EXPRESSIONS = ["a", "f(a, *b)", "[x for x in y]", "a and b", "lambda: a", "a if b else c", "(x := y)"]

# so many scripts of each tree in a mode at a level
SCRIPTS = 7

# scripts of the first source: each answer fits; one raises; there is none; one does not fit; one is left over
WORKED = ["g1,g1,g1,g1", "g1,r", "", "g1,d", "g1,g1,g1,g1,t"]


def lines_of(view):
    """The lines of a run, as the plain view shows it."""
    events, outcome = view
    return [*(event_text(event, machine.KIND) for event in events), outcome_text(outcome)]


def machine_lines(code, script):
    return lines_of(agree.view(machine.machine(code, list(script)), False))


def scripts_of(rng, scope, count):
    """So many scripts, each of which was drawn while the model asked."""
    drawn = agree.Agree(rng, limit=40)
    yield []
    for _ in range(count - 1):
        script = []
        meaning.meaning(scope, drawn.source(script))
        if rng.random() < .1:
            script += [answers.Gives(1)] * 2
        yield script


def both_lines(tree, mode, level, script):
    """What is wanted of the runs of a tree and its code, which the model has alike."""
    code, scope = emit.compile_top(tree, "m.py", mode, level), meaning.body(tree, mode, level)
    told = machine_lines(code, script)
    meant = lines_of(agree.view_meaning(meaning.meaning(scope, list(script)), None))
    assert told == meant, (dumped(rows_of(tree)), mode, level, answers.show_script(script))
    return ["code", *told, "tree", *meant]


def tree_cases(rng, tree, ways):
    """The rows of a tree, and what is asked and wanted of its runs in these ways."""
    yield dumped(rows_of(tree)), None
    for mode, level in ways:
        for script in scripts_of(rng, meaning.body(tree, mode, level), SCRIPTS):
            yield f"run {mode} {level} {answers.show_script(script)}".rstrip(), both_lines(tree, mode, level, script)


def worked_cases():
    """The first source, over scripts that are written by hand."""
    tree = tree_of(FILES[0])
    yield dumped(rows_of(tree)), None
    for script in WORKED:
        yield f"run exec 0 {script}".rstrip(), both_lines(tree, "exec", 0, script_of(script))


def interactive(source):
    """The tree of what is entered at a prompt."""
    return Node("Interactive", None, {"body": tree_of(source).body})


def parameter(at, name, bound):
    """A type parameter, with a name for a bound where it has one."""
    return Node("TypeVar", at, {"name": name, "bound": bound and Node("Name", at, {"id": bound})})


def put_aliases(at):
    """Type aliases in place of assignments."""
    for body in (at.f[name] for name in ("body", "handlers") if isinstance(at.f.get(name), list)):
        for place, node in enumerate(body):
            if node.kind == "Assign":
                [name], value = node.targets, node.value
                parameters = [parameter(name.loc, *it) for it in PARAMETERS.get(name.id, ())]
                body[place] = Node("TypeAlias", node.loc, {"name": name, "type_params": parameters, "value": value})
            else:
                put_aliases(node)


def trees():
    """Trees, and the modes and levels in which they are run."""
    for source in FILES:
        yield tree_of(source), [("exec", 2 if "text" in source else 1 if "__debug__" in source or "assert" in source else 0)]
    for source in ("assert a\nassert b, c\nassert not d", "'a text'\nx = 1", "__debug__"):
        yield tree_of(source), [("exec", 0)]
    for source in GENERICS:
        tree = tree_of(source)
        put_parameters(tree, GENERIC)
        yield tree, [("exec", 0)]
    for source in ALIASES:
        tree = tree_of(source)
        put_aliases(tree)
        yield tree, [("exec", 0)]
    for source in PROMPTS:
        yield interactive(source), [("single", 0), ("block", 0)]
    for source in EXPRESSIONS:
        yield tree_of(source, "eval"), [("eval", 0)]


def cases():
    yield from worked_cases()
    rng = random.Random(7)
    for tree, ways in trees():
        yield from tree_cases(rng, tree, ways)


def main():
    parser = argparse.ArgumentParser(prog="step_trees.py", description=__doc__, formatter_class=argparse.RawDescriptionHelpFormatter)
    parser.parse_args()
    asked, wanted, runs = [], [], 0
    for line, lines in cases():
        asked.append(line)
        if lines is not None:
            runs += 1
            wanted += [line, *lines, ""]
    for name, text in ("stdin", asked), ("stdout", wanted):
        with open(CRATE / name, "w", encoding="utf-8", newline="\n") as file:
            file.write("\n".join(text) + "\n")
    print(f"step_tree_vectors: {runs} runs")


if __name__ == "__main__":
    main()
