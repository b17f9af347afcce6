#!/usr/bin/env python3
"""The model of the program.

usage: compile_rows.py MODE LEVEL PATH      the rows on standard input, the listing on standard output
       compile_rows.py sample N LEVEL       what a made tree of N statements compiles to, in numbers
"""
import sys
from code_objects import Code
from emit import compile_top
from listing import listing
from rows_reader import RowsError, read_rows
from scopes import Fault
from tree import Node


def sample(n):
    """A made tree of n statements, of four kinds in turn."""
    body = []
    for i in range(n):
        loc = (i + 1, 1)

        def N(k, **f):
            return Node(k, loc, f)

        def U(k, **f):
            return Node(k, None, f)

        def name(x):
            return N("Name", id=x)
        m = i % 4
        if m == 0:
            s = N("Assign", targets=[name("v")], value=N("Constant", value=U("int", v=i)))
        elif m == 1:
            s = N("If", test=name("v"), body=[N("Expr", value=N("Call", func=name("f"), args=[name("v")], keywords=[]))], orelse=[])
        elif m == 2:
            no = dict(posonlyargs=[], vararg=None, kwonlyargs=[], kwarg=None)
            arg = U("ArgWithDefault", default=None, **{"def": N("Arg", arg="a", annotation=None)})
            lam = N("Lambda", args=U("Arguments", args=[], **no), body=N("BinOp", left=name("a"), op="Add", right=name("v")))
            s = N("FunctionDef", name="g", args=U("Arguments", args=[arg], **no), body=[N("Return", value=lam)], decorator_list=[], returns=None, type_params=[])
        else:
            s = N("While", test=name("v"), body=[N("Break")], orelse=[])
        body.append(s)
    return Node("Module", None, {"body": body})


def all_codes(c):
    return [c] + [x for k in c.children() for x in all_codes(k)]


def summary(n, code):
    cs = all_codes(code)
    return (f"statements {n}\ncodes {len(cs)}\nunits {sum(len(c.instructions) for c in cs)}\n"
            f"constants {len(code.constants)}\ndepth {max(c.max_stackdepth for c in cs)}\n")


def run(words, data: bytes, python_order=True):
    """(status, out, err, Code or None)."""
    if len(words) == 3 and words[0] == "sample":
        n, level = words[1], words[2]
        if n and all(c in "0123456789" for c in n) and int(n.lstrip("0")[:7] or "0") < 2**17 and level in ("0", "1", "2"):
            n = int(n)
            code = compile_top(sample(n), "sample", "exec", int(level), python_order)
            return 0, summary(n, code), "", code
        return 2, "", "usage: pyc MODE LEVEL PATH\n", None
    if len(words) != 3 or words[0] not in ("exec", "eval", "single", "block") or words[1] not in ("0", "1", "2"):
        return 2, "", "usage: pyc MODE LEVEL PATH\n", None
    if len(data) >= 2**26:
        return 3, "", "input: too long\n", None
    tree = read_rows(data)
    if isinstance(tree, RowsError):
        return 3, "", "input: " + tree.text() + "\n", None
    try:
        code = compile_top(tree, words[2], words[0], int(words[1]), python_order)
    except Fault as f:
        at = "-:-" if f.loc is None else "%d:%d" % f.loc
        return 1, "", f"{at} {f.text}\n", None
    return 0, listing(code), "", code


if __name__ == "__main__":
    words = sys.argv[1:]
    if words in (["-h"], ["--help"]):
        print(__doc__.strip())
        sys.exit(0)
    needs_input = not (len(words) == 3 and words[0] == "sample")
    status, out, err, _ = run(words, sys.stdin.buffer.read(2**26) if needs_input else b"")
    sys.stdout.buffer.write(out.encode())
    sys.stderr.write(err)
    sys.exit(status)
