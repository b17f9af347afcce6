#!/usr/bin/env python3
"""A report on the names of a tree: which are unused, unbound, shadowed or captured.

usage: names.py      the rows on standard input, a line for each finding on standard output
"""
import sys
from rows_reader import RowsError, read_rows
from scopes import Resolver, build, scan
from shapes import valid


def preorder(s):
    yield s
    for c in s.children:
        yield from preorder(c)


def report(mod, python_order=True):
    sc = scan(mod, python_order)
    root = build(sc)
    r = Resolver(sc)
    out = []
    scopes = list(preorder(root))

    def kind(s, n):
        return r.resolve(s, n)[0]
    for s in scopes:
        for n in s.symbols:
            k, binder = r.resolve(s, n)
            roles = r.uses(s, n)
            param = any(x in ("Parameter", "AnnotatedParameter") for x in roles)
            if s.typ == "Function" and r.bound(s, n) and not param and k == "Local" and "Used" not in roles:
                out.append(("unused", s, n, None))
            stored = any(r.bound(t, n) and kind(t, n) in ("GlobalImplicit", "GlobalExplicit") for t in scopes if r.uses(t, n))
            if "Used" in roles and k in ("Unknown", "GlobalImplicit", "GlobalExplicit") and not r.bound(root, n) and not stored:
                out.append(("unbound", s, n, None))
            if k in ("Local", "Cell"):
                e = s.parent
                while e is not None and (e.typ == "Class" or not r.bound(e, n)):
                    e = e.parent
                if e is not None:
                    out.append(("shadowed", s, n, e))
            if k == "Free":
                out.append(("captured", s, n, binder))
            elif s.typ == "Class" and s.symbols[n].flags & 0x100:
                out.append(("captured", s, n, r.look(s, n)[1]))
    return [f"{k} {s.path()} {n}" + ("" if o is None else (" over " if k == "shadowed" else " from ") + o.path()) for k, s, n, o in out]


if __name__ == "__main__":
    if sys.argv[1:] in (["-h"], ["--help"]):
        print(__doc__.strip())
        sys.exit(0)
    t = read_rows(sys.stdin.buffer.read())
    if isinstance(t, RowsError):
        print("input: " + t.text(), file=sys.stderr)
        sys.exit(3)
    print("\n".join(report(t)))
