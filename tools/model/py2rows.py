#!/usr/bin/env python3
"""py2rows: Python source to the rows that pyc reads, by CPython's own parser.

usage: py2rows.py [--mode exec|eval|single] [FILE]      (standard input without FILE)
exits 3 with a line on standard error where the source holds what the rows format has no word for
(float and complex constants, integers past 128 bits, surrogates, match patterns are dropped).
"""
import ast, json, sys
from tree import Node, rows_of

OPS = {ast.Add: "Add", ast.Sub: "Sub", ast.Mult: "Mult", ast.MatMult: "MatMult", ast.Div: "Div",
       ast.FloorDiv: "FloorDiv", ast.Mod: "Mod", ast.Pow: "Pow", ast.LShift: "LShift", ast.RShift: "RShift",
       ast.BitOr: "BitOr", ast.BitXor: "BitXor", ast.BitAnd: "BitAnd"}
CONV = {-1: "None", ord("s"): "Str", ord("a"): "Ascii", ord("r"): "Repr"}


class NotCarried(Exception):
    pass


class Converter:
    def __init__(self, source: str):
        self.lines = source.split("\n")

    def loc(self, n):
        # CPython counts columns in UTF-8 bytes; the rows count characters from 1
        line = self.lines[n.lineno - 1] if n.lineno - 1 < len(self.lines) else ""
        col = len(line.encode("utf-8")[: n.col_offset].decode("utf-8", "replace"))
        return (n.lineno, col + 1)

    def node(self, kind, n, **f):
        return Node(kind, self.loc(n) if n is not None else None, f)

    def constant(self, v):
        if v is None:
            return Node("none", None, {"v": None})
        if v is True:
            return Node("true", None, {"v": None})
        if v is False:
            return Node("false", None, {"v": None})
        if v is Ellipsis:
            return Node("ellipsis", None, {"v": None})
        if isinstance(v, int):
            if not -2**127 <= v < 2**127:
                raise NotCarried("integer past 128 bits")
            return Node("int", None, {"v": v})
        if isinstance(v, str):
            if any(0xD800 <= ord(c) < 0xE000 for c in v):
                raise NotCarried("surrogate")
            return Node("str", None, {"v": v})
        if isinstance(v, bytes):
            return Node("bytes", None, {"v": v})
        raise NotCarried(type(v).__name__ + " constant")

    def es(self, xs):
        return [None if x is None else self.expr(x) for x in xs]

    def opt(self, x):
        return None if x is None else self.expr(x)

    def body(self, xs):
        return [self.stmt(x) for x in xs]

    def arg(self, a):
        return self.node("Arg", a, arg=a.arg, annotation=self.opt(a.annotation))

    def arguments(self, a: ast.arguments):
        pos = a.posonlyargs + a.args
        defaults = [None] * (len(pos) - len(a.defaults)) + list(a.defaults)

        def d(x, default):
            return Node("ArgWithDefault", None, {"def": self.arg(x), "default": self.opt(default)})
        with_d = [d(x, y) for x, y in zip(pos, defaults)]
        return Node("Arguments", None, {
            "posonlyargs": with_d[: len(a.posonlyargs)], "args": with_d[len(a.posonlyargs):],
            "vararg": None if a.vararg is None else self.arg(a.vararg),
            "kwonlyargs": [d(x, y) for x, y in zip(a.kwonlyargs, a.kw_defaults)],
            "kwarg": None if a.kwarg is None else self.arg(a.kwarg)})

    def keywords(self, ks):
        return [Node("Keyword", None, {"arg": k.arg, "value": self.expr(k.value)}) for k in ks]

    def aliases(self, ns):
        return [Node("Alias", None, {"name": a.name, "asname": a.asname}) for a in ns]

    def generators(self, gs):
        return [Node("Comprehension", None, {"target": self.expr(g.target), "iter": self.expr(g.iter),
                     "ifs": self.es(g.ifs), "is_async": bool(g.is_async)}) for g in gs]

    def type_params(self, n):
        out = []
        for t in getattr(n, "type_params", []) or []:
            if type(t).__name__ == "TypeVar":
                out.append(self.node("TypeVar", t, name=t.name, bound=self.opt(t.bound)))
            else:
                out.append(self.node(type(t).__name__, t, name=t.name))
        return out

    def expr(self, n):
        k = type(n).__name__
        N = self.node
        if k == "BoolOp":
            return N(k, n, op=type(n.op).__name__, values=self.es(n.values))
        if k == "NamedExpr":
            return N(k, n, target=self.expr(n.target), value=self.expr(n.value))
        if k == "BinOp":
            return N(k, n, left=self.expr(n.left), op=OPS[type(n.op)], right=self.expr(n.right))
        if k == "UnaryOp":
            return N(k, n, op=type(n.op).__name__, operand=self.expr(n.operand))
        if k == "Lambda":
            return N(k, n, args=self.arguments(n.args), body=self.expr(n.body))
        if k == "IfExp":
            return N(k, n, test=self.expr(n.test), body=self.expr(n.body), orelse=self.expr(n.orelse))
        if k == "Dict":
            return N(k, n, keys=self.es(n.keys), values=self.es(n.values))
        if k in ("Set", "List", "Tuple"):
            return N(k, n, elts=self.es(n.elts))
        if k in ("ListComp", "SetComp", "GeneratorExp"):
            return N(k, n, elt=self.expr(n.elt), generators=self.generators(n.generators))
        if k == "DictComp":
            return N(k, n, key=self.expr(n.key), value=self.expr(n.value), generators=self.generators(n.generators))
        if k in ("Await", "YieldFrom", "Starred"):
            return N(k, n, value=self.expr(n.value))
        if k == "Yield":
            return N(k, n, value=self.opt(n.value))
        if k == "Compare":
            return N(k, n, left=self.expr(n.left), ops=[type(o).__name__ for o in n.ops], comparators=self.es(n.comparators))
        if k == "Call":
            return N(k, n, func=self.expr(n.func), args=self.es(n.args), keywords=self.keywords(n.keywords))
        if k == "FormattedValue":
            return N(k, n, value=self.expr(n.value), conversion=CONV[n.conversion], format_spec=self.opt(n.format_spec))
        if k == "JoinedStr":
            return N(k, n, values=self.es(n.values))
        if k == "Constant":
            return N(k, n, value=self.constant(n.value))
        if k == "Attribute":
            return N(k, n, value=self.expr(n.value), attr=n.attr)
        if k == "Subscript":
            return N(k, n, value=self.expr(n.value), slice=self.expr(n.slice))
        if k == "Name":
            return N(k, n, id=n.id)
        if k == "Slice":
            return N(k, n, lower=self.opt(n.lower), upper=self.opt(n.upper), step=self.opt(n.step))
        raise NotCarried(k)

    def stmt(self, n):
        k = type(n).__name__
        N = self.node
        if k in ("FunctionDef", "AsyncFunctionDef"):
            return N(k, n, name=n.name, args=self.arguments(n.args), body=self.body(n.body), decorator_list=self.es(n.decorator_list),
                     returns=self.opt(n.returns), type_params=self.type_params(n))
        if k == "ClassDef":
            return N(k, n, name=n.name, bases=self.es(n.bases), keywords=self.keywords(n.keywords), body=self.body(n.body),
                     decorator_list=self.es(n.decorator_list), type_params=self.type_params(n))
        if k == "Return":
            return N(k, n, value=self.opt(n.value))
        if k == "Delete":
            return N(k, n, targets=self.es(n.targets))
        if k == "Assign":
            return N(k, n, targets=self.es(n.targets), value=self.expr(n.value))
        if k == "TypeAlias":
            return N(k, n, name=self.expr(n.name), type_params=self.type_params(n), value=self.expr(n.value))
        if k == "AugAssign":
            return N(k, n, target=self.expr(n.target), op=OPS[type(n.op)], value=self.expr(n.value))
        if k == "AnnAssign":
            return N(k, n, target=self.expr(n.target), annotation=self.expr(n.annotation), value=self.opt(n.value), simple=bool(n.simple))
        if k in ("For", "AsyncFor"):
            return N(k, n, target=self.expr(n.target), iter=self.expr(n.iter), body=self.body(n.body), orelse=self.body(n.orelse))
        if k in ("While", "If"):
            return N(k, n, test=self.expr(n.test), body=self.body(n.body), orelse=self.body(n.orelse))
        if k in ("With", "AsyncWith"):
            items = [Node("WithItem", None, {"context_expr": self.expr(i.context_expr), "optional_vars": self.opt(i.optional_vars)}) for i in n.items]
            return N(k, n, items=items, body=self.body(n.body))
        if k == "Match":
            return N(k, n, subject=self.expr(n.subject), cases=[Node("MatchCase", None, {"body": self.body(c.body)}) for c in n.cases])
        if k == "Raise":
            return N(k, n, exc=self.opt(n.exc), cause=self.opt(n.cause))
        if k in ("Try", "TryStar"):
            hs = [Node("ExceptHandler", None, {"type_": self.opt(h.type), "name": h.name, "body": self.body(h.body)}) for h in n.handlers]
            return N(k, n, body=self.body(n.body), handlers=hs, orelse=self.body(n.orelse), finalbody=self.body(n.finalbody))
        if k == "Assert":
            return N(k, n, test=self.expr(n.test), msg=self.opt(n.msg))
        if k == "Import":
            return N(k, n, names=self.aliases(n.names))
        if k == "ImportFrom":
            return N(k, n, module=n.module, names=self.aliases(n.names), level=n.level or 0)
        if k in ("Global", "Nonlocal"):
            return N(k, n, names=list(n.names))
        if k == "Expr":
            return N(k, n, value=self.expr(n.value))
        if k in ("Pass", "Break", "Continue"):
            return N(k, n)
        raise NotCarried(k)

    def mod(self, m):
        if isinstance(m, ast.Module):
            return Node("Module", None, {"body": self.body(m.body)})
        if isinstance(m, ast.Interactive):
            return Node("Interactive", None, {"body": self.body(m.body)})
        if isinstance(m, ast.Expression):
            return Node("Expression", None, {"body": self.expr(m.body)})
        raise NotCarried(type(m).__name__)


def tree_of(source: str, mode: str = "exec") -> Node:
    return Converter(source).mod(ast.parse(source, mode=mode))


def rows_text(source: str, mode: str = "exec") -> str:
    return json.dumps(rows_of(tree_of(source, mode)), separators=(",", ":"), ensure_ascii=False)


if __name__ == "__main__":
    args = sys.argv[1:]
    if args in (["-h"], ["--help"]):
        print(__doc__.strip())
        sys.exit(0)
    mode = "exec"
    if args[:1] == ["--mode"]:
        mode = args[1]
        args = args[2:]
    src = open(args[0], encoding="utf-8").read() if args else sys.stdin.read()
    try:
        print(rows_text(src, mode))
    except NotCarried as e:
        print(f"py2rows: not carried: {e}", file=sys.stderr)
        sys.exit(3)
