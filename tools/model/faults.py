"""The faults of a tree that compilation finds, in its order, by a table of the parts of each node; no code is emitted."""
from scopes import COMPREHENSIONS
from shapes import parameters, python_name, walk
from emit import FUTURES, contains_await, split_doc

T = {"NotYet": "RustPython does not implement this feature yet", "Star": "cannot use starred expression here",
     "ElementStar": "iterable unpacking cannot be used in comprehension", "Debug": "cannot assign to __debug__", "DebugDel": "cannot delete __debug__"}
ASYNC = ("AsyncFunctionDef", "AsyncFor", "AsyncWith", "TryStar")


class Lister:
    def __init__(self, level, python_order):
        self.level, self.e, self.out = level, python_order, []
        self.loc, self.scope, self.loop, self.element = (1, 1), "Module", False, 0
        self.over, self.postponed = False, False

    def fault(self, text, loc=None):
        self.out.append((text, loc or self.loc))

    def run(self, parts):
        for p in parts:
            getattr(self, "p_" + p[0])(*p[1:])
    # ---- kinds of parts
    def p_fault(self, text, loc=None):
        self.fault(text, loc)

    def p_at(self, loc):
        self.loc = loc

    def p_expr(self, n):
        if n is not None:
            self.loc = n.loc
            self.run(self.expr(n))

    def p_exprs(self, ns):
        for n in ns:
            self.p_expr(n)

    def p_stmts(self, ns):
        for n in ns:
            self.p_stmt(n)

    def p_stmt(self, n):
        self.loc = n.loc
        future = n.kind == "ImportFrom" and n.module == "__future__"
        if not future:
            self.over = True
        elif self.over:
            self.fault("from __future__ imports must occur at the beginning of the file")
        if future:
            for a in n.names:
                f = a.f["name"]
                if f == "annotations":
                    self.postponed = True
                elif f not in FUTURES:
                    self.fault(f"future feature {f} is not defined")
        self.run(self.stmt(n))

    def p_loop(self, ns):
        old, self.loop = self.loop, True
        self.p_stmts(ns)
        self.loop = old

    def p_scope(self, typ, parts):
        old = self.scope, self.loop
        self.scope, self.loop = typ, False
        self.run(parts)
        self.scope, self.loop = old

    def p_element(self, n):
        self.element += 1
        self.p_expr(n)
        self.element -= 1

    def p_name(self, x):
        if x == "__debug__":
            self.fault(T["Debug"])

    def p_annotation(self, x):
        if x is None:
            return
        if not self.postponed:
            self.p_expr(x)
        elif any(y.kind in ("JoinedStr", "FormattedValue") for y in walk(x)):
            self.fault(T["NotYet"])

    def p_test(self, n):
        if n.kind == "BoolOp":
            for v in n.f["values"]:
                self.p_test(v)
        elif n.kind == "UnaryOp" and n.op == "Not":
            self.p_test(n.operand)
        else:
            self.p_expr(n)

    def p_gather(self, ns):
        for n in ns:
            self.p_expr(n.value if n.kind == "Starred" else n)

    def p_arguments(self, args, keywords):
        self.p_gather(args)
        for w in keywords:
            self.p_name(w.arg)
        for w in keywords:
            self.p_expr(w.value)

    def p_store(self, t):
        k = t.kind
        if k == "Name":
            self.p_name(t.id)
        elif k == "Attribute":
            self.p_name(t.attr)
            self.p_expr(t.value)
        elif k == "Subscript":
            self.p_exprs([t.value, t.slice])
        elif k in ("List", "Tuple"):
            stars = [i for i, x in enumerate(t.elts) if x.kind == "Starred"]
            for j, i in enumerate(stars):
                if j:
                    self.fault("two starred expressions in assignment")
                    break
                if max(i, len(t.elts) - i - 1) > 255:
                    self.fault("too many expressions in star-unpacking assignment", t.loc)
                    break
            for x in t.elts:
                self.p_store(x.value if x.kind == "Starred" else x)
        elif k == "Starred":
            self.fault("starred assignment target must be in a list or tuple")
        else:
            self.fault("cannot assign to " + python_name(t))

    def p_del(self, t):
        k = t.kind
        if k == "Name":
            if t.id == "__debug__":
                self.fault(T["DebugDel"])
        elif k == "Attribute":
            if t.attr == "__debug__":
                self.fault(T["DebugDel"])
            self.p_expr(t.value)
        elif k == "Subscript":
            self.p_exprs([t.value, t.slice])
        elif k in ("List", "Tuple"):
            for x in t.elts:
                self.p_del(x)
        else:
            self.fault("cannot delete " + ("expression" if k in ("BinOp", "UnaryOp") else python_name(t)))
    # ---- the parts of each node, in order
    def func(self):
        return self.scope == "Function"

    def defaults(self, a):
        return [("exprs", [d.default for d in a.posonlyargs + a.args + a.kwonlyargs])]

    def body_of(self, a, parts):
        return ("scope", "Function", [("name", p.arg) for p in parameters(a)] + parts)

    def params(self, n):
        return [q for t in n.type_params for q in (("expr", t.bound), ("name", t.f["name"]))]

    def stmt(self, n):
        k = n.kind
        if k in ASYNC:
            return [("fault", T["NotYet"])]
        if k == "Expr":
            return [("expr", n.value)]
        if k == "Assign":
            return [("expr", n.value)] + [("store", t) for t in n.targets]
        if k == "AugAssign":
            t = n.target
            if t.kind == "Name":
                return [("expr", n.value), ("name", t.id)]
            if t.kind == "Subscript":
                return [("exprs", [t.value, t.slice, n.value])]
            if t.kind == "Attribute":
                return [("name", t.attr), ("exprs", [t.value, n.value])]
            return [("fault", "cannot assign to " + python_name(t))]
        if k == "AnnAssign":
            return ([("expr", n.value), ("store", n.target)] if n.value is not None else []) + ([] if self.func() else [("annotation", n.annotation)])
        if k == "Delete":
            return [("del", t) for t in n.targets]
        if k == "If":
            return [("test", n.test), ("stmts", n.body), ("stmts", n.orelse)]
        if k == "While":
            return [("test", n.test), ("loop", n.body), ("stmts", n.orelse)]
        if k == "For":
            return [("expr", n.iter), ("store", n.target), ("loop", n.body), ("stmts", n.orelse)]
        if k in ("Break", "Continue"):
            return [] if self.loop else [("fault", f"'{k.lower()}' outside loop")]
        if k == "Try":
            hs = [q for h in n.handlers for q in (("expr", h.type_), ("name", h.f["name"]), ("stmts", h.body))]
            return [("stmts", n.body)] + hs + [("stmts", n.orelse), ("stmts", n.finalbody)]
        if k == "With":
            if not n.items:
                return [("fault", "empty items on With")]
            out = []
            for i in n.items:
                out += [("expr", i.context_expr), ("at", n.loc)]
                if i.optional_vars is not None:
                    out += [("at", i.optional_vars.loc), ("store", i.optional_vars)]
                if i is not n.items[-1]:
                    out.append(("at", n.loc))
            return out + ([("stmts", n.body)] if n.body else [("fault", "empty body on With")]) + [("at", n.loc)]
        if k == "Raise":
            return [("exprs", [n.exc, n.cause])]
        if k == "Return":
            return ([] if self.func() else [("fault", "'return' outside function")]) + [("expr", n.value)]
        if k == "Assert":
            return [("test", n.test), ("expr", n.msg)] if self.level == 0 else []
        if k == "Import":
            return [("name", a.asname if a.asname is not None else a.f["name"].split(".")[0]) for a in n.names]
        if k == "ImportFrom":
            if any(a.f["name"] == "*" for a in n.names):
                return [("fault", "import * only allowed at module level")] if self.func() else []
            return [("name", a.asname if a.asname is not None else a.f["name"]) for a in n.names]
        if k == "TypeAlias":
            if n.f["name"].kind != "Name":
                return [("fault", "cannot assign to " + python_name(n.f["name"]))]
            inner = self.params(n) + [("expr", n.value)]
            return ([("scope", "Function", inner)] if n.type_params else inner) + [("name", n.f["name"].id)]
        if k == "FunctionDef":
            rest = split_doc(n.body, self.level)[1]
            notes = [("annotation", n.returns)] + [("annotation", p.annotation) for p in parameters(n.args)]
            inner = [self.body_of(n.args, [("stmts", rest)])] + notes
            if n.type_params:
                inner = [("scope", "Function", self.params(n) + inner)] + self.defaults(n.args)
            else:
                inner = self.defaults(n.args) + inner
            return [("exprs", n.decorator_list)] + inner + [("name", n.f["name"])]
        if k == "ClassDef":
            inner = self.params(n) + [("scope", "Class", [("stmts", split_doc(n.body, self.level)[1])]), ("arguments", n.bases, n.keywords)]
            return [("exprs", n.decorator_list)] + ([("scope", "Function", inner)] if n.type_params else inner) + [("name", n.f["name"])]
        return []

    def expr(self, n):
        k = n.kind
        if k in ("List", "Tuple", "Set"):
            return [("gather", n.elts)]
        if k == "Starred":
            return [("fault", T["ElementStar"] if self.element else T["Star"]), ("expr", n.value)]
        if k == "Await":
            return [("fault", "'await' outside async function"), ("expr", n.value)]
        if k in ("Yield", "YieldFrom"):
            word = "yield" if k == "Yield" else "yield from"
            return ([] if self.func() else [("fault", f"'{word}' outside function")]) + [("expr", n.value)]
        if k == "NamedExpr":
            return [("expr", n.value), ("store", n.target)]
        if k == "Lambda":
            return self.defaults(n.args) + [self.body_of(n.args, [("expr", n.body)])]
        if k in COMPREHENSIONS:
            bad = any(g.is_async for g in n.generators) or (k == "GeneratorExp" and contains_await(n.elt))
            inner = []
            for i, g in enumerate(n.generators):
                inner += ([("expr", g.iter)] if i else []) + [("store", g.target)] + [("test", c) for c in g.ifs]
            inner += [("exprs", [n.key, n.value])] if k == "DictComp" else [("element", n.elt)]
            return ([("fault", T["NotYet"])] if bad else []) + [("scope", "Function", inner), ("expr", n.generators[0].iter)]
        if k == "Call":
            return [("expr", n.func.value if n.func.kind == "Attribute" else n.func), ("arguments", n.args, n.keywords)]
        if k == "Dict":
            pairs = list(zip(n.f["keys"], n.f["values"]))
            if not self.e:
                pairs = [p for p in pairs if p[0] is not None] + [p for p in pairs if p[0] is None]
            return [("exprs", [q, v]) for q, v in pairs]
        if k == "FormattedValue":
            return [("exprs", [n.value, n.format_spec] if self.e else [n.format_spec, n.value])]
        if k == "IfExp":
            return [("test", n.test), ("expr", n.body), ("expr", n.orelse)]
        if k == "Compare":
            return [("exprs", [n.left] + n.comparators)]
        if k in ("BoolOp", "JoinedStr"):
            return [("exprs", n.f["values"])]
        return [("exprs", [n.f[x] for x in ("left", "right", "operand", "lower", "upper", "step") if x in n.f])] if k != "Subscript" and k != "Attribute" else [("exprs", [n.value] + ([n.slice] if k == "Subscript" else []))]


def compile_faults(mod, mode="exec", level=0, python_order=True):
    f = Lister(level, python_order)
    if mod.kind == "Module":
        f.p_stmts(split_doc(mod.body, level)[1])
    elif mod.kind == "Expression":
        f.p_expr(mod.body)
    elif mode == "single":
        for s in mod.body:
            if s.kind == "Expr":
                f.p_expr(s.value)
            else:
                f.p_stmt(s)
    else:
        f.p_stmts(mod.body)
    return f.out
