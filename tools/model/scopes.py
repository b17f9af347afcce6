"""Symbol tables: the scan of a tree, the names that a walrus lifts, resolution by passes; and resolution straight from the uses.

scan(mod, python_order) -> Scan: root scope, the list of uses (scope, name, role, location), the first fault.
build(scan) registers the uses, lifts and resolves by marking tables; raises Fault.
Resolver(scan) resolves a name straight from the list of uses; it reads no table.
"""
from dataclasses import dataclass, field
from typing import Any, Optional
from shapes import mangle, parameters, COMPREHENSIONS

REFERENCED, ASSIGNED, PARAMETER, ANNOTATED, IMPORTED, NONLOCAL = 0x001, 0x002, 0x004, 0x008, 0x010, 0x020
ASSIGNED_IN_COMPREHENSION, ITER, FREE_CLASS = 0x040, 0x080, 0x100
BOUND = ASSIGNED | PARAMETER | IMPORTED | ITER
ROLE_FLAGS = {"Used": REFERENCED, "Assigned": ASSIGNED, "Imported": ASSIGNED | IMPORTED, "Parameter": PARAMETER,
              "AnnotatedParameter": PARAMETER | ANNOTATED, "AnnotationAssigned": ASSIGNED | ANNOTATED,
              "Walrus": ASSIGNED | ASSIGNED_IN_COMPREHENSION, "Iter": ITER, "Global": 0, "Nonlocal": NONLOCAL}
ITER_TEXT = "assignment expression cannot be used in a comprehension iterable expression"


class Fault(Exception):
    """A located error: variant of CodegenErrorType, its text, and its location or None."""

    def __init__(self, variant, text, loc):
        super().__init__(variant, text, loc)
        self.variant, self.text, self.loc = variant, text, loc


@dataclass
class Symbol:
    name: str
    scope: str = "Unknown"
    flags: int = 0
    declared: Optional[str] = None  # the last declaration, Global or Nonlocal
    lifted: bool = False  # a walrus in a comprehension stores it
    passed: bool = False  # added on the way of a look outward

    def bound(self):
        return self.flags & BOUND != 0


@dataclass(eq=False)
class Scope:
    typ: str
    name: str
    line: int
    parent: Optional["Scope"]
    node: Any
    class_name: Optional[str]
    nested: bool = False
    children: list = field(default_factory=list)
    symbols: dict = field(default_factory=dict)

    def path(self):
        return (self.parent.path() + "/" if self.parent else "") + self.name


@dataclass
class Scan:
    root: Scope
    uses: list
    fault: Optional[Fault] = None


class Scanner:
    def __init__(self, python_order):
        self.python_order = python_order
        self.top = self.root = Scope("Module", "top", 0, None, None, None)
        self.uses, self.postponed, self.class_name = [], False, None
        self.roles = {}  # (id(scope), name) -> [flags, last declaration, ITER and so on]

    def enter(self, typ, name, node, line):
        p = self.top
        s = Scope(typ, name, line, p, node, self.class_name, p.nested or p.typ == "Function")
        p.children.append(s)
        self.top = s
        return s

    def leave(self):
        self.top = self.top.parent
    # ---- registration, with what it refuses
    def register(self, name, role, loc):
        name, s = mangle(self.class_name, name), self.top
        key = (id(s), name)
        there = self.roles.get(key)
        if there is None:
            if role == "Nonlocal" and s.typ == "Module":
                raise Fault("SyntaxError", f"cannot define nonlocal '{name}' at top level.", loc)
            there = self.roles[key] = [0, None]
        elif role == "Nonlocal" or (role == "Global" and there[1] != "Global"):
            word = role.lower()
            for bit, text in ((PARAMETER, f"name '{name}' is parameter and {word}"), (REFERENCED, f"name '{name}' is used prior to {word} declaration"),
                              (ANNOTATED, f"annotated name '{name}' can't be {word}"), (ASSIGNED, f"name '{name}' is assigned to before {word} declaration")):
                if there[0] & bit:
                    raise Fault("SyntaxError", text, loc)
        there[0] |= ROLE_FLAGS[role]
        if role in ("Global", "Nonlocal"):
            there[1] = role
        self.uses.append((s, name, role, loc))
        if there[0] & ITER and there[0] & ASSIGNED:
            raise Fault("SyntaxError", ITER_TEXT, loc)
    # ---- statements
    def body(self, xs):
        for x in xs:
            self.stmt(x)

    def annotation(self, x):
        if not self.postponed and x is not None:
            self.expr(x, "Load")

    def stmt(self, n):
        k, loc = n.kind, n.loc
        if k == "ImportFrom" and n.module == "__future__" and any(a.f["name"] == "annotations" for a in n.names):
            self.postponed = True
        if k in ("FunctionDef", "AsyncFunctionDef", "ClassDef", "TypeAlias") and n.type_params:
            self.refuse_params(n.type_params)
        if k in ("FunctionDef", "AsyncFunctionDef"):
            self.function_def(n)
        elif k == "ClassDef":
            self.class_def(n)
        elif k == "TypeAlias":
            if n.type_params:
                self.hidden(n, n.f["name"].id if n.f["name"].kind == "Name" else "?")
                self.expr(n.value, "Load")
                self.leave()
            else:
                self.expr(n.value, "Load")
            self.expr(n.f["name"], "Store")
        elif k in ("Global", "Nonlocal"):
            for x in n.names:
                self.register(x, k, loc)
        elif k == "Expr":
            self.expr(n.value, "Load")
        elif k == "Return":
            if n.value is not None:
                self.expr(n.value, "Load")
        elif k == "Delete":
            for t in n.targets:
                self.expr(t, "Delete")
        elif k == "Assign":
            self.expr(n.value, "Load")
            for t in n.targets:
                self.expr(t, "Store")
        elif k == "AugAssign":
            self.expr(n.target, "Store")
            self.expr(n.value, "Load")
        elif k == "AnnAssign":
            if n.value is not None:
                self.expr(n.value, "Load")
            if n.simple and n.target.kind == "Name":
                self.register(n.target.id, "AnnotationAssigned", loc)
            else:
                self.expr(n.target, "Store")
            self.annotation(n.annotation)
        elif k in ("For", "AsyncFor"):
            self.expr(n.iter, "Load")
            self.expr(n.target, "Store")
            self.body(n.body)
            self.body(n.orelse)
        elif k in ("While", "If"):
            self.expr(n.test, "Load")
            self.body(n.body)
            self.body(n.orelse)
        elif k in ("With", "AsyncWith"):
            for i in n.items:
                self.expr(i.context_expr, "Load")
                if i.optional_vars is not None:
                    self.expr(i.optional_vars, "Store")
            self.body(n.body)
        elif k == "Match":
            raise Fault("SyntaxError", "match expression is not implemented yet", n.subject.loc)
        elif k == "Raise":
            for x in (n.exc, n.cause):
                if x is not None:
                    self.expr(x, "Load")
        elif k in ("Try", "TryStar"):
            self.body(n.body)
            for h in n.handlers:
                if h.type_ is not None:
                    self.expr(h.type_, "Load")
                if h.name is not None:
                    self.register(h.name, "Assigned", loc)
                self.body(h.body)
            self.body(n.orelse)
            self.body(n.finalbody)
        elif k == "Assert":
            self.expr(n.test, "Load")
            if n.msg is not None:
                self.expr(n.msg, "Load")
        elif k in ("Import", "ImportFrom"):
            for a in n.names:
                self.register(a.asname if a.asname is not None else a.f["name"].split(".")[0], "Imported", loc)
        else:
            assert k in ("Pass", "Break", "Continue"), k

    def refuse_params(self, ps):
        for t in ps:
            if not self.python_order or t.kind != "TypeVar":
                raise Fault("SyntaxError", "type parameters are not supported yet", t.loc)

    def hidden(self, n, name, args=None):
        """Enters the scope of type parameters and registers them."""
        s = self.enter("TypeParams", f"<generic parameters of {name}>", n, n.loc[0])
        if args is not None:
            if any(d.default is not None for d in args.posonlyargs + args.args):
                self.register(".defaults", "Parameter", n.loc)
            if any(d.default is not None for d in args.kwonlyargs):
                self.register(".kwdefaults", "Parameter", n.loc)
        self.type_params(n.type_params)
        return s

    def type_params(self, ps):
        seen = set()
        for t in ps:
            if t.bound is not None:
                self.expr(t.bound, "Load")
            name = mangle(self.class_name, t.f["name"])
            if name in seen:
                raise Fault("SyntaxError", f"duplicate type parameter '{name}'", t.loc)
            seen.add(name)
            self.register(t.f["name"], "Assigned", t.loc)

    def defaults(self, a):
        for d in a.posonlyargs + a.args + a.kwonlyargs:
            if d.default is not None:
                self.expr(d.default, "Load")

    def parameters(self, a):
        for p in parameters(a):
            self.register(p.arg, "Parameter" if p.annotation is None else "AnnotatedParameter", p.loc)

    def function_def(self, n):
        for d in n.decorator_list:
            self.expr(d, "Load")
        if n.type_params:
            self.hidden(n, n.f["name"], n.args)
        else:
            self.defaults(n.args)
        self.enter("Function", n.f["name"], n, n.loc[0])
        self.parameters(n.args)
        self.body(n.body)
        self.leave()
        self.annotation(n.returns)
        for p in parameters(n.args):
            self.annotation(p.annotation)
        if n.type_params:
            self.leave()
            self.defaults(n.args)
        self.register(n.f["name"], "Assigned", n.loc)

    def class_def(self, n):
        for d in n.decorator_list:
            self.expr(d, "Load")
        if n.type_params:
            self.hidden(n, n.f["name"])
        outer, name = self.class_name, n.f["name"]
        self.class_name = name
        self.enter("Class", name, n, n.loc[0])
        for x in ("__module__", "__qualname__", "__doc__", "__class__"):
            self.register(x, "Assigned", n.loc)
        self.body(n.body)
        self.leave()
        self.class_name = outer
        for b in n.bases:
            self.expr(b, "Load")
        for w in n.keywords:
            self.expr(w.value, "Load")
        if n.type_params:
            self.leave()
        self.register(name, "Assigned", n.loc)
    # ---- expressions; ctx is Load, IterDef, Store, Delete, Iter or Walrus
    def expr(self, n, ctx):
        k = n.kind
        if k == "Name":
            self.name(n, ctx)
        elif k == "BinOp":
            self.expr(n.left, ctx)
            self.expr(n.right, ctx)
        elif k == "UnaryOp":
            self.expr(n.operand, ctx)
        elif k == "BoolOp":
            for v in n.f["values"]:
                self.expr(v, ctx)
        elif k == "Compare":
            for v in [n.left] + n.comparators:
                self.expr(v, ctx)
        elif k in ("List", "Tuple", "Set"):
            for v in n.elts:
                self.expr(v, ctx)
        elif k == "Dict":
            pairs = list(zip(n.f["keys"], n.f["values"]))
            if not self.python_order:
                pairs = [p for p in pairs if p[0] is not None] + [p for p in pairs if p[0] is None]
            for q, v in pairs:
                if q is not None:
                    self.expr(q, ctx)
                self.expr(v, ctx)
        elif k in ("Starred", "Await"):
            self.expr(n.value, ctx)
        elif k in ("Yield", "YieldFrom"):
            if self.top.typ == "TypeParams":
                raise Fault("SyntaxError", "yield expression cannot be used in type parameters", n.loc)
            if n.value is not None:
                self.expr(n.value, ctx)
        elif k == "Slice":
            for v in (n.lower, n.upper, n.step):
                if v is not None:
                    self.expr(v, ctx)
        elif k == "Subscript":
            self.expr(n.value, "Load")
            self.expr(n.slice, "Load")
        elif k == "Attribute":
            self.expr(n.value, "Load")
        elif k == "Call":
            self.expr(n.func, "IterDef" if ctx == "IterDef" else "Load")
            for a in n.args:
                self.expr(a, "Load")
            for w in n.keywords:
                self.expr(w.value, "Load")
        elif k == "IfExp":
            for v in (n.test, n.body, n.orelse):
                self.expr(v, "Load")
        elif k == "JoinedStr":
            for v in n.f["values"]:
                self.expr(v, "Load")
        elif k == "FormattedValue":
            parts = [n.value, n.format_spec] if self.python_order else [n.format_spec, n.value]
            for v in parts:
                if v is not None:
                    self.expr(v, "Load")
        elif k == "Lambda":
            self.defaults(n.args)
            self.enter("Function", "lambda", n, n.loc[0])
            self.parameters(n.args)
            self.expr(n.body, "IterDef" if ctx == "IterDef" else "Load")
            self.leave()
            for p in parameters(n.args):
                self.annotation(p.annotation)
        elif k in COMPREHENSIONS:
            self.comprehension(n)
        elif k == "NamedExpr":
            self.named(n, ctx)
        else:
            assert k == "Constant", k

    def name(self, n, ctx):
        if ctx == "Delete":
            self.register(n.id, "Assigned", n.loc)
            self.register(n.id, "Used", n.loc)
        elif ctx in ("Load", "IterDef"):
            self.register(n.id, "Used", n.loc)
        else:
            self.register(n.id, {"Store": "Assigned", "Iter": "Iter", "Walrus": "Walrus"}[ctx], n.loc)
        if ctx == "Load" and n.id == "super" and self.top.typ == "Function":
            self.register("__class__", "Used", n.loc)

    def named(self, n, ctx):
        if ctx == "IterDef":
            raise Fault("SyntaxError", ITER_TEXT, n.target.loc)
        holder = self.top
        while holder.typ == "Comprehension":
            holder = holder.parent
        if holder.typ == "TypeParams":
            raise Fault("SyntaxError", "named expression cannot be used in type parameters", n.loc)
        self.expr(n.value, "Load")
        role = "Walrus" if self.top.typ == "Comprehension" else "Assigned"
        if n.target.kind == "Name":
            self.register(n.target.id, role, n.loc)
        else:
            self.expr(n.target, "Walrus" if role == "Walrus" else "Store")

    def comprehension(self, n):
        self.enter("Comprehension", "genexpr", n, n.loc[0])
        self.register(".0", "Parameter", n.loc)
        for i, g in enumerate(n.generators):
            if i:
                self.expr(g.iter, "IterDef")
            self.expr(g.target, "Iter")
            for c in g.ifs:
                self.expr(c, "Load")
        for e in ([n.key, n.value] if n.kind == "DictComp" else [n.elt]):
            self.expr(e, "Load")
        self.leave()
        self.expr(n.generators[0].iter, "IterDef")


def scan(mod, python_order=True) -> Scan:
    s = Scanner(python_order)
    try:
        if mod.kind == "Expression":
            s.expr(mod.body, "Load")
        else:
            s.body(mod.body)
    except Fault as f:
        return Scan(s.root, s.uses, f)
    return Scan(s.root, s.uses)


# ---------------------------------------------------------------- passes
def post_order(s):
    for c in s.children:
        yield from post_order(c)
    yield s


def register_all(sc):
    for s, name, role, _ in sc.uses:
        sym = s.symbols.setdefault(name, Symbol(name))
        sym.flags |= ROLE_FLAGS[role]
        if role == "Global":
            sym.scope, sym.declared = "GlobalExplicit", role
        if role == "Nonlocal":
            sym.scope, sym.declared = "Free", role


def lift(s, sym):
    """Lifts one name that a walrus in the comprehension s stores."""
    n, way, h = sym.name, [], s.parent
    while h.typ == "Comprehension":
        if n in h.symbols and h.symbols[n].flags & ITER:
            raise Fault("SyntaxError", f"assignment expression cannot rebind comprehension iteration variable {n}", None)
        way.append(h)
        h = h.parent
    if h.typ == "Class":
        raise Fault("SyntaxError", "assignment expression within a comprehension cannot be used in a class body", None)
    if h.typ == "Module":
        kind = "GlobalImplicit"
    else:
        there = h.symbols.get(n)
        if there and there.declared == "Global":
            kind = "GlobalExplicit"
        else:
            kind = "Free"
            if there is None:
                there = h.symbols[n] = Symbol(n)
            if there.declared != "Nonlocal":
                there.flags |= ASSIGNED
    for c in [s] + way:
        x = c.symbols.setdefault(n, Symbol(n))
        x.scope, x.lifted = kind, True


def look_and_mark(s, name):
    """Outward from s: GlobalExplicit, Free or None; with Free the scopes passed are marked."""
    way, e = [], s.parent
    while e is not None:
        if not (e.typ == "Module" or (e.typ == "Class" and name != "__class__")):
            x = e.symbols.get(name)
            if x is not None:
                if x.scope == "GlobalExplicit":
                    return "GlobalExplicit"
                if x.scope != "GlobalImplicit" and x.bound():
                    break
        way.append(e)
        e = e.parent
    if e is None:
        return None
    for p in way:
        x = p.symbols.get(name)
        if x is None:
            x = p.symbols[name] = Symbol(name, "Free", 0, None, False, True)
        if p.typ == "Class":
            x.flags |= FREE_CLASS
    return "Free"


def resolve_symbol(s, sym, used):
    if s.typ == "TypeParams" and s.parent.typ == "Class" and (id(s), sym.name) in used and not sym.bound() and sym.name != "__class__":
        there = s.parent.symbols.get(sym.name)
        if there is not None and there.bound():
            raise Fault("SyntaxError", f"class name '{sym.name}' cannot be used in type parameters", None)
    if sym.declared == "Nonlocal":
        if s.parent is None:
            raise Fault("SyntaxError", f"nonlocal {sym.name} defined at place without an enclosing scope", None)
        if s.parent.parent is None or look_and_mark(s, sym.name) != "Free":
            raise Fault("SyntaxError", f"no binding for nonlocal '{sym.name}' found", None)
        return
    if sym.declared or sym.lifted or sym.passed:
        return
    if not sym.bound():
        sym.scope = look_and_mark(s, sym.name) or ("Unknown" if s.typ == "Module" else "GlobalImplicit")
        return
    sym.scope = "Local"
    for c in s.children:
        x = c.symbols.get(sym.name)
        if x is None:
            continue
        if x.scope == "Free" or x.flags & FREE_CLASS:
            if s.typ != "Class" or sym.name == "__class__":
                sym.scope = "Cell"
                return
        elif x.scope == "GlobalExplicit" and s.typ == "Module":
            sym.scope = "GlobalExplicit"
            return


def build(sc: Scan) -> Scope:
    """The resolved tables, or the first scan fault."""
    if sc.fault:
        raise sc.fault
    register_all(sc)
    for s in post_order(sc.root):
        if s.typ != "Comprehension":
            continue
        for sym in list(s.symbols.values()):
            if sym.flags & ASSIGNED_IN_COMPREHENSION:
                lift(s, sym)
    used = {(id(s), n) for s, n, _, _ in sc.uses}
    for s in post_order(sc.root):
        for sym in list(s.symbols.values()):
            resolve_symbol(s, sym, used)
    return sc.root


# ---------------------------------------------------------------- resolution from the list of uses alone
STORING = {"Assigned", "Imported", "AnnotationAssigned", "Walrus"}


class Resolver:
    def __init__(self, sc: Scan):
        self.root, self.roles, self.memo = sc.root, {}, {}
        for s, n, role, _ in sc.uses:
            self.roles.setdefault(id(s), {}).setdefault(n, []).append(role)

    def uses(self, s, n):
        return self.roles.get(id(s), {}).get(n, [])

    def declaration(self, s, n):
        ds = [r for r in self.uses(s, n) if r in ("Global", "Nonlocal")]
        return ds[-1] if ds else None

    def holder(self, s):
        return s if s.typ != "Comprehension" else self.holder(s.parent)

    def walrus_within(self, s, n):
        return s.typ == "Comprehension" and ("Walrus" in self.uses(s, n) or any(self.walrus_within(c, n) for c in s.children))

    def lifted(self, s, n):
        return self.walrus_within(s, n)

    def lifted_to(self, s, n):
        return s.typ == "Function" and any(self.walrus_within(c, n) for c in s.children)

    def bound(self, s, n):
        return (any(r in STORING or r in ("Parameter", "AnnotatedParameter", "Iter") for r in self.uses(s, n))
                or (self.lifted_to(s, n) and self.declaration(s, n) is None))

    def resolve(self, s, n):
        """(kind, binder scope or None)."""
        key = (id(s), n)
        if key not in self.memo:
            self.memo[key] = self._resolve(s, n)
        return self.memo[key]

    def _resolve(self, s, n):
        if self.lifted(s, n):
            h = self.holder(s)
            if h.typ == "Module":
                return "GlobalImplicit", None
            if self.declaration(h, n) == "Global":
                return "GlobalExplicit", None
            return "Free", (self.resolve(h, n)[1] if self.declaration(h, n) == "Nonlocal" else h)
        d = self.declaration(s, n)
        if d == "Global":
            return "GlobalExplicit", None
        if d == "Nonlocal":
            return "Free", self.look(s, n)[1]
        if self.bound(s, n):
            if (s.typ != "Class" or n == "__class__") and any(self.needs(c, n) for c in s.children):
                return "Cell", s
            if s.typ == "Module" and any(self.declaration(c, n) == "Global" for c in s.children):
                return "GlobalExplicit", None
            return "Local", None
        return self.look(s, n)[:2]

    def look(self, s, n):
        """(kind, binder, the scope that decides)."""
        e = s.parent
        while e is not None:
            if e.typ != "Module" and (e.typ != "Class" or n == "__class__"):
                lifted = self.lifted(e, n)
                if self.declaration(e, n) == "Global" or (lifted and self.resolve(e, n)[0] == "GlobalExplicit"):
                    return "GlobalExplicit", None, e
                if self.bound(e, n) and not (lifted and self.resolve(e, n)[0] == "GlobalImplicit"):
                    # its binder there: a bound scope that a child needs is Cell of itself, else declared or lifted
                    if lifted or self.declaration(e, n):
                        return "Free", self.resolve(e, n)[1], e
                    return "Free", e, e
            e = e.parent
        return ("Unknown" if s.typ == "Module" else "GlobalImplicit"), None, None

    def inside(self, s):
        for c in s.children:
            yield c
            yield from self.inside(c)

    def free_use_past(self, d, n, c):
        """d has a Free use of n that look decides outside c."""
        if not self.uses(d, n) or self.lifted(d, n) or self.resolve(d, n)[0] != "Free":
            return False
        at = self.look(d, n)[2]
        up = c.parent
        while up is not None:
            if up is at:
                return True
            up = up.parent
        return False

    def needs(self, c, n):
        if (self.uses(c, n) or self.lifted(c, n)) and self.resolve(c, n)[0] == "Free":
            return True
        return any(self.free_use_past(d, n, c) for d in self.inside(c))
