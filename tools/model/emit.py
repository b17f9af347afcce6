"""The compiler: code is emitted into blocks, with the location of each instruction, up to the first fault of the tree.

compile_top(mod, path, mode, level, python_order) -> Code, or raises Fault (scopes.Fault).
Modes are exec, eval, single, block.
"""
import sys
import code_objects as C
from layout import NULL, Block, CodeInfo, Info, OrderedSet, finalize_code
from scopes import COMPREHENSIONS, FREE_CLASS, Fault, Scanner, build, scan
from shapes import FString, NESTING_LIMIT, SIZE_LIMIT, annotation_text, mangle, nesting, parameters, python_name, size, valid

sys.setrecursionlimit(100000)
NONE = C.NONE
BINARY = {"Add": 0, "Sub": 1, "Mult": 2, "MatMult": 3, "Div": 4, "FloorDiv": 5, "Mod": 6, "Pow": 7, "LShift": 8, "RShift": 9, "BitOr": 10, "BitXor": 11, "BitAnd": 12}
UNARY = {"UAdd": 0, "USub": 1, "Not": 2, "Invert": 3}
COMPARE = {"Lt": 0, "Gt": 1, "NotEq": 2, "Eq": 3, "LtE": 4, "GtE": 5}
TEST = {"In": 0, "NotIn": 1, "Is": 2, "IsNot": 3}
CONVERSION = {"None": 0, "Str": 1, "Ascii": 2, "Repr": 3}
FUTURES = {"nested_scopes", "generators", "division", "absolute_import", "with_statement", "print_function", "unicode_literals", "generator_stop"}
FUNCTION_TYPES = ("Function", "Comprehension", "TypeParams")


def string_of(values):
    """The joined text where all is strings (f-strings of strings too), else None."""
    out = []
    for v in values:
        if v.kind == "Constant" and v.value.kind == "str":
            out.append(v.value.v)
        elif v.kind == "JoinedStr":
            t = string_of(v.f["values"])
            if t is None:
                return None
            out.append(t)
        else:
            return None
    return "".join(out)


def split_doc(body, level):
    if body and body[0].kind == "Expr":
        doc = string_of([body[0].value])
        if doc is not None:
            return (doc if level < 2 else None), body[1:]
    return None, body


def find_ann(body):
    for s in body:
        if s.kind == "AnnAssign":
            return True
        parts = {"For": ("body", "orelse"), "If": ("body", "orelse"), "While": ("body", "orelse"), "With": ("body",), "Try": ("body", "orelse", "finalbody")}.get(s.kind, ())
        if any(find_ann(s.f[p]) for p in parts):
            return True
    return False


def contains_await(e):
    """Into lambda bodies, elements and iterables; not into clause targets, conditions or parameter defaults."""
    from shapes import children
    if e.kind == "Await":
        return True
    if e.kind == "Lambda":
        return contains_await(e.body)
    if e.kind in COMPREHENSIONS:
        elts = [e.key, e.value] if e.kind == "DictComp" else [e.elt]
        return any(contains_await(x) for x in elts) or any(contains_await(g.iter) for g in e.generators)
    return any(contains_await(c) for c in children(e))


def tables_of(e, postponed):
    """How many sub tables of the current table the scan made for an uncompiled expression."""
    from shapes import children
    if e.kind == "Lambda":
        inner = [d.default for d in e.args.posonlyargs + e.args.args + e.args.kwonlyargs if d.default is not None]
        if not postponed:
            inner += [p.annotation for p in parameters(e.args) if p.annotation is not None]
        return 1 + sum(tables_of(x, postponed) for x in inner)
    if e.kind in COMPREHENSIONS:
        return 1 + tables_of(e.generators[0].iter, postponed)
    return sum(tables_of(c, postponed) for c in children(e))


class Unit:
    """One open scope: its table, how many sub tables are taken, its code."""

    def __init__(self, table, info):
        self.table, self.info, self.taken = table, info, 0


class Emitter:
    def __init__(self, table, path, level, python_order):
        self.path, self.level, self.e = path, level, python_order
        self.loc, self.qualified, self.class_name = (1, 1), [], None
        self.loop, self.future_over, self.postponed = None, False, False
        self.in_element = 0
        self.units = []
        self.open(table, C.NEW_LOCALS, 0, 0, 0, "<module>")
    # ---- scopes
    def open(self, table, flags, posonly, args, kwonly, name):
        cells = [n for n, s in table.symbols.items() if s.scope == "Cell"]
        frees = [n for n, s in table.symbols.items() if s.scope == "Free" or s.flags & FREE_CLASS]
        info = CodeInfo(flags, posonly, args, kwonly, self.path, self.loc[0], name, [Block()], 0, OrderedSet(), OrderedSet(), OrderedSet(), OrderedSet(cells), OrderedSet(frees))
        self.units.append(Unit(table, info))

    def enter(self, node, flags, posonly, args, kwonly, name):
        u = self.units[-1]
        t = u.table.children[u.taken]
        u.taken += 1
        assert t.node is node, (t.path(), t.node.kind, node.kind)
        self.open(t, flags, posonly, args, kwonly, name)

    def leave(self):
        u = self.units.pop()
        assert u.taken == len(u.table.children), u.table.path()
        return finalize_code(u.info, self.level, self.e)

    def drop(self, e):
        if e is not None:
            self.units[-1].taken += tables_of(e, self.postponed)

    @property
    def info(self):
        return self.units[-1].info

    @property
    def table(self):
        return self.units[-1].table

    def in_func(self):
        return self.table.typ in FUNCTION_TYPES
    # ---- low level
    def error(self, variant, text, loc=None):
        return Fault(variant, text, loc or self.loc)

    def emit(self, op, arg=0, target=NULL):
        self.info.blocks[self.info.current_block].instructions.append(Info(op, arg, target, self.loc))

    def jump(self, op, target):
        self.emit(op, 0, target)

    def new_block(self):
        self.info.blocks.append(Block())
        return len(self.info.blocks) - 1

    def place(self, b):
        self.info.blocks[self.info.current_block].next = b
        self.info.current_block = b

    def const(self, c):
        self.emit("LoadConst", self.info.constants.add(c))

    def return_const(self, c):
        self.emit("ReturnConst", self.info.constants.add(c))

    def return_value(self):
        xs = self.info.blocks[self.info.current_block].instructions
        if xs and xs[-1].op == "LoadConst":
            xs[-1].op = "ReturnConst"
        else:
            self.emit("ReturnValue")

    def mangled(self, n):
        return mangle(self.class_name, n)

    def name(self, n):
        return self.info.names.add(self.mangled(n))

    def varname(self, n):
        if n == "__debug__":
            raise self.error("SyntaxError", "cannot assign to __debug__")
        return self.info.varnames.add(self.mangled(n))

    def forbidden(self, n, usage):
        if n == "__debug__" and usage != "Load":
            raise self.error("SyntaxError", ("cannot assign to" if usage == "Store" else "cannot delete") + " __debug__")

    def access(self, usage, n):
        n = self.mangled(n)
        self.forbidden(n, usage)
        if n == "__debug__":
            return self.const(C.TRUE if self.level == 0 else C.FALSE)
        kind, func = self.table.symbols[n].scope, self.in_func()
        if kind in ("Free", "Cell"):
            at = self.info.cells.index(n) if kind == "Cell" else len(self.info.cells) + self.info.frees.index(n)
            op = "LoadClassDeref" if usage == "Load" and self.table.typ == "Class" else usage + "Deref"
        elif kind == "Local" and func:
            at, op = self.info.varnames.add(n), usage + "Fast"
        else:
            at = self.info.names.add(n)
            op = usage + "Global" if kind == "GlobalExplicit" or (func and kind != "Local") else {"Load": "LoadNameAny", "Store": "StoreLocal", "Delete": "DeleteLocal"}[usage]
        self.emit(op, at)

    def closure(self, code):
        if not code.freevars:
            return 0
        for n in code.freevars:
            if self.table.symbols[n].scope == "Cell":
                self.emit("LoadClosure", self.info.cells.index(n))
            else:
                self.emit("LoadClosure", len(self.info.cells) + self.info.frees.index(n))
        self.emit("BuildTuple", len(code.freevars))
        return C.CLOSURE

    def make(self, code, name, flags):
        flags |= self.closure(code)
        self.const(("code", code))
        self.const(("str", name))
        self.emit("MakeFunction", flags)
    # ---- bodies
    def module(self, body):
        doc, rest = split_doc(body, self.level)
        if doc is not None:
            self.const(("str", doc))
            self.emit("StoreGlobal", self.name("__doc__"))
        if find_ann(rest):
            self.emit("SetupAnnotation")
        self.stmts(rest)
        self.return_const(NONE)

    def single(self, body):
        for i, s in enumerate(body):
            last = i == len(body) - 1
            if s.kind == "Expr":
                self.expr(s.value)
                if last:
                    self.emit("Duplicate")
                self.emit("PrintExpr")
            else:
                self.stmt(s)
                if last:
                    self.const(NONE)
        if not body:
            self.const(NONE)
        self.return_value()

    def block(self, body):
        self.stmts(body)
        xs = self.info.blocks[self.info.current_block].instructions
        last = body[-1].kind if body else None
        if last == "Expr":
            xs.pop()
        elif last in ("FunctionDef", "ClassDef"):
            store = xs.pop()
            self.emit("Duplicate")
            xs.append(store)
        else:
            self.const(NONE)
        self.return_value()
    # ---- statements
    def stmts(self, xs):
        for x in xs:
            self.stmt(x)

    def stmt(self, n):
        k = n.kind
        self.loc = n.loc
        if k == "ImportFrom" and n.module == "__future__":
            self.futures(n.names)
        else:
            self.future_over = True
        getattr(self, "s_" + k)(n)

    def futures(self, names):
        if self.future_over:
            raise self.error("InvalidFuturePlacement", "from __future__ imports must occur at the beginning of the file")
        for a in names:
            f = a.f["name"]
            if f == "annotations":
                self.postponed = True
            elif f not in FUTURES:
                raise self.error("InvalidFutureFeature", f"future feature {f} is not defined")

    def not_yet(self, n):
        raise self.error("NotImplementedYet", "RustPython does not implement this feature yet")
    s_AsyncFunctionDef = s_AsyncFor = s_AsyncWith = s_TryStar = not_yet

    def s_Pass(self, n):
        pass
    s_Global = s_Nonlocal = s_Pass

    def s_Expr(self, n):
        self.expr(n.value)
        self.emit("Pop")

    def s_Assign(self, n):
        self.expr(n.value)
        for i, t in enumerate(n.targets):
            if i + 1 < len(n.targets):
                self.emit("Duplicate")
            self.store(t)

    def s_AugAssign(self, n):
        t, op = n.target, BINARY[n.op]
        if t.kind == "Name":
            self.access("Load", t.id)
            self.expr(n.value)
            self.emit("BinaryOperationInplace", op)
            self.access("Store", t.id)
        elif t.kind == "Subscript":
            self.expr(t.value)
            self.expr(t.slice)
            self.emit("Duplicate2")
            self.emit("Subscript")
            self.expr(n.value)
            self.emit("BinaryOperationInplace", op)
            self.emit("Rotate3")
            self.emit("StoreSubscript")
        elif t.kind == "Attribute":
            self.forbidden(t.attr, "Store")
            self.expr(t.value)
            self.emit("Duplicate")
            self.emit("LoadAttr", self.name(t.attr))
            self.expr(n.value)
            self.emit("BinaryOperationInplace", op)
            self.emit("Rotate2")
            self.emit("StoreAttr", self.name(t.attr))
        else:
            raise self.error("Assign", "cannot assign to " + python_name(t))

    def annotation(self, x):
        if self.postponed:
            try:
                self.const(("str", annotation_text(x)))
            except FString:
                self.not_yet(x)
        else:
            self.expr(x)

    def s_AnnAssign(self, n):
        if n.value is not None:
            self.expr(n.value)
            self.store(n.target)
        else:
            self.drop(n.target)
        if self.in_func():
            if not self.postponed:
                self.drop(n.annotation)
            return
        self.annotation(n.annotation)
        if n.target.kind == "Name":
            self.emit("LoadNameAny", self.name("__annotations__"))
            self.const(("str", self.mangled(n.target.id)))
            self.emit("StoreSubscript")
        else:
            self.emit("Pop")

    def s_Delete(self, n):
        for t in n.targets:
            self.delete(t)

    def s_If(self, n):
        a = self.new_block()
        if not n.orelse:
            self.test(n.test, False, a)
            self.stmts(n.body)
        else:
            e = self.new_block()
            self.test(n.test, False, e)
            self.stmts(n.body)
            self.jump("Jump", a)
            self.place(e)
            self.stmts(n.orelse)
        self.place(a)

    def loop_body(self, body, start, after):
        old, self.loop = self.loop, (start, after)
        self.stmts(body)
        self.loop = old

    def s_While(self, n):
        w, e, a = self.new_block(), self.new_block(), self.new_block()
        self.emit("SetupLoop")
        self.place(w)
        self.test(n.test, False, e)
        self.loop_body(n.body, w, a)
        self.jump("Jump", w)
        self.place(e)
        self.emit("PopBlock")
        self.stmts(n.orelse)
        self.place(a)

    def s_For(self, n):
        f, e, a = self.new_block(), self.new_block(), self.new_block()
        self.emit("SetupLoop")
        self.expr(n.iter)
        self.emit("GetIter")
        self.place(f)
        self.jump("ForIter", e)
        self.store(n.target)
        self.loop_body(n.body, f, a)
        self.jump("Jump", f)
        self.place(e)
        self.emit("PopBlock")
        self.stmts(n.orelse)
        self.place(a)

    def s_Break(self, n):
        if self.loop is None:
            raise self.error("InvalidBreak", "'break' outside loop")
        self.jump("Break", self.loop[1])

    def s_Continue(self, n):
        if self.loop is None:
            raise self.error("InvalidContinue", "'continue' outside loop")
        self.jump("Continue", self.loop[0])

    def s_Try(self, n):
        h, z, e = self.new_block(), self.new_block(), self.new_block()
        if n.finalbody:
            self.jump("SetupFinally", z)
        self.jump("SetupExcept", h)
        self.stmts(n.body)
        self.emit("PopBlock")
        self.jump("Jump", e)
        self.place(h)
        for x in n.handlers:
            nxt = self.new_block()
            if x.type_ is not None:
                self.emit("Duplicate")
                self.expr(x.type_)
                self.emit("TestOperation", 4)
                self.jump("JumpIfFalse", nxt)
                if x.f["name"] is not None:
                    self.access("Store", x.f["name"])
                else:
                    self.emit("Pop")
            else:
                self.emit("Pop")
            if self.e and x.f["name"] is not None:
                c = self.new_block()
                self.jump("SetupFinally", c)
                self.stmts(x.body)
                self.emit("PopBlock")
                self.emit("EnterFinally")
                self.place(c)
                self.const(NONE)
                self.access("Store", x.f["name"])
                self.access("Delete", x.f["name"])
                self.emit("EndFinally")
            else:
                self.stmts(x.body)
            self.emit("PopException")
            if n.finalbody:
                self.emit("PopBlock")
                self.emit("EnterFinally")
            self.jump("Jump", z)
            self.place(nxt)
        self.emit("Raise", 2)
        self.place(e)
        self.stmts(n.orelse)
        if n.finalbody:
            self.emit("PopBlock")
            self.emit("EnterFinally")
        self.place(z)
        if n.finalbody:
            self.stmts(n.finalbody)
            self.emit("EndFinally")

    def s_With(self, n):
        if not n.items:
            raise self.error("EmptyWithItems", "empty items on With")
        self.with_items(n, 0)

    def with_items(self, n, i):
        item, z = n.items[i], self.new_block()
        self.expr(item.context_expr)
        self.loc = n.loc
        self.jump("SetupWith", z)
        if item.optional_vars is not None:
            self.loc = item.optional_vars.loc
            self.store(item.optional_vars)
        else:
            self.emit("Pop")
        if i + 1 < len(n.items):
            self.loc = n.loc
            self.with_items(n, i + 1)
        else:
            if not n.body:
                raise self.error("EmptyWithBody", "empty body on With")
            self.stmts(n.body)
        self.loc = n.loc
        self.emit("PopBlock")
        self.emit("EnterFinally")
        self.place(z)
        self.emit("WithCleanupStart")
        self.emit("WithCleanupFinish")

    def s_Raise(self, n):
        for x in (n.exc, n.cause):
            if x is not None:
                self.expr(x)
        self.emit("Raise", 2 if n.exc is None else 0 if n.cause is None else 1)

    def s_Return(self, n):
        if not self.in_func():
            raise self.error("InvalidReturn", "'return' outside function")
        if n.value is None:
            self.return_const(NONE)
        else:
            self.expr(n.value)
            self.return_value()

    def s_Assert(self, n):
        if self.level > 0:
            self.drop(n.test)
            self.drop(n.msg)
            return
        a = self.new_block()
        self.test(n.test, True, a)
        self.emit("LoadGlobal", self.name("AssertionError"))
        if n.msg is not None:
            self.expr(n.msg)
        self.emit("CallFunctionPositional", 0 if n.msg is None else 1)
        self.emit("Raise", 0)
        self.place(a)

    def s_Import(self, n):
        for a in n.names:
            path = a.f["name"]
            self.const(("int", 0))
            self.const(NONE)
            self.emit("ImportName", self.name(path))
            if a.asname is not None:
                for part in path.split(".")[1:]:
                    self.emit("LoadAttr", self.name(part))
                self.access("Store", a.asname)
            else:
                self.access("Store", path.split(".")[0])

    def s_ImportFrom(self, n):
        star = any(a.f["name"] == "*" for a in n.names)
        if star and self.in_func():
            raise self.error("FunctionImportStar", "import * only allowed at module level")
        if n.module is not None:
            module = self.name(n.module)
        self.const(("int", n.level))
        self.const(("tuple", (("str", "*"),) if star else tuple(("str", a.f["name"]) for a in n.names)))
        if n.module is not None:
            self.emit("ImportName", module)
        else:
            self.emit("ImportNameless")
        if star:
            self.emit("ImportStar")
            return
        for a in n.names:
            self.emit("ImportFrom", self.name(a.f["name"]))
            self.access("Store", a.asname if a.asname is not None else a.f["name"])
        self.emit("Pop")

    def s_TypeAlias(self, n):
        t = n.f["name"]
        if t.kind != "Name":
            raise self.error("Assign", "cannot assign to " + python_name(t))
        if n.type_params:
            name = self.hidden(n, t.id, 0)
            self.type_params(n.type_params)
            self.expr(n.value)
            self.emit("Rotate2")
            self.const(("str", t.id))
            self.emit("TypeAlias")
            self.return_value()
            self.make(self.leave(), name, 0)
            self.emit("CallFunctionPositional", 0)
        else:
            self.expr(n.value)
            self.emit("BuildTuple", 0)
            self.const(("str", t.id))
            self.emit("TypeAlias")
        self.access("Store", t.id)
    # ---- functions and classes
    def positional_defaults(self, a):
        ds = [d.default for d in a.posonlyargs + a.args if d.default is not None]
        for d in ds:
            self.expr(d)
        if ds:
            self.emit("BuildTuple", len(ds))
        return C.DEFAULTS if ds else 0

    def keyword_defaults(self, a):
        ks = [d for d in a.kwonlyargs if d.default is not None]
        for d in ks:
            self.const(("str", d.f["def"].arg))
            self.expr(d.default)
        if ks:
            self.emit("BuildMap", len(ks))
        return C.KW_ONLY_DEFAULTS if ks else 0

    def enter_scope_of(self, node, name, a):
        self.enter(node, C.NEW_LOCALS | C.IS_OPTIMIZED, len(a.posonlyargs), len(a.posonlyargs) + len(a.args), len(a.kwonlyargs), name)
        ks = [d for d in a.kwonlyargs if d.default is None] + [d for d in a.kwonlyargs if d.default is not None]
        for d in a.posonlyargs + a.args + ks:
            self.varname(d.f["def"].arg)
        if a.vararg:
            self.info.flags |= C.HAS_VARARGS
            self.varname(a.vararg.arg)
        if a.kwarg:
            self.info.flags |= C.HAS_VARKEYWORDS
            self.varname(a.kwarg.arg)
        self.info.constants.add(NONE)

    def function_body(self, n):
        """The function's scope: its code, qualified name and docstring."""
        name = n.f["name"]
        self.enter_scope_of(n, name, n.args)
        old, self.loop = self.loop, None
        self.qualified.append(name)
        qualified = ".".join(self.qualified)
        self.qualified.append("<locals>")
        doc, rest = split_doc(n.body, self.level)
        self.stmts(rest)
        if not (rest and rest[-1].kind == "Return"):
            self.return_const(NONE)
        code = self.leave()
        self.qualified.pop()
        self.qualified.pop()
        self.loop = old
        return code, qualified, doc

    def function_rest(self, n, flags, code, qualified, doc):
        count = 0
        if n.returns is not None:
            self.const(("str", "return"))
            self.annotation(n.returns)
            count += 1
        for p in parameters(n.args):
            if p.annotation is not None:
                self.const(("str", self.mangled(p.arg)))
                self.annotation(p.annotation)
                count += 1
        if count:
            self.emit("BuildMap", count)
            flags |= C.ANNOTATIONS
        self.make(code, qualified, flags)
        if doc is not None:
            self.emit("Duplicate")
            self.const(("str", doc))
            self.emit("Rotate2")
            self.emit("StoreAttr", self.name("__doc__"))

    def s_FunctionDef(self, n):
        for d in n.decorator_list:
            self.expr(d)
        if n.type_params:
            a = n.args
            has = [x for x, y in ((".defaults", any(d.default is not None for d in a.posonlyargs + a.args)), (".kwdefaults", any(d.default is not None for d in a.kwonlyargs))) if y]
            old, self.loop = self.loop, None
            name = self.hidden(n, n.f["name"], len(has))
            for x in has:
                self.info.varnames.add(x)
            for x in has:
                self.emit("LoadFast", self.info.varnames.index(x))
            self.type_params(n.type_params)
            flags = C.TYPE_PARAMS | (C.DEFAULTS if ".defaults" in has else 0) | (C.KW_ONLY_DEFAULTS if ".kwdefaults" in has else 0)
            self.function_rest(n, flags, *self.function_body(n))
            self.return_value()
            code = self.leave()
            self.loop = old
            self.make(code, name, 0)
            self.positional_defaults(a)
            self.keyword_defaults(a)
            self.emit("CallFunctionPositional", len(has))
        else:
            flags = self.positional_defaults(n.args) | self.keyword_defaults(n.args)
            self.function_rest(n, flags, *self.function_body(n))
        for _ in n.decorator_list:
            self.emit("CallFunctionPositional", 1)
        self.access("Store", n.f["name"])

    def class_body(self, n, is_global):
        name = n.f["name"]
        old = self.loop, self.class_name, self.qualified
        self.loop, self.class_name = None, name
        self.qualified = ([] if is_global else list(self.qualified)) + [name]
        self.enter(n, 0, 0, 0, 0, name)
        doc, rest = split_doc(n.body, self.level)
        self.emit("LoadGlobal", self.name("__name__"))
        self.emit("StoreLocal", self.name("__module__"))
        self.const(("str", ".".join(self.qualified)))
        self.emit("StoreLocal", self.name("__qualname__"))
        self.const(NONE if doc is None else ("str", doc))
        self.emit("StoreLocal", self.name("__doc__"))
        if find_ann(rest):
            self.emit("SetupAnnotation")
        self.stmts(rest)
        at = self.info.cells.index("__class__")
        if at is not None:
            self.emit("LoadClosure", at)
            self.emit("Duplicate")
            self.emit("StoreLocal", self.name("__classcell__"))
        else:
            self.const(NONE)
        self.return_value()
        code = self.leave()
        self.loop, self.class_name, self.qualified = old
        return code

    def s_ClassDef(self, n):
        name = n.f["name"]
        for d in n.decorator_list:
            self.expr(d)
        is_global = self.table.symbols[self.mangled(name)].scope == "GlobalExplicit"
        if n.type_params:
            hidden = self.hidden(n, name, 0)
        self.emit("LoadBuildClass")
        flags = 0
        if n.type_params:
            self.type_params(n.type_params)
            flags = C.TYPE_PARAMS
        self.make(self.class_body(n, is_global), name, flags)
        self.const(("str", name))
        self.call("CallFunction", *self.arguments(2, n.bases, n.keywords))
        if n.type_params:
            self.return_value()
            self.make(self.leave(), hidden, 0)
            self.emit("CallFunctionPositional", 0)
        for _ in n.decorator_list:
            self.emit("CallFunctionPositional", 1)
        self.access("Store", name)

    def hidden(self, n, name, count):
        name = f"<generic parameters of {name}>"
        self.enter(n, C.NEW_LOCALS | C.IS_OPTIMIZED, count, count, 0, name)
        return name

    def type_params(self, ps):
        for t in ps:
            if t.bound is not None:
                self.expr(t.bound)
            self.const(("str", t.f["name"]))
            self.emit("TypeVarWithBound" if t.bound is not None else "TypeVar")
            self.emit("Duplicate")
            self.access("Store", t.f["name"])
        self.emit("BuildTuple", len(ps))
    # ---- targets and tests
    def store(self, t):
        k = t.kind
        if k == "Name":
            self.access("Store", t.id)
        elif k == "Subscript":
            self.expr(t.value)
            self.expr(t.slice)
            self.emit("StoreSubscript")
        elif k == "Attribute":
            self.forbidden(t.attr, "Store")
            self.expr(t.value)
            self.emit("StoreAttr", self.name(t.attr))
        elif k in ("List", "Tuple"):
            star = None
            for i, x in enumerate(t.elts):
                if x.kind != "Starred":
                    continue
                if star is not None:
                    raise self.error("MultipleStarArgs", "two starred expressions in assignment")
                star = i
                if i > 255 or len(t.elts) - i - 1 > 255:
                    raise self.error("TooManyStarUnpack", "too many expressions in star-unpacking assignment", t.loc)
                self.emit("UnpackEx", i + 256 * (len(t.elts) - i - 1))
            if star is None:
                self.emit("UnpackSequence", len(t.elts))
            for x in t.elts:
                self.store(x.value if x.kind == "Starred" else x)
        elif k == "Starred":
            raise self.error("SyntaxError", "starred assignment target must be in a list or tuple")
        else:
            raise self.error("Assign", "cannot assign to " + python_name(t))

    def delete(self, t):
        k = t.kind
        if k == "Name":
            self.access("Delete", t.id)
        elif k == "Subscript":
            self.expr(t.value)
            self.expr(t.slice)
            self.emit("DeleteSubscript")
        elif k == "Attribute":
            self.forbidden(t.attr, "Delete")
            self.expr(t.value)
            self.emit("DeleteAttr", self.name(t.attr))
        elif k in ("List", "Tuple"):
            for x in t.elts:
                self.delete(x)
        else:
            raise self.error("Delete", "cannot delete " + ("expression" if k in ("BinOp", "UnaryOp") else python_name(t)))

    def test(self, x, c, target):
        if x.kind == "BoolOp":
            values = x.f["values"]
            if (x.op == "And") != c:
                for v in values:
                    self.test(v, c, target)
            else:
                end = self.new_block()
                for v in values[:-1]:
                    self.test(v, not c, end)
                self.test(values[-1], c, target)
                self.place(end)
        elif x.kind == "UnaryOp" and x.op == "Not":
            self.test(x.operand, not c, target)
        else:
            self.expr(x)
            self.jump("JumpIfTrue" if c else "JumpIfFalse", target)
    # ---- expressions
    def expr(self, n):
        self.loc = n.loc
        getattr(self, "e_" + n.kind)(n)

    def e_Constant(self, n):
        self.const(C.constant_of_node(n.value))

    def e_Name(self, n):
        self.access("Load", n.id)

    def e_BinOp(self, n):
        self.expr(n.left)
        self.expr(n.right)
        self.emit("BinaryOperation", BINARY[n.op])

    def e_UnaryOp(self, n):
        self.expr(n.operand)
        self.emit("UnaryOperation", UNARY[n.op])

    def e_Subscript(self, n):
        self.expr(n.value)
        self.expr(n.slice)
        self.emit("Subscript")

    def e_Attribute(self, n):
        self.expr(n.value)
        self.emit("LoadAttr", self.name(n.attr))

    def e_BoolOp(self, n):
        end, values = self.new_block(), n.f["values"]
        for v in values[:-1]:
            self.expr(v)
            self.jump("JumpIfFalseOrPop" if n.op == "And" else "JumpIfTrueOrPop", end)
        self.expr(values[-1])
        self.place(end)

    def cmpop(self, o):
        if o in COMPARE:
            self.emit("CompareOperation", COMPARE[o])
        else:
            self.emit("TestOperation", TEST[o])

    def e_Compare(self, n):
        self.expr(n.left)
        several = len(n.ops) > 1
        if several:
            b, a = self.new_block(), self.new_block()
        for o, x in zip(n.ops[:-1], n.comparators[:-1]):
            self.expr(x)
            self.emit("Duplicate")
            self.emit("Rotate3")
            self.cmpop(o)
            self.jump("JumpIfFalseOrPop", b)
        self.expr(n.comparators[-1])
        self.cmpop(n.ops[-1])
        if several:
            self.jump("Jump", a)
            self.place(b)
            self.emit("Rotate2")
            self.emit("Pop")
            self.place(a)

    def e_IfExp(self, n):
        e, a = self.new_block(), self.new_block()
        self.test(n.test, False, e)
        self.expr(n.body)
        self.jump("Jump", a)
        self.place(e)
        self.expr(n.orelse)
        self.place(a)

    def e_NamedExpr(self, n):
        self.expr(n.value)
        self.emit("Duplicate")
        self.store(n.target)

    def display(self, n):
        count, star = self.gather(0, n.elts)
        self.emit("Build" + n.kind + ("Unpack" if star else ""), count)
    e_List = e_Tuple = e_Set = display

    def runs(self, pairs):
        """Longest runs: (is_star, items)."""
        out = []
        for star, x in pairs:
            if out and out[-1][0] == star:
                out[-1][1].append(x)
            else:
                out.append((star, [x]))
        return out

    def gather(self, before, elts):
        if not any(x.kind == "Starred" for x in elts):
            for x in elts:
                self.expr(x)
            return before + len(elts), False
        count = 0
        if before:
            self.emit("BuildTuple", before)
            count = 1
        for star, xs in self.runs((x.kind == "Starred", x) for x in elts):
            for x in xs:
                self.expr(x.value if star else x)
            if star:
                count += len(xs)
            else:
                self.emit("BuildTuple", len(xs))
                count += 1
        return count, True

    def arguments(self, before, args, keywords):
        count, star = self.gather(before, args)
        for w in keywords:
            if w.arg is not None:
                self.forbidden(w.arg, "Store")
        if star or any(w.arg is None for w in keywords):
            self.emit("BuildTupleUnpack" if star else "BuildTuple", count)
            if keywords:
                maps = 0
                for bare, ws in self.runs((w.arg is None, w) for w in keywords):
                    for w in ws:
                        if not bare:
                            self.const(("str", w.arg))
                        self.expr(w.value)
                    if not bare:
                        self.emit("BuildMap", len(ws))
                    maps += len(ws) if bare else 1
                if maps > 1:
                    self.emit("BuildMapForCall", maps)
            return "Ex", 1 if keywords else 0
        total = before + len(args) + len(keywords)
        if not keywords:
            return "Positional", total
        for w in keywords:
            self.expr(w.value)
        self.const(("tuple", tuple(("str", w.arg) for w in keywords)))
        return "Keyword", total

    def call(self, base, form, arg):
        self.emit(base + form, arg)

    def e_Call(self, n):
        base = "CallFunction"
        if n.func.kind == "Attribute":
            self.expr(n.func.value)
            self.emit("LoadMethod", self.name(n.func.attr))
            base = "CallMethod"
        else:
            self.expr(n.func)
        self.call(base, *self.arguments(0, n.args, n.keywords))

    def e_Dict(self, n):
        pairs = list(zip(n.f["keys"], n.f["values"]))

        def keyed(ps):
            for q, v in ps:
                self.expr(q)
                self.expr(v)
            self.emit("BuildMap", len(ps))
        if not self.e:
            keyed([p for p in pairs if p[0] is not None])
            for q, v in pairs:
                if q is None:
                    self.expr(v)
                    self.emit("DictUpdate")
            return
        first = next((i for i, p in enumerate(pairs) if p[0] is None), len(pairs))
        keyed(pairs[:first])
        for bare, ps in self.runs((p[0] is None, p) for p in pairs[first:]):
            if bare:
                for _, v in ps:
                    self.expr(v)
                    self.emit("DictUpdate")
            else:
                keyed(ps)
                self.emit("DictUpdate")

    def e_Slice(self, n):
        for x in (n.lower, n.upper):
            if x is not None:
                self.expr(x)
            else:
                self.const(NONE)
        if n.step is not None:
            self.expr(n.step)
        self.emit("BuildSlice", 0 if n.step is None else 1)

    def e_Yield(self, n):
        if not self.in_func():
            raise self.error("InvalidYield", "'yield' outside function")
        self.info.flags |= C.IS_GENERATOR
        if n.value is not None:
            self.expr(n.value)
        else:
            self.const(NONE)
        self.emit("YieldValue")

    def e_YieldFrom(self, n):
        if not self.in_func():
            raise self.error("InvalidYieldFrom", "'yield from' outside function")
        self.info.flags |= C.IS_GENERATOR
        self.expr(n.value)
        self.emit("GetIter")
        self.const(NONE)
        self.emit("YieldFrom")

    def e_Await(self, n):
        raise self.error("InvalidAwait", "'await' outside async function")

    def e_JoinedStr(self, n):
        text = string_of(n.f["values"])
        if text is not None:
            self.const(("str", text))
            return
        for v in n.f["values"]:
            self.expr(v)
        self.emit("BuildString", len(n.f["values"]))

    def e_FormattedValue(self, n):
        def spec():
            if n.format_spec is not None:
                self.expr(n.format_spec)
            else:
                self.const(("str", ""))
        if self.e:
            self.expr(n.value)
            spec()
        else:
            spec()
            self.expr(n.value)
        self.emit("FormatValue", CONVERSION[n.conversion])

    def e_Starred(self, n):
        if self.in_element:
            raise self.error("SyntaxError", "iterable unpacking cannot be used in comprehension")
        raise self.error("InvalidStarExpr", "cannot use starred expression here")

    def e_Lambda(self, n):
        flags = self.positional_defaults(n.args) | self.keyword_defaults(n.args)
        self.enter_scope_of(n, "<lambda>", n.args)
        old, self.loop = self.loop, None
        self.expr(n.body)
        self.return_value()
        code = self.leave()
        self.loop = old
        if not self.postponed:
            for p in parameters(n.args):
                self.drop(p.annotation)
        self.make(code, "<lambda>", flags)

    def comprehension(self, n):
        if any(g.is_async for g in n.generators) or (n.kind == "GeneratorExp" and contains_await(n.elt)):
            self.not_yet(n)
        name, start, op = {"ListComp": ("<listcomp>", "BuildList", "ListAppend"), "SetComp": ("<setcomp>", "BuildSet", "SetAdd"),
                           "DictComp": ("<dictcomp>", "BuildMap", "MapAdd"), "GeneratorExp": ("<genexpr>", None, None)}[n.kind]
        old, self.loop = self.loop, None
        self.enter(n, C.NEW_LOCALS | C.IS_OPTIMIZED, 1, 1, 0, name)
        arg0 = self.varname(".0")
        if start:
            self.emit(start, 0)
        labels = []
        for i, g in enumerate(n.generators):
            l, a = self.new_block(), self.new_block()
            if i == 0:
                self.emit("LoadFast", arg0)
            else:
                self.expr(g.iter)
                self.emit("GetIter")
            labels.append((l, a))
            self.place(l)
            self.jump("ForIter", a)
            self.store(g.target)
            for c in g.ifs:
                self.test(c, False, l)
        if n.kind == "DictComp":
            self.expr(n.key)
            self.expr(n.value)
        else:
            self.in_element += 1
            self.expr(n.elt)
            self.in_element -= 1
        if op:
            self.emit(op, len(n.generators))
        else:
            self.info.flags |= C.IS_GENERATOR
            self.emit("YieldValue")
            self.emit("Pop")
        for l, a in reversed(labels):
            self.jump("Jump", l)
            self.place(a)
        if n.kind == "GeneratorExp":
            self.const(NONE)
        self.return_value()
        code = self.leave()
        self.loop = old
        self.make(code, name, 0)
        self.expr(n.generators[0].iter)
        self.emit("GetIter")
        self.emit("CallFunctionPositional", 1)
    e_ListComp = e_SetComp = e_DictComp = e_GeneratorExp = comprehension


def compile_top(mod, path="m.py", mode="exec", level=0, python_order=True):
    if nesting(mod) >= NESTING_LIMIT:
        raise Fault("TooLarge", "tree is too large: nesting", None)
    if size(mod) >= SIZE_LIMIT:
        raise Fault("TooLarge", "tree is too large: nodes", None)
    bad = valid(mod, mode)
    if bad:
        raise Fault("MalformedTree", "malformed tree: " + bad, None)
    table = build(scan(mod, python_order))
    e = Emitter(table, path, level, python_order)
    if mod.kind == "Module":
        e.module(mod.body)
    elif mod.kind == "Expression":
        e.expr(mod.body)
        e.return_value()
    elif mode == "single":
        e.single(mod.body)
    else:
        e.block(mod.body)
    return e.leave()
