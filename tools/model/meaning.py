"""The meaning of a tree: `meaning(scope, answers)` gives the events and the outcome of a scope.

Two halves. FORMS: from a tree to a form, one small table from kinds of nodes to forms. RUN: from a form to events and its end.
Forms are tuples (name, parameters..). Sorts: V value, B test, T target (is given a value), S statement.

V  Const c | Load kind name | Op name detail gives [V] | Make flags [V] scope name [V] | Short op [V] | Chain V [(op, case, V)]
   | Choice B V V | Keep V how T | Gather name S | Swap name detail V V [V]      (how: None, the value itself, or an ImportFrom's name)
V, S  At location V-or-S: the node is entered (`locations`); no part in the run
B  Truth V | Not B | All [B]
T  Store kind name | Put name detail [V] | Under name detail V | Unpack name detail [T] | Drop
S  Seq [S] | Do name detail [V] fit | Into V T | Remove name | Choice B S S | Loop S S | Turn B S | Each V T [B] S
   | Leave how V? | ClassEnd | Reraise | Augment [V] get V case put | Append name depth [V] | Try S [(V?, T, S)] S S? | Finally S S | With V T S location location?
`kind` of an access is None where resolve decides, else 'ByName', 'Global' or 'Fast'.
"""
import sys
from answers import *
from code_objects import constant_of_node
sys.setrecursionlimit(100000)


class Refused(Exception):
    pass


UNARY = {'Invert': 'Invert', 'Not': 'Not', 'UAdd': 'Plus', 'USub': 'Minus'}
BINARY = dict(Add='Add', Sub='Subtract', Mult='Multiply', MatMult='MatrixMultiply', Div='Divide', FloorDiv='FloorDivide', Mod='Modulo',
              Pow='Power', LShift='Lshift', RShift='Rshift', BitOr='Or', BitXor='Xor', BitAnd='And')
COMPARE = dict(Eq='Equal', NotEq='NotEqual', Lt='Less', LtE='LessOrEqual', Gt='Greater', GtE='GreaterOrEqual')


def mangle(cls, name):  # of a private name
    if cls is None or not name.startswith('__') or name.endswith('__') or '.' in name:
        return name
    return '_' + (cls[1:] if cls.startswith('_') else cls) + name


def joined(values):  # the text where all is strings, else None
    out = ''
    for v in values:
        if v.kind == 'Constant' and v.value.kind == 'str':
            out += v.value.v
        elif v.kind == 'JoinedStr':
            t = joined(v.values)
            if t is None:
                return None
            out += t
        else:
            return None
    return out


def split_doc(body, level):  # the docstring, and the statements behind it
    if body and body[0].kind == 'Expr':
        t = joined([body[0].value])
        if t is not None:
            return (t if level < 2 else None), 1
    return None, 0


def find_ann(body):  # whether the body makes room for annotations
    for s in body:
        if s.kind == 'AnnAssign':
            return True
        if s.kind in ('For', 'If', 'While') and (find_ann(s.body) or find_ann(s.orelse)):
            return True
        if s.kind == 'With' and find_ann(s.body):
            return True
        if s.kind == 'Try' and (find_ann(s.body) or find_ann(s.orelse) or find_ann(s.finalbody)):
            return True
    return False


def substatements(s):
    for name in ('body', 'orelse', 'finalbody'):
        v = s.f.get(name)
        if isinstance(v, list):
            yield from v
    for h in s.f.get('handlers', []):
        yield from h.body


def declared_global(body, cls, name):  # the last declaration of the name in this scope
    last = None
    for s in body:
        if s.kind in ('Global', 'Nonlocal'):
            if name in [mangle(cls, n) for n in s.names]:
                last = s.kind
        elif s.kind not in ('FunctionDef', 'ClassDef'):
            got = declared_global(list(substatements(s)), cls, name)
            last = got or last
    return last


class Scope:
    """A scope. kind: Program Expression Single Block Lambda Function Class Comp HiddenDef HiddenClass HiddenAlias."""

    def __init__(self, kind, node, name, level, cls, path, post, parent, python_order):
        self.kind, self.node, self.name, self.level, self.cls, self.path = kind, node, name, level, cls, path
        self.post, self.parent, self.python_order, self._form, self.children = post, parent, python_order, None, []
        self.qual = None  # qualified name of a Function or Class

    @property
    def form(self):
        if self._form is None:
            self._form = Table(self).body()
        return self._form

    def direct(self):
        self.form
        return self.children


def body(tree, mode='exec', level=0, python_order=True):
    kind = {'Module': 'Program', 'Expression': 'Expression'}.get(tree.kind)
    if tree.kind == 'Interactive':
        kind = {'single': 'Single', 'block': 'Block'}.get(mode)
    if kind is None:
        raise Refused('WrongMode')
    return Scope(kind, tree, '<module>', min(level, 2), None, (), False, None, python_order)


KNone = ('Const', ('none',))


def KStr(s):
    return ('Const', ('str', s))


def Op(name, detail, parts, gives=1):
    return ('Op', name, detail, gives, parts)


def is_star(e):
    return e.kind == 'Starred'


class Table:
    """From the kinds of nodes to forms."""

    def __init__(self, scope):
        self.s, self.post = scope, scope.post

    def m(self, name):
        return mangle(self.s.cls, name)

    def child(self, kind, node, name, cls=None, path=None):
        c = Scope(kind, node, name, self.s.level, self.s.cls if cls is None else cls,
                  self.s.path if path is None else path, self.post, self.s, self.s.python_order)
        self.s.children.append(c)
        return c

    def Es(self, xs):
        return [self.E(x) for x in xs]
    # value forms
    # with the location of the expression
    def E(self, n):
        return ('At', n.loc, getattr(self, 'E_' + n.kind)(n))

    def E_Constant(self, n):
        return ('Const', constant_of_node(n.value))

    def E_Name(self, n):
        if n.id == '__debug__':
            return ('Const', ('true',) if self.s.level == 0 else ('false',))
        return ('Load', None, self.m(n.id))

    def E_BinOp(self, n):
        return Op('BinaryOperation', BINARY[n.op], self.Es([n.left, n.right]))

    def E_UnaryOp(self, n):
        return Op('UnaryOperation', UNARY[n.op], [self.E(n.operand)])

    def E_Subscript(self, n):
        return Op('Subscript', None, self.Es([n.value, n.slice]))

    def E_Attribute(self, n):
        return Op('LoadAttr', self.m(n.attr), [self.E(n.value)])

    def E_Slice(self, n):
        parts = [self.E(x) if x else KNone for x in (n.lower, n.upper)] + ([self.E(n.step)] if n.step else [])
        return Op('BuildSlice', len(parts) - 2, parts)

    def groups(self, before, elts):
        out, run = [], list(before)
        if before:
            out.append(Op('BuildTuple', len(before), run))
            run = []
        for e in elts:
            if is_star(e):
                if run:
                    out.append(Op('BuildTuple', len(run), run))
                    run = []
                out.append(self.E(e.value))
            else:
                run.append(self.E(e))
        if run:
            out.append(Op('BuildTuple', len(run), run))
        return out

    def display(self, name, elts):
        if any(map(is_star, elts)):
            g = self.groups([], elts)
            return Op(name + 'Unpack', len(g), g)
        return Op(name, len(elts), self.Es(elts))

    def E_List(self, n):
        return self.display('BuildList', n.elts)

    def E_Tuple(self, n):
        return self.display('BuildTuple', n.elts)

    def E_Set(self, n):
        return self.display('BuildSet', n.elts)

    def E_Starred(self, n):
        raise Refused('InvalidStarExpr')

    def E_Await(self, n):
        raise Refused('InvalidAwait')

    def E_Dict(self, n):
        pair = lambda ks: Op('BuildMap', len(ks), [self.E(x) for kv in ks for x in kv])
        pairs = list(zip(n.keys, n.values))
        if not self.s.python_order:
            form = pair([(k, v) for k, v in pairs if k])
            for k, v in pairs:
                if not k:
                    form = Op('DictUpdate', None, [form, self.E(v)])
            return form
        i = 0
        while i < len(pairs) and pairs[i][0]:
            i += 1
        form = pair(pairs[:i])
        while i < len(pairs):
            if not pairs[i][0]:
                form = Op('DictUpdate', None, [form, self.E(pairs[i][1])])
                i += 1
            else:
                j = i
                while j < len(pairs) and pairs[j][0]:
                    j += 1
                form = Op('DictUpdate', None, [form, pair(pairs[i:j])])
                i = j
        return form

    def E_JoinedStr(self, n):
        t = joined(n.values)
        return KStr(t) if t is not None else Op('BuildString', len(n.values), self.Es(n.values))

    def E_FormattedValue(self, n):
        spec = lambda: self.E(n.format_spec) if n.format_spec else KStr('')
        parts = [spec(), self.E(n.value)] if not self.s.python_order else [self.E(n.value), spec()]
        return Op('FormatValue', n.conversion, parts)

    def E_Yield(self, n):
        return Op('YieldValue', None, [self.E(n.value) if n.value else KNone])

    def E_YieldFrom(self, n):
        return Op('YieldFrom', None, [Op('GetIter', None, [self.E(n.value)]), KNone])

    def E_Call(self, n):
        if n.func.kind == 'Attribute':
            return self.invoke('CallMethod', Op('LoadMethod', self.m(n.func.attr), [self.E(n.func.value)], 3), [], n.args, n.keywords)
        return self.invoke('CallFunction', self.E(n.func), [], n.args, n.keywords)

    def invoke(self, call, callee, before, args, keywords):
        if any(map(is_star, args)) or any(k.arg is None for k in keywords):
            if any(map(is_star, args)):
                g = self.groups(before, args)
                t = Op('BuildTupleUnpack', len(g), g)
            else:
                t = Op('BuildTuple', len(before) + len(args), list(before) + self.Es(args))
            maps, run = [], []
            for k in keywords + [None]:
                if k is not None and k.arg is not None:
                    run += [KStr(k.arg), self.E(k.value)]
                    continue
                if run:
                    maps.append(Op('BuildMap', len(run) // 2, run))
                    run = []
                if k is not None:
                    maps.append(self.E(k.value))
            if len(maps) > 1:
                maps = [Op('BuildMapForCall', len(maps), maps)]
            return Op(call + 'Ex', len(maps), [callee, t] + maps)
        parts = list(before) + self.Es(args)
        if keywords:
            parts += [self.E(k.value) for k in keywords]
            return Op(call + 'Keyword', len(parts), [callee] + parts + [('Const', ('tuple', tuple(('str', k.arg) for k in keywords)))])
        return Op(call + 'Positional', len(parts), [callee] + parts)

    def E_BoolOp(self, n):
        return ('Short', n.op, self.Es(n.values))

    def compare(self, op):
        return ('CompareOperation', COMPARE[op]) if op in COMPARE else ('TestOperation', op)

    def E_Compare(self, n):
        return ('Chain', self.E(n.left), [self.compare(o) + (self.E(c),) for o, c in zip(n.ops, n.comparators)])

    def E_IfExp(self, n):
        return ('Choice', self.B(n.test), self.E(n.body), self.E(n.orelse))

    def E_NamedExpr(self, n):
        return ('Keep', self.E(n.value), None, self.T(n.target))

    def E_Lambda(self, n):
        flags, parts = self.defaults(n.args)
        return ('Make', flags, parts, self.child('Lambda', n, '<lambda>'), '<lambda>', [])

    def comprehension(self, n, name):
        s = self.child('Comp', n, name)
        return Op('CallFunctionPositional', 1, [('Make', 0, [], s, name, []), Op('GetIter', None, [self.E(n.generators[0].iter)])])

    def E_ListComp(self, n):
        return self.comprehension(n, '<listcomp>')

    def E_SetComp(self, n):
        return self.comprehension(n, '<setcomp>')

    def E_DictComp(self, n):
        return self.comprehension(n, '<dictcomp>')

    def E_GeneratorExp(self, n):
        return self.comprehension(n, '<genexpr>')
    # tests
    def B(self, n):
        if n.kind == 'BoolOp':
            bs = [self.B(v) for v in n.values]
            return ('All', bs) if n.op == 'And' else ('Not', ('All', [('Not', b) for b in bs]))
        if n.kind == 'UnaryOp' and n.op == 'Not':
            return ('Not', self.B(n.operand))
        return ('Truth', self.E(n))
    # targets
    def T(self, n):
        if n.kind == 'Name':
            return self.store(n.id)
        if n.kind == 'Subscript':
            return ('Put', 'StoreSubscript', None, self.Es([n.value, n.slice]))
        if n.kind == 'Attribute':
            if n.attr == '__debug__':
                raise Refused('debug')
            return ('Put', 'StoreAttr', self.m(n.attr), [self.E(n.value)])
        if n.kind in ('List', 'Tuple'):
            stars = [i for i, e in enumerate(n.elts) if is_star(e)]
            if len(stars) > 1:
                raise Refused('MultipleStarArgs')
            ts = [self.T(e.value if is_star(e) else e) for e in n.elts]
            if not stars:
                return ('Unpack', 'UnpackSequence', len(ts), ts)
            b, a = stars[0], len(ts) - 1 - stars[0]
            if b > 255 or a > 255:
                raise Refused('TooManyStarUnpack')
            return ('Unpack', 'UnpackEx', b + 256 * a, ts)
        raise Refused('Assign')

    def store(self, name):
        if name == '__debug__':
            raise Refused('debug')
        return ('Store', None, self.m(name))

    def D(self, n):
        if n.kind == 'Name':
            if n.id == '__debug__':
                raise Refused('debug')
            return ('Remove', self.m(n.id))
        if n.kind == 'Subscript':
            return ('Do', 'DeleteSubscript', None, self.Es([n.value, n.slice]), 0)
        if n.kind == 'Attribute':
            if n.attr == '__debug__':
                raise Refused('debug')
            return ('Do', 'DeleteAttr', self.m(n.attr), [self.E(n.value)], 0)
        if n.kind in ('List', 'Tuple'):
            return ('Seq', [self.D(e) for e in n.elts])
        raise Refused('Delete')
    # statement forms
    def Ss(self, xs):
        return ('Seq', [self.S(x) for x in xs])

    def S(self, n):
        return ('At', n.loc, getattr(self, 'S_' + n.kind)(n))

    def S_Expr(self, n):
        return ('Into', self.E(n.value), ('Drop',))

    def S_Assign(self, n):
        v = self.E(n.value)
        ts = [self.T(t) for t in n.targets]
        for t in ts[:-1]:
            v = ('Keep', v, None, t)
        return ('Into', v, ts[-1])

    def S_AugAssign(self, n):
        t, case = n.target, BINARY[n.op]
        if t.kind == 'Name':
            load = ('Load', None, self.m(t.id))
            v = self.E(n.value)
            if t.id == '__debug__':
                raise Refused('debug')
            return ('Into', Op('BinaryOperationInplace', case, [load, v]), self.store(t.id))
        if t.kind == 'Subscript':
            return ('Augment', self.Es([t.value, t.slice]), ('Subscript', None), self.E(n.value), case, ('StoreSubscript', None))
        if t.kind == 'Attribute':
            if t.attr == '__debug__':
                raise Refused('debug')
            return ('Augment', [self.E(t.value)], ('LoadAttr', self.m(t.attr)), self.E(n.value), case, ('StoreAttr', self.m(t.attr)))
        raise Refused('Assign')

    def annotation(self, a):
        if self.post:
            import annot
            return KStr(annot.text(a))
        return self.E(a)

    def in_function(self):
        return self.s.kind in ('Function', 'Lambda', 'Comp') or self.s.kind.startswith('Hidden')

    def S_AnnAssign(self, n):
        out = []
        if n.value:
            out.append(('Into', self.E(n.value), self.T(n.target)))
        if not self.in_function():
            a = self.annotation(n.annotation)
            if n.target.kind == 'Name':
                out.append(('Into', a, ('Put', 'StoreSubscript', None, [('Load', 'ByName', '__annotations__'), KStr(self.m(n.target.id))])))
            else:
                out.append(('Into', a, ('Drop',)))
        return ('Seq', out)

    def S_Delete(self, n):
        return ('Seq', [self.D(t) for t in n.targets])

    def S_If(self, n):
        return ('Choice', self.B(n.test), self.Ss(n.body), self.Ss(n.orelse) if n.orelse else None)

    def S_While(self, n):
        return ('Loop', ('Turn', self.B(n.test), self.Ss(n.body)), self.Ss(n.orelse))

    def S_For(self, n):
        it = Op('GetIter', None, [self.E(n.iter)])
        t = self.T(n.target)
        return ('Loop', ('Each', it, t, [], self.Ss(n.body)), self.Ss(n.orelse))

    def S_Break(self, n):
        return ('Leave', 'Break', None)

    def S_Continue(self, n):
        return ('Leave', 'Continue', None)

    def S_Return(self, n):
        if not self.in_function():
            raise Refused('InvalidReturn')
        return ('Leave', 'Return', self.E(n.value) if n.value else KNone)

    def S_Try(self, n):
        b = self.Ss(n.body)
        hs = []
        for h in n.handlers:
            typ = self.E(h.type_) if h.type_ else None
            t = self.store(h.name) if h.name else ('Drop',)
            hb = self.Ss(h.body)
            if h.name and self.s.python_order:
                hb = ('Finally', hb, ('Seq', [('Into', KNone, self.store(h.name)), ('Remove', self.m(h.name))]))
            hs.append((typ, t, hb))
        return ('Try', b, hs, self.Ss(n.orelse), self.Ss(n.finalbody) if n.finalbody else None)

    def S_With(self, n):
        if not n.items:
            raise Refused('EmptyWithItems')

        def go(i):
            it = n.items[i]
            v = self.E(it.context_expr)
            t = self.T(it.optional_vars) if it.optional_vars else ('Drop',)
            if i + 1 == len(n.items):
                if not n.body:
                    raise Refused('EmptyWithBody')
                return ('With', v, t, self.Ss(n.body), n.loc, it.optional_vars and it.optional_vars.loc)
            return ('With', v, t, go(i + 1), n.loc, it.optional_vars and it.optional_vars.loc)
        return go(0)

    def S_Raise(self, n):
        if not n.exc:
            return ('Reraise',)
        if n.cause:
            return ('Do', 'Raise', 'RaiseCause', self.Es([n.exc, n.cause]), 'raise')
        return ('Do', 'Raise', 'Raise', [self.E(n.exc)], 'raise')

    def S_Assert(self, n):
        if self.s.level > 0:
            return ('Seq', [])
        b = self.B(n.test)
        msg = [self.E(n.msg)] if n.msg else []
        return ('Choice', ('Not', b), ('Do', 'Raise', 'Raise', [Op('CallFunctionPositional', len(msg), [('Load', 'Global', 'AssertionError')] + msg)], 'raise'), None)

    def S_Import(self, n):
        out = []
        for a in n.names:
            v = Op('ImportName', self.m(a.name), [('Const', ('int', 0)), KNone])
            if a.asname:
                for part in a.name.split('.')[1:]:
                    v = Op('LoadAttr', self.m(part), [v])
            out.append(('Into', v, self.store(a.asname or a.name.split('.')[0])))
        return ('Seq', out)

    def S_ImportFrom(self, n):
        star = any(a.name == '*' for a in n.names)
        if n.module == '__future__' and any(a.name == 'annotations' for a in n.names):
            self.post = True
        names = ('*',) if star else tuple(a.name for a in n.names)
        parts = [('Const', ('int', n.level)), ('Const', ('tuple', tuple(('str', x) for x in names)))]
        m = Op('ImportName', self.m(n.module), parts) if n.module else Op('ImportNameless', None, parts)
        if star:
            return ('Into', m, ('Put', 'ImportStar', None, []))
        for a in n.names:
            m = ('Keep', m, self.m(a.name), self.store(a.asname or a.name))
        return ('Into', m, ('Drop',))

    def S_Global(self, n):
        return ('Seq', [])
    S_Nonlocal = S_Pass = S_Global

    def S_TypeAlias(self, n):
        if n.name.kind != 'Name':
            raise Refused('Assign')
        return ('Into', self.alias(n), self.store(n.name.id))

    def alias(self, n):
        if n.type_params:
            return self.hidden('HiddenAlias', n, n.name.id, 0, [])
        return Op('TypeAlias', None, [self.E(n.value), Op('BuildTuple', 0, []), KStr(n.name.id)])
    # scopes within
    def defaults(self, args):
        flags, parts = 0, []
        ds = [d.default for d in args.posonlyargs + args.args if d.default]
        if ds:
            flags |= 8
            parts.append(Op('BuildTuple', len(ds), self.Es(ds)))
        ks = [d for d in args.kwonlyargs if d.default]
        if ks:
            flags |= 4
            parts.append(Op('BuildMap', len(ks), [x for d in ks for x in (KStr(d.f['def'].arg), self.E(d.default))]))
        return flags, parts

    def annotations(self, n):
        out = [KStr('return'), self.annotation(n.returns)] if n.returns else []
        a = n.args
        for p in [d.f['def'] for d in a.posonlyargs + a.args + a.kwonlyargs] + [a.vararg, a.kwarg]:
            if p and p.annotation:
                out += [KStr(self.m(p.arg)), self.annotation(p.annotation)]
        return [Op('BuildMap', len(out) // 2, out)] if out else []

    def make_function(self, n, flags, parts):
        s = self.child('Function', n, n.name, path=self.s.path + (n.name, '<locals>'))
        s.qual = '.'.join(self.s.path + (n.name,))
        ann = self.annotations(n)
        f = ('Make', flags | (2 if ann else 0), parts, s, s.qual, ann)
        doc, _ = split_doc(n.body, self.s.level)
        return ('Keep', f, None, ('Under', 'StoreAttr', '__doc__', KStr(doc))) if doc is not None else f

    def make_class(self, n, where, params):
        path = where.path
        body_of = where.node.body if where.kind in ('Program', 'Single', 'Block', 'Function', 'Class') else []
        if declared_global(body_of, where.cls, mangle(where.cls, n.name)) == 'Global':
            path = ()
        s = self.child('Class', n, n.name, cls=n.name, path=path + (n.name,))
        s.qual = '.'.join(s.path)
        f = ('Make', 16 if params else 0, params, s, n.name, [])
        return self.invoke('CallFunction', Op('LoadBuildClass', None, []), [f, KStr(n.name)], n.bases, n.keywords)

    def decorated(self, ds, v):
        for d in reversed(ds):
            v = Op('CallFunctionPositional', 1, [d, v])
        return v

    def hidden(self, kind, n, name, flags, parts):
        s = self.child(kind, n, f'<generic parameters of {name}>')
        s.given = flags
        return Op('CallFunctionPositional', len(parts), [('Make', 0, [], s, s.name, [])] + parts)

    def define(self, n):
        if n.type_params and not self.s.python_order:
            raise Refused('type parameters')
        ds = self.Es(n.decorator_list)
        if n.kind == 'FunctionDef':
            flags, parts = self.defaults(n.args)
            v = self.hidden('HiddenDef', n, n.name, flags, parts) if n.type_params else self.make_function(n, flags, parts)
        else:
            v = self.hidden('HiddenClass', n, n.name, 0, []) if n.type_params else self.make_class(n, self.s, [])
        return self.decorated(ds, v)

    def S_FunctionDef(self, n):
        return ('Into', self.define(n), self.store(n.name))
    S_ClassDef = S_FunctionDef

    def params(self, n):
        out = []
        for p in n.type_params:
            if p.kind != 'TypeVar':
                raise Refused('type parameters')
            v = Op('TypeVarWithBound', None, [self.E(p.bound), KStr(p.name)]) if p.bound else Op('TypeVar', None, [KStr(p.name)])
            out.append(('Keep', v, None, self.store(p.name)))
        return Op('BuildTuple', len(out), out)
    # bodies
    def body(self):
        s, n, k = self.s, self.s.node, self.s.kind
        ret = lambda v: ('Leave', 'Return', v)
        if k in ('Program', 'Class', 'Function'):
            doc, at = split_doc(n.body, s.level)
            rest = n.body[at:]
            ann = [('Do', 'SetupAnnotation', None, [], 0)] if find_ann(rest) else []
            if k == 'Program':
                first = [('Into', KStr(doc), ('Store', 'Global', '__doc__'))] if doc is not None else []
                return ('Seq', first + ann + [self.Ss(rest), ret(KNone)])
            if k == 'Function':
                return ('Seq', [self.Ss(rest)] + ([] if n.body and n.body[-1].kind == 'Return' else [ret(KNone)]))
            first = [('Into', ('Load', 'Global', '__name__'), ('Store', 'ByName', '__module__')),
                     ('Into', KStr(s.qual), ('Store', 'ByName', '__qualname__')),
                     ('Into', KStr(doc) if doc is not None else KNone, ('Store', 'ByName', '__doc__'))]
            return ('Seq', first + ann + [self.Ss(rest), ('ClassEnd',)])
        if k in ('Expression', 'Lambda'):
            return ret(self.E(n.body))
        if k in ('Single', 'Block'):
            out, returned = [], False
            for i, x in enumerate(n.body):
                last = i + 1 == len(n.body)
                returned = last and (x.kind == 'Expr' or k == 'Block' and x.kind in ('FunctionDef', 'ClassDef'))
                if x.kind == 'Expr' and (last or k == 'Single'):
                    v = self.E(x.value)
                    p = ('Put', 'PrintExpr', None, [])
                    if k == 'Block':
                        out.append(ret(('At', x.loc, v)))
                    else:
                        out.append(ret(('Keep', v, None, p)) if last else ('Into', v, p))
                elif k == 'Block' and last and x.kind in ('FunctionDef', 'ClassDef'):
                    out.append(ret(('At', x.loc, ('Keep', self.define(x), None, self.store(x.name)))))
                else:
                    out.append(self.S(x))
            return ('Seq', out + ([] if returned else [ret(KNone)]))
        if k == 'Comp':
            if n.kind == 'GeneratorExp':
                return ('Seq', [self.clauses(n), ret(KNone)])
            return ret(('Gather', {'ListComp': 'BuildList', 'SetComp': 'BuildSet', 'DictComp': 'BuildMap'}[n.kind], self.clauses(n)))
        if k == 'HiddenDef':
            parts = [('Load', 'Fast', x) for b, x in ((8, '.defaults'), (4, '.kwdefaults')) if s.given & b] + [self.params(n)]
            return ret(self.make_function(n, s.given | 16, parts))
        if k == 'HiddenClass':
            # LoadBuildClass comes first, then params (an operand of MakeFunction)
            return ret(self.make_class(n, s.parent, [self.params(n)]))
        if k == 'HiddenAlias':
            t = self.params(n)
            v = self.E(n.value)
            return ret(('Swap', 'TypeAlias', None, t, v, [KStr(n.name.id)]))
        raise AssertionError(k)

    def clauses(self, n):
        depth = len(n.generators)

        def go(i):
            if i == depth:
                if n.kind == 'DictComp':
                    return ('Append', 'MapAdd', depth, self.Es([n.key, n.value]))
                if n.kind == 'GeneratorExp':
                    return ('Into', Op('YieldValue', None, [self.E(n.elt)]), ('Drop',))
                return ('Append', 'ListAppend' if n.kind == 'ListComp' else 'SetAdd', depth, [self.E(n.elt)])
            g = n.generators[i]
            if g.is_async:
                raise Refused('NotImplementedYet')
            it = ('Load', 'Fast', '.0') if i == 0 else Op('GetIter', None, [self.E(g.iter)])
            t = self.T(g.target)
            return ('Each', it, t, [self.B(c) for c in g.ifs], go(i + 1))
        return go(0)


# ---------------------------------------------------------------- RUN

NORMAL, BREAK, CONTINUE = ('Normal',), ('Break',), ('Continue',)


def values(w, parts):
    out = []
    for p in parts:
        out += value(w, p)
    return out


def value(w, f):
    """The values that a value form gives (a list; one but for LoadMethod). Raise and Stop go through."""
    k = f[0]
    if k == 'At':
        return value(w, f[2])
    if k == 'Const':
        return [const(f[1])]
    if k == 'Load':
        return w.ask(('access', 'Load', f[2], None, w.kind(f[1], f[2], 'Load'), None), ('gives', 1))
    if k == 'Op':
        return w.op(f[1], f[2], values(w, f[4]), f[3])
    if k == 'Swap':
        a = value(w, f[3])
        b = value(w, f[4])
        return w.op(f[1], f[2], b + a + values(w, f[5]), 1)
    if k == 'Make':
        vs = values(w, f[2] + f[5])
        closure, flag = w.closure(f[3]) if w.full else ([], 0)
        return w.op('MakeFunction', f[1] | flag, vs + closure + [('child', f[3]), str_const(f[4])], 1)
    if k == 'Short':
        for p in f[2][:-1]:
            v = value(w, p)
            if w.truth(v[0]) == (f[1] == 'Or'):
                return v
        return value(w, f[2][-1])
    if k == 'Chain':
        left = value(w, f[1])
        for i, (op, case, p) in enumerate(f[2]):
            right = value(w, p)
            r = w.op(op, case, left + right)
            if i + 1 < len(f[2]) and not w.truth(r[0]):
                return r
            left = right
        return r
    if k == 'Choice':
        return value(w, f[2] if test(w, f[1]) else f[3])
    if k == 'Keep':
        v = value(w, f[1])
        give(w, f[3], v[0] if f[2] is None else w.op('ImportFrom', f[2], v)[0])
        return v
    if k == 'Gather':
        old, w.coll = w.coll, w.op(f[1], 0, [])[0]
        stmt(w, f[2])
        c, w.coll = w.coll, old
        return [c]
    raise AssertionError(k)


def test(w, f):
    k = f[0]
    if k == 'Truth':
        return w.truth(value(w, f[1])[0])
    if k == 'Not':
        return not test(w, f[1])
    if k == 'All':
        return all(test(w, b) for b in f[1])
    raise AssertionError(k)


def give(w, t, v):
    k = t[0]
    if k == 'Store':
        w.ask(('access', 'Store', t[2], v, w.kind(t[1], t[2], 'Store'), None), ('gives', 0))
    elif k == 'Put':
        w.op(t[1], t[2], [v] + values(w, t[3]), 0)
    elif k == 'Under':
        w.op(t[1], t[2], value(w, t[3]) + [v], 0)
    elif k == 'Unpack':
        for x, u in zip(w.op(t[1], t[2], [v], len(t[3])), t[3]):
            give(w, u, x)
    elif k == 'Drop':
        pass
    else:
        raise AssertionError(k)


def end(w, f):
    """The end of a statement form, a Raise included."""
    try:
        return stmt(w, f)
    except Raise as r:
        return ('Raise', r.v)


def go_on(e):
    if e[0] == 'Raise':
        raise Raise(e[1])
    return e


def stmt(w, f):
    """The end but Raise and Stop, which go through."""
    k = f[0]
    if k == 'At':
        return stmt(w, f[2])
    if k == 'Seq':
        for g in f[1]:
            e = stmt(w, g)
            if e != NORMAL:
                return e
        return NORMAL
    if k == 'Do':
        w.ask(('op', f[1], f[2], tuple(values(w, f[3]))), ('raise',) if f[4] == 'raise' else ('gives', f[4]))
        return NORMAL
    if k == 'Into':
        give(w, f[2], value(w, f[1])[0])
        return NORMAL
    if k == 'Remove':
        w.ask(('access', 'Delete', f[1], None, w.kind(None, f[1], 'Delete'), None), ('gives', 0))
        return NORMAL
    if k == 'Choice':
        g = f[2] if test(w, f[1]) else f[3]
        return stmt(w, g) if g else NORMAL
    if k == 'Turn':
        while True:
            asks = w.asks
            go = test(w, f[1])
            assert w.asks > asks  # a turn takes an answer
            if not go:
                return NORMAL
            e = stmt(w, f[2])
            if e not in (NORMAL, CONTINUE):
                return e
    if k == 'Each':
        it = value(w, f[1])[0]
        while True:
            n = w.n
            got = w.next(it)
            assert w.n > n
            if got is None:
                return NORMAL
            give(w, f[2], got[0])
            if all(test(w, b) for b in f[3]):
                e = stmt(w, f[4])
                if e not in (NORMAL, CONTINUE):
                    return e
    if k == 'Loop':
        e = stmt(w, f[1])
        if e == NORMAL:
            return stmt(w, f[2])
        return NORMAL if e == BREAK else e
    if k == 'Leave':
        return (f[1],) if f[2] is None else (f[1], value(w, f[2])[0])
    if k == 'ClassEnd':
        return ('Return', w.class_end() if w.full else NONE)
    if k == 'Reraise':
        if w.slot is not None:
            raise Raise(w.slot)
        w.ask(('op', 'Raise', 'Reraise', ()), ('raise',))
    if k == 'Append':
        w.op(f[1], None, [w.coll] + values(w, f[3]), 0)
        return NORMAL
    if k == 'Augment':
        held = values(w, f[1])
        now = w.op(f[2][0], f[2][1], held)
        r = w.op('BinaryOperationInplace', f[4], now + value(w, f[3]))
        w.op(f[5][0], f[5][1], r + held, 0)
        return NORMAL
    if k == 'Try':
        if f[4] is not None:
            return stmt(w, ('Finally', ('Try', f[1], f[2], f[3], None), f[4]))
        old = w.slot
        e = end(w, f[1])
        if e == NORMAL:
            return stmt(w, f[3])
        if e[0] != 'Raise':
            return e
        w.slot = e[1]
        r = end(w, ('Handlers', e[1], f[2]))
        w.slot = old
        return go_on(r)
    if k == 'Handlers':
        for typ, t, b in f[2]:
            if typ is None or w.truth(w.op('TestOperation', 'ExceptionMatch', [f[1]] + value(w, typ))[0]):
                give(w, t, f[1])
                return stmt(w, b)
        raise Raise(f[1])
    if k == 'Finally':
        old = w.slot
        r = end(w, f[1])
        if r[0] == 'Raise':
            w.slot = r[1]
        e = end(w, f[2])
        w.slot = old
        return go_on(r if e == NORMAL else e)
    if k == 'With':
        x, v = w.op('SetupWith', None, value(w, f[1]), 2)
        old = w.slot
        r = end(w, ('Entered', f[2], v, f[3]))
        if r[0] == 'Raise':
            w.slot = r[1]
        try:
            yes = w.truth(w.op('WithCleanupStart', None, [x, r[1] if r[0] == 'Raise' else NONE])[0])
        finally:
            w.slot = old
        return NORMAL if yes and r[0] == 'Raise' else go_on(r)
    if k == 'Entered':
        give(w, f[1], f[2])
        return stmt(w, f[3])
    raise AssertionError(k)


def meaning(scope, source, full=None):
    """Answers the World after the run, with .outcome. `full` gives closures (agree.Full), None for the plain view."""
    w = World(source)
    w.full = full is not None
    w.coll = None
    w.kind = lambda *a: None
    if full:
        w.closure, w.class_end, w.kind = full.closure, lambda: full.class_end(scope, w), lambda *a: full.kind(scope, *a)
    try:
        e = stmt(w, scope.form)
        w.outcome = ('Returned', e[1]) if e[0] == 'Return' else ('Returned', NONE) if e == NORMAL else ('Bad', e)
    except Raise as r:
        w.outcome = ('Raised', r.v)
    except Stop:
        w.outcome = ('Stopped',)
    return w
