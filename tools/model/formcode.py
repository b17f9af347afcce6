"""The code of the forms of meaning.py, one block of code for each. It uses nothing of emit.py.

`compile_forms` gives a code without a depth. Where it equals that of emit.py, the code of each kind of node is that of its form.
"""
from code_objects import Code, NEW_LOCALS, IS_GENERATOR, HAS_VARARGS, HAS_VARKEYWORDS, IS_OPTIMIZED
from machine import KIND, CASES, JUMPS
from meaning import body, mangle, Refused
from full import Full
UNCOND = {'Jump', 'Break', 'Continue', 'ReturnValue', 'ReturnConst', 'Raise'}
ACC = {('Load', 'Fast'): 'LoadFast', ('Load', 'ByName'): 'LoadNameAny', ('Load', 'Global'): 'LoadGlobal', ('Load', 'Deref'): 'LoadDeref',
       ('Load', 'ClassDeref'): 'LoadClassDeref', ('Store', 'Fast'): 'StoreFast', ('Store', 'ByName'): 'StoreLocal', ('Store', 'Global'): 'StoreGlobal',
       ('Store', 'Deref'): 'StoreDeref', ('Delete', 'Fast'): 'DeleteFast', ('Delete', 'ByName'): 'DeleteLocal', ('Delete', 'Global'): 'DeleteGlobal',
       ('Delete', 'Deref'): 'DeleteDeref'}


class Label:
    pass


class Emit:
    def __init__(self, scope, full):
        self.s, self.full = scope, full
        self.consts, self.names, self.vars = [], [], []
        self.cells, self.free = full.cells(scope), full.free(scope)
        self.blocks = [[]]
        self.at = {}
        self.loop = None
        self.generator = False

    def put(self, table, x):
        if x not in table:
            table.append(x)
        return table.index(x)

    def e(self, op, detail=None):
        k = KIND[op]
        if k == 'Const':
            a = self.put(self.consts, detail)
        elif k == 'Name':
            a = self.put(self.names, detail)
        elif k == 'Var':
            a = self.put(self.vars, detail)
        elif k == 'Cell':
            a = (self.cells + self.free).index(detail)
        elif k in CASES:
            a = CASES[k].index(detail)
        else:
            a = detail if detail is not None else 0
        if op in ('YieldValue', 'YieldFrom'):
            self.generator = True
        self.blocks[-1].append((op, a, self.full.loc))

    def place(self, label):
        self.blocks.append([])
        self.at[label] = len(self.blocks) - 1

    def access(self, usage, fixed, name):
        self.e(ACC[usage, self.full.kind(self.s, fixed, name, usage)], name)

    def ret(self, f):
        """[V]; return_value: a constant form is returned by ReturnConst, any other by ReturnValue."""
        if f[0] == 'At':
            self.full.loc = f[1]
            self.ret(f[2])
        elif f[0] == 'Const':
            self.e('ReturnConst', f[1])
        else:
            self.v(f)
            self.e('ReturnValue')

    def vs(self, parts):
        for p in parts:
            self.v(p)

    def v(self, f):
        k = f[0]
        if k == 'At':
            self.full.loc = f[1]
            self.v(f[2])
        elif k == 'Const':
            self.e('LoadConst', f[1])
        elif k == 'Load':
            self.access('Load', f[1], f[2])
        elif k == 'Op':
            self.vs(f[4])
            self.e(f[1], f[2])
        elif k == 'Swap':
            self.v(f[3])
            self.v(f[4])
            self.e('Rotate2')
            self.vs(f[5])
            self.e(f[1], f[2])
        elif k == 'Make':
            self.vs(f[2])
            code = code_of(f[3], self.full)
            self.vs(f[5])
            flags = f[1]
            if code.freevars:
                for n in code.freevars:
                    self.e('LoadClosure', n)
                self.e('BuildTuple', len(code.freevars))
                flags |= 1
            self.e('LoadConst', ('code', code))
            self.e('LoadConst', ('str', f[4]))
            self.e('MakeFunction', flags)
        elif k == 'Short':
            end = Label()
            for p in f[2][:-1]:
                self.v(p)
                self.e('JumpIfTrueOrPop' if f[1] == 'Or' else 'JumpIfFalseOrPop', end)
            self.v(f[2][-1])
            self.place(end)
        elif k == 'Chain':
            A, B = Label(), Label()
            self.v(f[1])
            for op, case, p in f[2][:-1]:
                self.v(p)
                self.e('Duplicate')
                self.e('Rotate3')
                self.e(op, case)
                self.e('JumpIfFalseOrPop', B)
            op, case, p = f[2][-1]
            self.v(p)
            self.e(op, case)
            if len(f[2]) > 1:
                self.e('Jump', A)
                self.place(B)
                self.e('Rotate2')
                self.e('Pop')
                self.place(A)
        elif k == 'Choice':
            self.choice(f, self.v)
        elif k == 'Keep':
            self.v(f[1])
            self.e(*(('Duplicate',) if f[2] is None else ('ImportFrom', f[2])))
            self.t(f[3])
        elif k == 'Gather':
            self.e(f[1], 0)
            self.st(f[2])
        else:
            raise AssertionError(k)

    def choice(self, f, part):
        A, E = Label(), Label()
        if f[3] is None:
            self.test(f[1], False, A)
            part(f[2])
            self.place(A)
        else:
            self.test(f[1], False, E)
            part(f[2])
            self.e('Jump', A)
            self.place(E)
            part(f[3])
            self.place(A)

    def test(self, f, c, B):
        k = f[0]
        if k == 'Truth':
            self.v(f[1])
            self.e('JumpIfTrue' if c else 'JumpIfFalse', B)
        elif k == 'Not':
            self.test(f[1], not c, B)
        elif not c:
            for b in f[1]:
                self.test(b, False, B)
        else:
            end = Label()
            for b in f[1][:-1]:
                self.test(b, False, end)
            self.test(f[1][-1], True, B)
            self.place(end)

    def t(self, t):
        k = t[0]
        if k == 'Store':
            self.access('Store', t[1], t[2])
        elif k == 'Put':
            self.vs(t[3])
            self.e(t[1], t[2])
        elif k == 'Under':
            self.v(t[3])
            self.e('Rotate2')
            self.e(t[1], t[2])
        elif k == 'Unpack':
            self.e(t[1], t[2])
            for u in t[3]:
                self.t(u)
        elif k == 'Drop':
            self.e('Pop')
        else:
            raise AssertionError(k)

    def st(self, f):
        k = f[0]
        if k == 'At':
            self.full.loc = f[1]
            self.st(f[2])
        elif k == 'Seq':
            for g in f[1]:
                self.st(g)
        elif k == 'Do':
            self.vs(f[3])
            self.e(f[1], f[2])
        elif k == 'Into':
            self.v(f[1])
            self.t(f[2])
        elif k == 'Remove':
            self.access('Delete', None, f[1])
        elif k == 'Choice':
            self.choice(f, self.st)
        elif k == 'Turn':
            W, E = Label(), Label()
            self.place(W)
            self.test(f[1], False, E)
            old, self.loop = self.loop, (self.loop[0], W)
            self.st(f[2])
            self.loop = old
            self.e('Jump', W)
            self.place(E)
        elif k == 'Each':
            L, E = Label(), Label()
            self.v(f[1])
            self.place(L)
            self.e('ForIter', E)
            self.t(f[2])
            for b in f[3]:
                self.test(b, False, L)
            old, self.loop = self.loop, (self.loop[0], L) if self.loop else None
            self.st(f[4])
            self.loop = old
            self.e('Jump', L)
            self.place(E)
        elif k == 'Loop':
            A = Label()
            old, self.loop = self.loop, (A, None)
            self.e('SetupLoop')
            self.st(f[1])
            self.e('PopBlock')
            self.loop = old
            self.st(f[2])
            self.place(A)
        elif k == 'Leave':
            if f[1] == 'Return':
                self.ret(f[2])
            elif self.loop is None:
                raise Refused(f[1] + ' outside loop')
            else:
                self.e(f[1], self.loop[f[1] == 'Continue'])
        elif k == 'ClassEnd':
            if '__class__' in self.cells:
                self.e('LoadClosure', '__class__')
                self.e('Duplicate')
                self.e('StoreLocal', '__classcell__')
                self.e('ReturnValue')
            else:
                self.e('ReturnConst', ('none',))
        elif k == 'Reraise':
            self.e('Raise', 'Reraise')
        elif k == 'Append':
            self.vs(f[3])
            self.e(f[1], f[2])
        elif k == 'Augment':
            self.vs(f[1])
            two = len(f[1]) == 2
            self.e('Duplicate2' if two else 'Duplicate')
            self.e(*f[2])
            self.v(f[3])
            self.e('BinaryOperationInplace', f[4])
            self.e('Rotate3' if two else 'Rotate2')
            self.e(*f[5])
        elif k == 'Try':
            H, E, Z = Label(), Label(), Label()
            fin = f[4] is not None
            if fin:
                self.e('SetupFinally', Z)
            self.e('SetupExcept', H)
            self.st(f[1])
            self.e('PopBlock')
            self.e('Jump', E)
            self.place(H)
            for typ, t, b in f[2]:
                N = Label()
                if typ:
                    self.e('Duplicate')
                    self.v(typ)
                    self.e('TestOperation', 'ExceptionMatch')
                    self.e('JumpIfFalse', N)
                self.t(t)
                self.st(b)
                self.e('PopException')
                if fin:
                    self.e('PopBlock')
                    self.e('EnterFinally')
                self.e('Jump', Z)
                self.place(N)
            self.e('Raise', 'Reraise')
            self.place(E)
            self.st(f[3])
            if fin:
                self.e('PopBlock')
                self.e('EnterFinally')
            self.place(Z)
            if fin:
                self.st(f[4])
                self.e('EndFinally')
        elif k == 'Finally':
            C = Label()
            self.e('SetupFinally', C)
            self.st(f[1])
            self.e('PopBlock')
            self.e('EnterFinally')
            self.place(C)
            self.st(f[2])
            self.e('EndFinally')
        elif k == 'With':
            Z = Label()
            own, inner = f[4:]
            self.full.loc = own
            self.v(f[1])
            self.full.loc = own
            self.e('SetupWith', Z)
            if inner:
                self.full.loc = inner
            self.t(f[2])
            self.st(f[3])
            self.full.loc = own
            self.e('PopBlock')
            self.e('EnterFinally')
            self.place(Z)
            self.e('WithCleanupStart')
            self.e('WithCleanupFinish')
        else:
            raise AssertionError(k)


def size(n):
    return 1 if n <= 0xff else 2 if n <= 0xffff else 3 if n <= 0xffffff else 4


def units_of(blocks, at, level):
    if level > 0:
        cut = []
        for b in blocks:
            i = next((i for i, x in enumerate(b) if x[0] in UNCOND), None)
            cut.append(b if i is None else b[:i + 1])
        blocks = cut
    flat = [(l, op, a) for b in blocks for op, a, l in b]
    width = [1 if isinstance(a, Label) else size(a) for _, _, a in flat]
    while True:
        start, off, i = [], 0, 0
        for b in blocks:
            start.append(off)
            for _ in b:
                off += width[i]
                i += 1
        grew = False
        for i, (_, _, a) in enumerate(flat):
            if isinstance(a, Label) and size(start[at[a]]) > width[i]:
                width[i] += 1
                grew = True
        if not grew:
            break
    out, locs = [], []
    for (l, op, a), w in zip(flat, width):
        locs += [l] * w
        a = start[at[a]] if isinstance(a, Label) else a
        for j in reversed(range(w)):
            out.append(('ExtendedArg' if j else op, (a >> (8 * j)) & 255))
    return tuple(out), tuple(locs)


def code_of(scope, full):
    e = Emit(scope, full)
    k, n = scope.kind, scope.node
    line = 1 if scope.parent is None else full.loc[0]
    if scope.parent is None:
        full.loc = (1, 1)
    flags, pos, arg, kw, params = 0, 0, 0, 0, []
    if scope.parent is None:
        flags = NEW_LOCALS
    elif k != 'Class':
        flags = NEW_LOCALS | IS_OPTIMIZED
    if k in ('Function', 'Lambda'):
        a = n.args
        p = lambda d: mangle(scope.cls, d.f['def'].arg)
        params = [p(d) for d in a.posonlyargs + a.args] + [p(d) for d in a.kwonlyargs if not d.default] + [p(d) for d in a.kwonlyargs if d.default]
        pos, arg, kw = len(a.posonlyargs), len(a.posonlyargs) + len(a.args), len(a.kwonlyargs)
        if a.vararg:
            params.append(mangle(scope.cls, a.vararg.arg))
            flags |= HAS_VARARGS
        if a.kwarg:
            params.append(mangle(scope.cls, a.kwarg.arg))
            flags |= HAS_VARKEYWORDS
    if k == 'Comp':
        pos, arg, params = 1, 1, ['.0']
    if k.startswith('Hidden'):
        params = [x for b, x in ((8, '.defaults'), (4, '.kwdefaults')) if scope.given & b]
        pos = arg = len(params)
    e.vars += params
    if k in ('Function', 'Lambda'):
        e.consts.append(('none',))
    e.st(scope.form)
    if e.generator:
        flags |= IS_GENERATOR
    c2a = tuple(params.index(c) if c in params else -1 for c in e.cells) if any(c in params for c in e.cells) else None
    units, locs = units_of(e.blocks, e.at, scope.level)
    code = Code(flags, pos, arg, kw, 'p', line, scope.name, 2**31, units, locs, tuple(e.consts), tuple(e.names), tuple(e.vars),
                tuple(e.cells), tuple(e.free), c2a)
    object.__setattr__(code, '_blocks', (e.blocks, e.at))
    return code


def compile_forms(tree, mode='exec', level=0, python_order=True, full=None, scope=None):
    return code_of(scope or body(tree, mode, level, python_order), full or Full(tree, python_order))
