"""The machine that runs a code object over answers, and the one that runs blocks before they are laid out.

It uses nothing of emit.py. The table below gives for each instruction the kind of its operand, what it takes, what it gives, and its class.
"""
from answers import World, Stop, Raise, const, NONE
CASES = {
    'Unary': 'Plus Minus Not Invert'.split(),
    'Binary': 'Add Subtract Multiply MatrixMultiply Divide FloorDivide Modulo Power Lshift Rshift Or Xor And'.split(),
    'Compare': 'Less Greater NotEqual Equal LessOrEqual GreaterOrEqual'.split(),
    'Test': 'In NotIn Is IsNot ExceptionMatch'.split(),
    'RaiseKind': 'Raise RaiseCause Reraise'.split(),
    'Conversion': 'None Str Ascii Repr'.split()}
bits = lambda n: bin(n).count('1')
N = lambda k: (lambda a: k)
# operations and peeks: operand kind, taken, given
OPS = {
    'ImportName': ('Name', 2, 1), 'ImportNameless': (None, 2, 1), 'ImportStar': (None, 1, 0),
    'Subscript': (None, 2, 1), 'StoreSubscript': (None, 3, 0), 'DeleteSubscript': (None, 2, 0),
    'LoadAttr': ('Name', 1, 1), 'StoreAttr': ('Name', 2, 0), 'DeleteAttr': ('Name', 1, 0), 'LoadMethod': ('Name', 1, 3),
    'UnaryOperation': ('Unary', 1, 1), 'BinaryOperation': ('Binary', 2, 1), 'BinaryOperationInplace': ('Binary', 2, 1),
    'CompareOperation': ('Compare', 2, 1), 'TestOperation': ('Test', 2, 1), 'GetIter': (None, 1, 1),
    'CallFunctionPositional': ('Count', lambda n: n + 1, 1), 'CallFunctionKeyword': ('Count', lambda n: n + 2, 1),
    'CallFunctionEx': ('Bit', lambda k: 2 + k, 1),
    'CallMethodPositional': ('Count', lambda n: n + 3, 1), 'CallMethodKeyword': ('Count', lambda n: n + 4, 1),
    'CallMethodEx': ('Bit', lambda k: 4 + k, 1),
    'BuildMap': ('Count', lambda n: 2 * n, 1), 'DictUpdate': (None, 2, 1), 'BuildSlice': ('Bit', lambda k: 2 + k, 1),
    'PrintExpr': (None, 1, 0), 'LoadBuildClass': (None, 0, 1),
    'UnpackSequence': ('Count', 1, lambda n: n), 'UnpackEx': ('Pair', 1, lambda a: (a & 255) + (a >> 8) + 1),
    'FormatValue': ('Conversion', 2, 1), 'MakeFunction': ('Flags', lambda f: 2 + bits(f), 1),
    'YieldValue': (None, 1, 1), 'YieldFrom': (None, 2, 1), 'SetupAnnotation': (None, 0, 0), 'TypeAlias': (None, 3, 1),
    'TypeVar': (None, 1, 1), 'TypeVarWithBound': (None, 2, 1)}
for _n in 'BuildString BuildTuple BuildList BuildSet BuildTupleUnpack BuildListUnpack BuildSetUnpack BuildMapForCall'.split():
    OPS[_n] = ('Count', lambda n: n, 1)


ACCESS = {}
for _k, _l, _s, _d in [('Fast', 'LoadFast', 'StoreFast', 'DeleteFast'), ('ByName', 'LoadNameAny', 'StoreLocal', 'DeleteLocal'),
                       ('Global', 'LoadGlobal', 'StoreGlobal', 'DeleteGlobal'), ('Deref', 'LoadDeref', 'StoreDeref', 'DeleteDeref')]:
    ACCESS[_l] = (_k, 'Load')
    ACCESS[_s] = (_k, 'Store')
    ACCESS[_d] = (_k, 'Delete')


ACCESS['LoadClassDeref'] = ('ClassDeref', 'Load')
TABLE_OF = {'Fast': 'Var', 'ByName': 'Name', 'Global': 'Name', 'Deref': 'Cell', 'ClassDeref': 'Cell'}
JUMPS = set('JumpIfTrue JumpIfFalse JumpIfTrueOrPop JumpIfFalseOrPop ForIter Jump Break Continue SetupExcept SetupFinally SetupWith'.split())
KIND = {n: k for n, (k, _, _) in OPS.items()}
KIND.update({n: TABLE_OF[k] for n, (k, u) in ACCESS.items()})
KIND.update({n: 'Label' for n in JUMPS})
KIND.update(LoadConst='Const', ReturnConst='Const', LoadClosure='Cell', ImportFrom='Name', ListAppend='Count', SetAdd='Count',
            MapAdd='Count', Raise='RaiseKind')
for _n in 'Pop Rotate2 Rotate3 Duplicate Duplicate2 Nop SetupLoop PopBlock PopException EnterFinally EndFinally WithCleanupStart WithCleanupFinish ReturnValue'.split():
    KIND[_n] = None


# Wrong
class Bad(Exception):
    pass


# Leaked
class Leak(Exception):
    pass


class Done(Exception):
    def __init__(self, outcome):
        self.outcome = outcome


class Tables:
    def __init__(self, constants, names, varnames, cells, free):
        self.constants, self.names, self.varnames, self.cells = constants, names, varnames, list(cells) + list(free)


class Machine:
    """fetch(place) -> (op, arg, next place) or None; label(arg) -> place or None."""

    def __init__(self, fetch, label, tables, source, start, bound, limit, type_params=True):
        self.fetch, self.label, self.t, self.w = fetch, label, tables, World(source)
        self.place, self.bound, self.limit, self.steps = start, bound, limit, 0
        self.stack, self.blocks, self.silent = [], [], set()  # silent: places in events of silent StoreLocal
        self.flag_limit = 32 if type_params else 16
        self.seen_max = 0  # greatest height seen
        self.backs = [0]  # backward moves since the last answer, the most
        self.between = 0  # most steps between two answers

    def run(self):
        last_n, since, backs, self.most_backs = 0, 0, 0, 0
        try:
            while True:
                if self.bound is not None and self.steps >= self.bound:
                    return ('Going',)
                self.steps += 1
                since += 1
                before = self.place
                self.step()
                if self.w.n != last_n:
                    last_n, since, backs = self.w.n, 0, 0
                if isinstance(before, int) and isinstance(self.place, int) and self.place <= before:
                    backs += 1
                    self.most_backs = max(self.most_backs, backs)
                self.between = max(self.between, since)
                self.seen_max = max(self.seen_max, len(self.stack))
                if self.limit is not None and len(self.stack) > self.limit:
                    raise Bad('height above max_stackdepth')
        except Stop:
            return ('Stopped',)
        except Bad as e:
            return ('Wrong', str(e))
        except Leak as e:
            return ('Leaked', str(e))
        except Done as d:
            return d.outcome
    # values
    def pop(self):
        if not self.stack:
            raise Bad('too few values')
        return self.stack.pop()

    def popn(self, n):
        if len(self.stack) < n:
            raise Bad('too few values')
        out = self.stack[len(self.stack) - n:]
        del self.stack[len(self.stack) - n:]
        return out

    def cut(self, h):
        if h > len(self.stack):
            raise Bad('cut above the present height')
        del self.stack[h:]

    def entry(self, table, i, what):
        if not 0 <= i < len(table):
            raise Bad('operand outside ' + what)
        return table[i]

    def clean(self, *vs):
        for v in vs:
            if v[0] == 'cells':
                raise Leak('cells used')

    def goto(self, arg):
        p = self.label(arg)
        if p is None:
            raise Bad('label outside the code')
        return p
    # unwinding
    def unwind(self, reason):
        if reason[0] in ('Break', 'Continue') and not any(b[0] == 'Loop' for b in self.blocks):
            raise Bad('no loop')
        while self.blocks:
            b = self.blocks.pop()
            kind, height = b[0], b[1]
            if kind == 'Loop' and reason[0] == 'Continue':
                self.blocks.append(b)
                self.place = self.goto(reason[1])
                return
            self.cut(height)
            if kind == 'Loop' and reason[0] == 'Break':
                self.place = self.goto(reason[1])
                return
            if kind == 'Except' and reason[0] == 'Raise':
                self.blocks.append(('ExceptHandler', height, self.w.slot))
                self.w.slot = reason[1]
                self.stack.append(reason[1])
                self.place = b[2]
                return
            if kind == 'Finally':
                self.blocks.append(('FinallyHandler', height, self.w.slot, reason))
                if reason[0] == 'Raise':
                    self.w.slot = reason[1]
                self.place = b[2]
                return
            if kind in ('ExceptHandler', 'FinallyHandler'):
                self.w.slot = b[2]
        if reason[0] == 'Return':
            raise Done(('Returned', reason[1]))
        raise Done(('Raised', reason[1]))

    def top_handler(self):
        if not self.blocks or self.blocks[-1][0] != 'FinallyHandler':
            raise Bad('no FinallyHandler on top')
        return self.blocks[-1]

    def go_on(self, reason, nxt):
        if reason is None:
            self.place = nxt
        else:
            self.unwind(reason)

    def step(self):
        got = self.fetch(self.place)
        if got is None:
            raise Bad('place outside the code')
        op, arg, nxt = got
        try:
            self.do(op, arg, nxt)
        except Raise as r:
            self.unwind(('Raise', r.v))

    def operand(self, op, arg):
        """Range check; answers the detail that an event shows."""
        kind, t = KIND[op], self.t
        if kind is None:
            if arg != 0:
                raise Bad('operand of an instruction without one')
            return None
        if kind == 'Const':
            return self.entry(t.constants, arg, 'constants')
        if kind == 'Name':
            return self.entry(t.names, arg, 'names')
        if kind == 'Var':
            return self.entry(t.varnames, arg, 'varnames')
        if kind == 'Cell':
            return self.entry(t.cells, arg, 'cells')
        if kind == 'Label':
            return self.goto(arg)
        if kind in CASES:
            return self.entry(CASES[kind], arg, kind)
        top = {'Count': 2**30, 'Flags': self.flag_limit, 'Pair': 2**16, 'Bit': 2}[kind]
        if not 0 <= arg < top:
            raise Bad('operand outside its range')
        return arg

    def do(self, op, arg, nxt):
        w, st = self.w, self.stack
        if op not in KIND:
            raise Bad('no such instruction ' + op)
        d = self.operand(op, arg)
        if op in ('LoadConst', 'ReturnConst'):
            v = ('child', d[1]) if d[0] == 'code' else const(d)
            if op == 'ReturnConst':
                return self.unwind(('Return', v))
            st.append(v)
        elif op == 'LoadClosure':
            st.append(('cells', ((d, arg),)))
        elif op in ACCESS:
            kind, usage = ACCESS[op]
            place = arg if KIND[op] == 'Cell' else None
            v = self.pop() if usage == 'Store' else None
            event = ('access', usage, d, v, kind, place)
            if v is not None and v[0] == 'cells':
                if op == 'StoreLocal' and d == '__classcell__':
                    self.silent.add(len(w.events))
                    w.events.append(event)
                else:
                    raise Leak('cells stored')
            else:
                st.extend(w.ask(event, ('gives', 1 if usage == 'Load' else 0)))
        elif op in OPS:
            _, taken, given = OPS[op]
            k = taken(arg) if callable(taken) else taken
            g = given(arg) if callable(given) else given
            vs = self.popn(k)
            if op == 'BuildTuple' and vs and all(v[0] == 'cells' for v in vs):
                st.append(('cells', sum((v[1] for v in vs), ())))
            else:
                if op == 'MakeFunction' and arg & 1:
                    if vs[-3][0] != 'cells':
                        raise Leak('closure is not cells')
                    self.clean(*(vs[:-3] + vs[-2:]))
                else:
                    self.clean(*vs)
                got = w.op(op, d, vs, g)
                st.extend(reversed(got) if op in ('UnpackSequence', 'UnpackEx') else got)
        elif op in ('ListAppend', 'SetAdd', 'MapAdd'):
            vs = self.popn(2 if op == 'MapAdd' else 1)
            if len(st) < arg + 1:
                raise Bad('too few values')
            coll = st[-1 - arg]
            self.clean(coll, *vs)
            w.op(op, None, [coll] + vs, 0)
        elif op == 'ImportFrom':
            if not st:
                raise Bad('too few values')
            self.clean(st[-1])
            st.extend(w.op(op, d, [st[-1]], 1))
        elif op == 'Pop':
            self.pop()
        elif op == 'Rotate2':
            a, b = self.popn(2)
            st.extend([b, a])
        elif op == 'Rotate3':
            a, b, c = self.popn(3)
            st.extend([c, a, b])
        elif op == 'Duplicate':
            a, = self.popn(1)
            st.extend([a, a])
        elif op == 'Duplicate2':
            a, b = self.popn(2)
            st.extend([a, b, a, b])
        elif op == 'Nop':
            pass
        elif op in ('JumpIfTrue', 'JumpIfFalse', 'JumpIfTrueOrPop', 'JumpIfFalseOrPop'):
            v = self.pop()
            self.clean(v)
            if w.truth(v) == ('True' in op):
                if op.endswith('OrPop'):
                    st.append(v)
                self.place = d
                return
        elif op == 'ForIter':
            if not st:
                raise Bad('too few values')
            self.clean(st[-1])
            got = w.next(st[-1])
            if got is None:
                st.pop()
                self.place = d
                return
            st.extend(got)
        elif op == 'Jump':
            self.place = d
            return
        elif op in ('Break', 'Continue'):
            return self.unwind((op, arg))
        elif op == 'ReturnValue':
            return self.unwind(('Return', self.pop()))
        elif op == 'Raise':
            vs = self.popn({'Raise': 1, 'RaiseCause': 2, 'Reraise': 0}[d])
            self.clean(*vs)
            if d == 'Reraise' and w.slot is not None:
                raise Raise(w.slot)
            w.ask(('op', 'Raise', d, tuple(vs)), ('raise',))
        elif op == 'SetupLoop':
            self.blocks.append(('Loop', len(st)))
        elif op == 'SetupExcept':
            self.blocks.append(('Except', len(st), d))
        elif op == 'SetupFinally':
            self.blocks.append(('Finally', len(st), d))
        elif op == 'SetupWith':
            v = self.pop()
            self.clean(v)
            h = len(st) + 1
            st.extend(w.op(op, None, [v], 2))
            self.blocks.append(('Finally', h, d))
        elif op == 'PopBlock':
            if not self.blocks or self.blocks[-1][0] not in ('Loop', 'Except', 'Finally'):
                raise Bad('PopBlock')
            self.blocks.pop()
        elif op == 'PopException':
            if not self.blocks or self.blocks[-1][0] != 'ExceptHandler':
                raise Bad('PopException')
            w.slot = self.blocks.pop()[2]
        elif op == 'EnterFinally':
            self.blocks.append(('FinallyHandler', len(st), w.slot, None))
        elif op == 'EndFinally':
            b = self.top_handler()
            self.blocks.pop()
            w.slot = b[2]
            return self.go_on(b[3], nxt)
        elif op == 'WithCleanupStart':
            b = self.top_handler()
            if not st:
                raise Bad('too few values')
            # looked at in place: the exit stays while it is asked
            x = st[-1]
            self.clean(x)
            e = b[3][1] if b[3] is not None and b[3][0] == 'Raise' else NONE
            st[-1:] = w.op(op, None, [x, e], 1)
        elif op == 'WithCleanupFinish':
            b = self.top_handler()
            self.blocks.pop()
            w.slot = b[2]
            v = self.pop()
            self.clean(v)
            yes = w.truth(v)
            return self.go_on(None if yes and b[3] is not None and b[3][0] == 'Raise' else b[3], nxt)
        else:
            raise Bad('no rule for ' + op)
        self.place = nxt


def fetcher(code):
    units = code.instructions
    cache = {}

    def fetch(p):
        if p in cache:
            return cache[p]
        arg, q, got = 0, p, None
        while q < len(units):
            op, byte = units[q]
            arg = ((arg << 8) | byte) & 0xFFFFFFFF
            q += 1
            if op != 'ExtendedArg':
                got = (op, arg, q)
                break
        cache[p] = got
        return got
    return fetch


def machine(code, source, answers=None, limit_depth=True):
    """Answers the Machine after its run, with .outcome. `answers` is the number for the step bound (None: unbounded)."""
    if answers is None and not callable(source):
        answers = len(source)
    units = len(code.instructions)
    bound = None if answers is None else (answers + 1) * (2 * units + 2)
    fetch = code.__dict__.get('_fetch')
    if fetch is None:
        fetch = fetcher(code)
        object.__setattr__(code, '_fetch', fetch)
    m = Machine(fetch, lambda a: a if a < units else None,
                Tables(code.constants, code.names, code.varnames, code.cellvars, code.freevars),
                source, 0, bound, code.max_stackdepth if limit_depth else None)
    m.outcome = m.run()
    return m


def block_machine(blocks, tables, source, steps):
    """Blocks are (list of (op, operand, target number or None), next or None); places are (block, index)."""

    def settle(b, i):
        while i >= len(blocks[b][0]):
            b, i = blocks[b][1], 0
            if b is None:
                return None
        return (b, i)

    def fetch(p):
        if p is None:
            return None
        b, i = p
        op, arg, target = blocks[b][0][i]
        return op, (target if op in JUMPS else arg), settle(b, i + 1)
    m = Machine(fetch, lambda a: None if a is None else settle(a, 0), tables, source, settle(0, 0), steps, None)
    m.outcome = m.run()
    return m
