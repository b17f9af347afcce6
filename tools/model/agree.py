"""Whether a code agrees with a scope of a tree, in the plain or the full view, on answers that are given or drawn by chance."""
import random
from answers import *
from machine import machine
from meaning import meaning, Refused


def view_value(v, full):
    if v is not None and v[0] == 'cells':
        return ('cells', tuple(n for n, _ in v[1])) if full else NONE
    return v


def view(m, full):
    """Events and outcome of a machine run, as the plain or the full view shows them."""
    out = []
    for i, e in enumerate(m.w.events):
        if i in m.silent and not full:
            continue
        if e[0] == 'access':
            e = e[:3] + (view_value(e[3], full), e[4] if full else None, None)
        elif e[0] == 'op' and e[1] == 'MakeFunction':
            ops = tuple(view_value(v, True) for v in e[3])
            flags = e[2]
            if flags & 1 and not full:
                ops, flags = ops[:-3] + ops[-2:], flags & ~1
            e = ('op', e[1], flags, ops)
        out.append(e)
    o = m.outcome
    if o[0] == 'Returned':
        o = ('Returned', view_value(o[1], full))
    return out, o


def view_meaning(w, full):
    if full:
        return w.events, w.outcome
    return [e[:4] + (None, None) if e[0] == 'access' else e for e in w.events], w.outcome


class Differ(Exception):
    def __init__(self, why, script=None, left=None, right=None, code=None, scope=None):
        self.why, self.script, self.left, self.right, self.code, self.scope = why, script, left, right, code, scope
        super().__init__(why)


class Agree:
    def __init__(self, rng=None, scripts=12, full=None, limit=60, collect=None, depth_limit=True):
        self.rng, self.k, self.full, self.limit = rng or random.Random(1), scripts, full, limit
        self.memo, self.worst, self.runs, self.collect = {}, (0, None), 0, collect
        self.most_backs, self.between, self.per_ask = 0, 0, 0
    # sources
    def source(self, log):
        """A source that looks at the event and chooses; the answers go on `log`."""
        rng = self.rng
        p_raise = rng.choice([0, 0, .05, .05, .2, .4])
        p_end = rng.choice([.2, .4, .7])
        p_true = rng.choice([.2, .5, .8])
        p_odd = rng.choice([0, 0, .01])
        limit = rng.choice([self.limit, self.limit, rng.randrange(12)])

        def choose(n, event, fit):
            if n >= limit:
                return None
            if rng.random() < p_odd:
                a = rng.choice([DONE, END, Gives(1), Gives(2), YES, NO])
            elif fit[0] == 'raise' or rng.random() < p_raise:
                a = RAISED
            elif fit[0] == 'gives':
                a = Gives(fit[1])
            elif fit[0] == 'truth':
                a = YES if rng.random() < p_true else NO
            else:
                a = END if rng.random() < p_end else Gives(1)
            log.append(a)
            return a
        return choose

    def scripts(self, code, scope):
        for i in range(self.k):
            log = []
            if i % 4 == 3:
                machine(code, self.source(log), answers=self.limit)
            else:
                meaning(scope, self.source(log), self.full)
            # answers that are left over
            if self.rng.random() < .1:
                log += [Gives(1)] * 3
            yield log

    def value(self, a, b):
        if a is None or b is None:
            return a is b
        if a[0] == 'child' and b[0] == 'child':
            try:
                self.pair(a[1], b[1])
                return True
            except Differ as d:
                self.inner = d
                return False
        return a == b

    def event(self, a, b):
        if a[0] != b[0]:
            return False
        if a[0] == 'op':
            return a[1:3] == b[1:3] and len(a[3]) == len(b[3]) and all(map(self.value, a[3], b[3]))
        if a[0] == 'access':
            return a[1:3] == b[1:3] and a[4:] == b[4:] and self.value(a[3], b[3])
        return self.value(a[1], b[1])

    def one(self, code, scope, script):
        self.inner = None
        m = machine(code, script)
        w = meaning(scope, script, self.full)
        self.runs += 1
        if self.collect is not None:
            self.collect.update(self.kinds(m))
        used = m.steps / m.bound
        if used > self.worst[0]:
            self.worst = (used, (code, script, m.steps, m.bound))
        self.most_backs = max(self.most_backs, m.most_backs)
        self.between = max(self.between, m.between / len(code.instructions))
        self.per_ask = max(self.per_ask, m.steps / (max(1, m.w.asks) * len(code.instructions)))
        left, right = view(m, self.full is not None), view_meaning(w, self.full is not None)

        def fail(why):
            raise Differ(why, script, left, right, code, scope)
        if left[1][0] in ('Wrong', 'Leaked', 'Going'):
            fail('machine ' + str(left[1]))
        if right[1][0] == 'Bad':
            fail('meaning ends with ' + str(right[1]))
        if len(left[0]) != len(right[0]):
            fail('as many events')
        for i, (a, b) in enumerate(zip(left[0], right[0])):
            if not self.event(a, b):
                if self.inner:
                    raise self.inner
                fail(f'event {i}')
        if left[1][0] != right[1][0] or (len(left[1]) > 1 and not self.value(left[1][1], right[1][1])):
            if self.inner:
                raise self.inner
            fail('outcome')

    def kinds(self, m):
        return {(e[0], e[1]) if e[0] in ('op', 'access') else (e[0],) for e in m.w.events} | {m.outcome[:1]}

    def pair(self, code, scope, scripts=None):
        """Raises Differ where a difference is seen. Children met in runs, and those among the constants, likewise."""
        key = (id(code), id(scope))
        if key in self.memo:
            if self.memo[key] is not True:
                raise self.memo[key]
            return
        self.memo[key] = True
        try:
            for s in (scripts if scripts is not None else self.scripts(code, scope)):
                self.one(code, scope, s)
            codes, scopes = code.children(), scope.direct()
            for c in scopes:
                if not any(self.holds(k, c) for k in codes):
                    if len(codes) == len(scopes):
                        self.pair(codes[scopes.index(c)], c)
                    raise Differ('child scope without code: ' + c.name, code=code, scope=scope)
            for k in codes:
                if not any(self.holds(k, c) for c in scopes):
                    raise Differ('child code without scope: ' + k.obj_name, code=code, scope=scope)
        except Differ as d:
            self.memo[key] = d
            raise

    def holds(self, code, scope):
        # a short cut, checked by nobody
        if code.obj_name != scope.name:
            return False
        try:
            self.pair(code, scope)
            return True
        except Differ:
            return False


def agree(code, scope, scripts=None, full=None, rng=None, k=12):
    a = Agree(rng, k, full)
    a.pair(code, scope, scripts)
    return a


def explain(d):
    out = [f'DIFFER: {d.why}']
    if d.script is not None:
        out.append('script ' + show_script(d.script))
    if d.code is not None and d.left is not None:
        from machine import fetcher, KIND
        out.append(f'code {d.code.obj_name} ' + '; '.join(f'{a} {op} {arg}' for a, _, op, arg in d.code.decoded()))
    for name, side in (('machine', d.left), ('meaning', d.right)):
        if side:
            out.append(f'{name}: ' + '; '.join(map(show_event, side[0])) + ' => ' + show_outcome(side[1]))
    return '\n'.join(out)
