"""Answers, values, events and outcomes, which the machine and the meaning of a tree share.

answer   ('G', k) Gives(k), k > 0 | ('D',) Done | ('T', bool) Truth | ('E',) End | ('R',) Raised
value    ('c', constant) | ('g', n, i) given(n, i) | ('child', Code or Scope) | ('cells', ((name, place), ..))
event    ('op', name, detail, operands) | ('truth', v) | ('next', v)
         | ('access', usage, name, operand or None, kind, place or None)
outcome  ('Returned', v) | ('Raised', v) | ('Stopped',) | ('Wrong', why) | ('Leaked', why) | ('Going',)
fit      ('gives', k) | ('truth',) | ('next',) | ('raise',)
"""
DONE, END, RAISED, YES, NO = ('D',), ('E',), ('R',), ('T', True), ('T', False)
# what an operation of k values is answered by
def Gives(k):
    return ('G', k) if k else DONE


def fits(fit, a):
    if a == RAISED:
        return True
    if fit[0] == 'gives':
        return a == Gives(fit[1])
    if fit[0] == 'truth':
        return a[0] == 'T'
    if fit[0] == 'next':
        return a == ('G', 1) or a == END
    return False  # ('raise',): Raised alone


def const(c):
    return ('c', c)


NONE = const(('none',))


def bool_const(b):
    return const(('true',) if b else ('false',))


def str_const(s):
    return const(('str', s))


class Stop(Exception):
    pass


class Raise(Exception):
    def __init__(self, v):
        self.v = v


class World:
    """The answers left, the events so far, the slot. `source(n, event, fit)` is answer n or None."""

    def __init__(self, source):
        self.source = source if callable(source) else (lambda n, e, f, s=list(source): s[n] if n < len(s) else None)
        self.n, self.events, self.slot, self.asks = 0, [], None, 0

    def ask(self, event, fit):
        """List the event, take an answer. Answers the given values, a bool, or None for End."""
        self.events.append(event)
        self.asks += 1
        a = self.source(self.n, event, fit)
        if a is None or not fits(fit, a):
            raise Stop()
        n, self.n = self.n, self.n + 1
        if a == RAISED:
            raise Raise(('g', n, 0))
        if a[0] == 'T':
            return a[1]
        if a == END:
            return None
        return [('g', n, i) for i in range(a[1] if a[0] == 'G' else 0)]

    def op(self, name, detail, operands, gives=1):
        return self.ask(('op', name, detail, tuple(operands)), ('gives', gives))

    def truth(self, v):
        return self.ask(('truth', v), ('truth',))

    def next(self, v):
        return self.ask(('next', v), ('next',))


def show_value(v):
    if v is None:
        return '-'
    if v[0] == 'c':
        return show_const(v[1])
    if v[0] == 'g':
        return f'#{v[1]}.{v[2]}'
    if v[0] == 'child':
        return '<child %s>' % getattr(v[1], 'obj_name', getattr(v[1], 'name', '?'))
    return 'cells' + repr([n for n, _ in v[1]])


def show_const(c):
    if c[0] in ('none', 'true', 'false', 'ellipsis'):
        return c[0].capitalize()
    if c[0] == 'tuple':
        return '(' + ', '.join(map(show_const, c[1])) + (',)' if len(c[1]) == 1 else ')')
    if c[0] == 'code':
        return '<code %s>' % c[1].obj_name
    return repr(c[1])


def show_event(e):
    if e[0] == 'op':
        return f"{e[1]}{'' if e[2] is None else ' ' + str(e[2])}[{', '.join(map(show_value, e[3]))}]"
    if e[0] == 'access':
        return f"{e[1]} {e[2]}{'' if e[3] is None else ' <- ' + show_value(e[3])} ({e[4]})"
    return f"{e[0]} {show_value(e[1])}"


def show_outcome(o):
    return o[0] + ''.join(' ' + (show_value(x) if isinstance(x, tuple) else str(x)) for x in o[1:])


def show_answer(a):
    return {'G': 'g%d' % a[1] if len(a) > 1 else '', 'D': 'd', 'E': 'e', 'R': 'r', 'T': 't' if a == YES else 'f'}[a[0]]


def show_script(s):
    return ','.join(map(show_answer, s))
