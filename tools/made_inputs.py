#!/usr/bin/env python3
"""Makes the inputs that speed.py times: two series of sources of growing length, and rows whose cost may grow faster.

usage: made_inputs.py NAME N

Writes one input on standard output: the source of N statements of a series, `plain` or `scopes`, or the rows of one of
the other names, whose N is told by --help. A source of a series is one paragraph again and again. Rows are made directly,
and not from a source, since a parser of Python takes no source that nests as deep as rows may, and since many rows are to
stand at one place.
"""
import argparse
import collections
import json

# Ten statements, in one scope and with 25 names, the same in each paragraph.
PLAIN = '''\
while f(a, x=1) < b and not c:
    a.b = {1: c, **d}[2:e]
    if a is None: break
    elif g: continue
(x, *y), z.w = h(*i, **j), f"{a!r}: {b:>3}"
del q, r.s[t]
n: k = (u if a in b else -v) ** 2 @ w
o += p[(m := l)]
print(x, y, z.w)
'''

# Twenty statements in ten scopes, with names that each paragraph has for itself: those that end in a number.
SCOPES = '''\
def make_0(a, b=1, *args, c=None, **more):
    """Makes a function that makes a function."""
    total = [a]
    def add_0(x, y=b):
        nonlocal total
        total = [x * y + z for z in total if z is not c]
        return lambda w: (w, total, args, more)
    return add_0
@register(make_0, kind="box")
class Box_0(Base, kind=make_0):
    size = 4
    def __init__(self, items=(), *, name="box_0"):
        super().__init__(name)
        self.__items = {key: value for key, value in items}
    @property
    def first_0(self):
        try:
            with self.lock as held, open(self.name):
                return next(it for it in self.__items if held(it))
        except (KeyError, StopIteration) as error:
            log(f"{self.size}: {error!r}")
        finally:
            self.close()
box_0 = Box_0(make_0(Box_0.size), name=str(0))
'''

# The paragraph of a series, and its statements.
SERIES = {"plain": (PLAIN, 10), "scopes": (SCOPES, 20)}


def source_of(series, statements):
    """A source of so many statements, a multiple of those of the paragraph of the series."""
    paragraph, count = SERIES[series]
    return "".join(paragraph.replace("_0", "_%d" % at) for at in range(statements // count))


class Rows:
    """Rows in the making. Each method adds rows, all at the same place if no other is said, and gives the number of the last."""

    def __init__(self):
        self.rows = []

    def add(self, *row):
        """Adds one row."""
        self.rows.append(row)
        return len(self.rows) - 1

    def name(self, text):
        """A name that is loaded or stored."""
        return self.add("Name", 1, 1, text)

    def statement(self, value):
        """An expression as a statement."""
        return self.add("Expr", 1, 1, value)

    def use(self, text):
        """A name as a statement."""
        return self.statement(self.name(text))

    def nothing(self):
        """`pass`"""
        return self.add("Pass", 1, 1)

    def assign(self, text, value):
        """An assignment to a name."""
        return self.add("Assign", 1, 1, [self.name(text)], value)

    def arguments(self, names=()):
        """Parameters without defaults."""
        made = [self.add("ArgWithDefault", self.add("Arg", 1, 1, it, None), None) for it in names]
        return self.add("Arguments", [], made, None, [], None)

    def function(self, name, body, parameters=(), types=()):
        """A function, with names of parameters and of type parameters."""
        made = [self.add("TypeVar", 1, 1, it, None) for it in types]
        return self.add("FunctionDef", 1, 1, name, self.arguments(parameters), body, [], None, made)

    def nest(self, names, innermost):
        """Functions of these names within one another, the last of them around a body."""
        body = innermost
        for name in reversed(names):
            body = [self.function(name, body)]
        return body

    def function_value(self, value, row=1):
        """`lambda: VALUE`"""
        return self.add("Lambda", row, 1, self.arguments(), value)

    def integer(self, value):
        """A whole number."""
        return self.add("Constant", 1, 1, self.add("int", str(value)))

    def module(self, body):
        """The text of the rows of a program of these statements."""
        self.add("Module", body)
        return json.dumps(self.rows, separators=(",", ":"))


def numbered(front, count):
    """So many names of one length."""
    return ["%s%06d" % (front, at) for at in range(count)]


def constants_at_one_place(n):
    """Functions that differ in one constant alone."""
    rows = Rows()
    return rows.module([rows.statement(rows.function_value(rows.integer(at))) for at in range(n)])


def nested_at_one_place(n):
    """Functions that give functions, which differ in one constant of the inner one alone."""
    rows = Rows()
    return rows.module([rows.statement(rows.function_value(rows.function_value(rows.integer(at)))) for at in range(n)])


def tuples_at_one_place(n):
    """Functions that give tuples of one number, which alone differs."""
    rows = Rows()
    tuples = (rows.add("Constant", 1, 1, rows.add("tuple", [rows.add("int", str(at))])) for at in range(n))
    return rows.module([rows.statement(rows.function_value(it)) for it in tuples])


def constants_at_places(n):
    """The same functions, each in a line of its own."""
    rows = Rows()
    return rows.module([rows.statement(rows.function_value(rows.integer(at), at + 1)) for at in range(n)])


def parameters(n):
    """A function of n parameters."""
    rows = Rows()
    return rows.module([rows.function("f", [rows.nothing()], numbered("p", n))])


def type_parameters(n):
    """A function of n type parameters."""
    rows = Rows()
    return rows.module([rows.function("f", [rows.nothing()], (), numbered("T", n))])


# The hash in the program's maps is the kit's `FoldHasher`, which begins with this and multiplies by that at all times.
SEED, MULTIPLIER, WIDE = 0x243F6A8885A308D3, 0x9E3779B97F4A7C15, (1 << 64) - 1


def folded(state, data):
    """The state after 16 bytes: the halves of a product, joined by xor."""
    first, second = (int.from_bytes(it, "little") for it in (data[:8], data[8:]))
    product = (first ^ state) * (second ^ MULTIPLIER)
    return product >> 64 ^ product & WIDE


def hash_of(name):
    """The hash of a name of 32 bytes. That of the byte which is hashed behind each name is left out."""
    data = name.encode()
    return folded(folded(SEED + len(data), data[:16]), data[16:])


def colliding(count):
    """So many names of 32 bytes, of which all have one hash.

    Bytes 16 to 23 are the state after the bytes before, so a factor of the last product is 0, whatever comes behind.
    """
    for at in range(1 << 32):
        front = b"n%015d" % at
        state = folded(SEED + 32, front).to_bytes(8, "little")
        if state.isalnum():
            return ["%s%s%08d" % (front.decode(), state.decode(), it) for it in range(count)]
    return []


def names_that_collide(n):
    """Uses of n names with one hash."""
    rows = Rows()
    return rows.module([rows.use(it) for it in colliding(n)])


def names_that_differ(n):
    """Uses of n names of the same length."""
    rows = Rows()
    return rows.module([rows.use("n%031d" % it) for it in range(n)])


def tries(n):
    """`try` with `finally`, n of them within one another."""
    rows = Rows()
    body = rows.use("a")
    for _ in range(n):
        body = rows.add("Try", 1, 1, [body], [], [], [rows.use("b")])
    return rows.module([body])


def handlers(n):
    """`try` with `except`, n of them within one another."""
    rows = Rows()
    body = rows.use("a")
    for _ in range(n):
        body = rows.add("Try", 1, 1, [body], [rows.add("ExceptHandler", None, None, [rows.use("b")])], [], [])
    return rows.module([body])


def withs(n):
    """`with`, n of them within one another."""
    rows = Rows()
    body = rows.use("a")
    for _ in range(n):
        body = rows.add("With", 1, 1, [rows.add("WithItem", rows.name("b"), None)], [body])
    return rows.module([body])


def whiles(n):
    """`while`, n of them within one another."""
    rows = Rows()
    body = rows.use("a")
    for _ in range(n):
        body = rows.add("While", 1, 1, rows.name("b"), [body], [])
    return rows.module([body])


def fors(n):
    """`for`, n of them within one another."""
    rows = Rows()
    body = rows.use("a")
    for _ in range(n):
        body = rows.add("For", 1, 1, rows.name("b"), rows.name("c"), [body], [])
    return rows.module([body])


def private_names(n):
    """A class with a name of n bytes that uses n private names."""
    rows = Rows()
    body = [rows.use(it) for it in numbered("__", n)]
    return rows.module([rows.add("ClassDef", 1, 1, "C" * n, [], [], body, [], [])])


def handed(names, n):
    """So many names of a function, which the innermost of n functions within it uses."""
    rows = Rows()
    made = numbered("v", names)
    inner = rows.nest(numbered("f", n), [rows.use(it) for it in made])
    return rows.module([rows.function("f", [rows.assign(it, rows.integer(0)) for it in made] + inner)])


def names_handed_on(n):
    """2,000 names handed through n functions."""
    return handed(2000, n)


def as_many_handed_on(n):
    """n names handed through n functions."""
    return handed(n, n)


def lifted(n):
    """n names that a walrus stores in the innermost of n comprehensions."""
    rows = Rows()
    parts = [rows.add("NamedExpr", 1, 1, rows.name(it), rows.name("a")) for it in numbered("v", n)]
    value = rows.add("Tuple", 1, 1, parts)
    for _ in range(n):
        clause = rows.add("Comprehension", rows.name("b"), rows.name("c"), [], False)
        value = rows.add("ListComp", 1, 1, value, [clause])
    return rows.module([rows.function("f", [rows.statement(value)])])


def unbound_names(n):
    """n names that nothing binds, in the innermost of n functions."""
    rows = Rows()
    return rows.module(rows.nest(numbered("f", n), [rows.use(it) for it in numbered("v", n)]))


def formatted(n):
    """f-strings, n of them within one another."""
    rows = Rows()
    value = rows.name("a")
    for _ in range(n):
        value = rows.add("JoinedStr", 1, 1, [rows.add("FormattedValue", 1, 1, value, "None", None)])
    return rows.module([rows.statement(value)])


def generators(n):
    """Generators, n of them within one another."""
    rows = Rows()
    value = rows.name("a")
    for _ in range(n):
        clause = rows.add("Comprehension", rows.name("b"), rows.name("c"), [], False)
        value = rows.add("GeneratorExp", 1, 1, value, [clause])
    return rows.module([rows.statement(value)])


def lambdas_in_long(n):
    """n lambdas, each in a line of its own, in a function with a name of n bytes."""
    rows = Rows()
    body = [rows.statement(rows.function_value(rows.name("a"), at + 1)) for at in range(n)]
    return rows.module([rows.function("f" * n, body)])


def functions(n):
    """Functions with names of 60 bytes, n of them within one another."""
    rows = Rows()
    return rows.module(rows.nest(numbered("f" * 54, n), [rows.nothing()]))


def rounds(n):
    """A function of n `if`, each in the body of the one before it, and of so many `return` that their jumps widen one after the other.

    A jump has three units from offset 2^16 on. The outermost ends there, each other one unit before the one around it, and each
    jump that widens moves the ends of those within it on by one, so n rounds choose the widths.
    """
    rows = Rows()
    body = [rows.add("Return", 1, 1, None) for _ in range(2 ** 16 + 1 - 4 * n)]
    for at in range(n):
        body = [rows.add("If", 1, 1, rows.name("a"), body, [])]
        if at < n - 1:
            body.append(rows.add("Return", 1, 1, None))
    return rows.module([rows.function("f", body)])


# What an input is in words, how many n are, and the function that gives its rows.
Growing = collections.namedtuple("Growing", "text sizes make")

WIDE_SIZES, DEEP_SIZES = (1000, 2000, 4000, 8000), (125, 250, 500, 1000)

GROWING = {
    "places": Growing("n lambdas `lambda: I`, each in a line of its own (for comparison)", WIDE_SIZES, constants_at_places),
    "constants": Growing("n lambdas `lambda: I` at one place", WIDE_SIZES, constants_at_one_place),
    "nested": Growing("n lambdas `lambda: lambda: I` at one place", WIDE_SIZES, nested_at_one_place),
    "tuples": Growing("n lambdas `lambda: (I,)` at one place", WIDE_SIZES, tuples_at_one_place),
    "parameters": Growing("n parameters of one function", WIDE_SIZES, parameters),
    "types": Growing("n type parameters of one function", WIDE_SIZES, type_parameters),
    "names": Growing("n names of 32 bytes (for comparison)", WIDE_SIZES, names_that_differ),
    "collisions": Growing("n names of 32 bytes that have one hash", WIDE_SIZES, names_that_collide),
    "finally": Growing("`try` with `finally`, n within one another", DEEP_SIZES, tries),
    "except": Growing("`try` with `except`, n within one another", DEEP_SIZES, handlers),
    "with": Growing("`with`, n within one another", DEEP_SIZES, withs),
    "while": Growing("`while`, n within one another", DEEP_SIZES, whiles),
    "for": Growing("`for`, n within one another", DEEP_SIZES, fors),
    "private": Growing("n private names in a class with a name of n bytes", (500, 1000, 2000, 4000), private_names),
    "handed": Growing("2,000 names handed through n functions", (25, 50, 100, 200), names_handed_on),
    "as-many": Growing("n names handed through n functions", (75, 150, 300, 600), as_many_handed_on),
    "lifted": Growing("n names that `:=` stores, in the innermost of n comprehensions", (75, 150, 300, 600), lifted),
    "unbound": Growing("n names that nothing binds, in the innermost of n functions", DEEP_SIZES, unbound_names),
    "f-strings": Growing("f-strings, n within one another", (62, 125, 250, 500), formatted),
    "generators": Growing("generators, n within one another", DEEP_SIZES, generators),
    "lambdas": Growing("n lambdas in a function with a name of n bytes", (500, 1000, 2000, 4000), lambdas_in_long),
    "rounds": Growing("65,000 `return` within n `if`, whose jumps widen one after the other", DEEP_SIZES, rounds),
    "functions": Growing("functions with names of 60 bytes, n within one another", DEEP_SIZES, functions),
}


def main():
    known = "\n".join("  %-12s %s" % (name, made.text) for name, made in GROWING.items())
    parser = argparse.ArgumentParser(
        prog="made_inputs.py",
        description="Makes the inputs that speed.py times.",
        epilog="Rows:\n" + known,
        formatter_class=argparse.RawDescriptionHelpFormatter,
    )
    parser.add_argument("name", metavar="NAME", choices=[*SERIES, *GROWING], help="a series, %s, or the name of rows, as below" % " or ".join(SERIES))
    parser.add_argument("size", metavar="N", type=int, help="the statements of a series; n of the others")
    words = parser.parse_args()
    made = source_of(words.name, words.size) if words.name in SERIES else GROWING[words.name].make(words.size)
    print(made.rstrip("\n"))


if __name__ == "__main__":
    main()
