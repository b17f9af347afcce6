"""Codes and what is wrong with them, which `code_cases.py` writes as cases.

It wants a Python of 3.12 or later, which reads type parameters. Each source below is compiled by tools/model, which also
finds the flaws (`sound.py`). Each code of it is a case, and then codes that differ from one of these in a unit, an operand,
the depth or a table.
A line has the depth, how many constants, names, varnames, cellvars and freevars there are, the units, each as the number of
its instruction and its byte, and `Yes` or each flaw that the model finds. The code of a case has as many entries in its
tables, whatever they are.
"""
import pathlib
import random
import sys
from dataclasses import replace

sys.path.insert(0, str(pathlib.Path(__file__).resolve().parent.parent / "python"))
sys.path.insert(0, str(pathlib.Path(__file__).resolve().parent / "model"))
import code_files
import instr
import compile_rows
import sound
from py2rows import rows_text
from pyc import codefile
from pyc.code_object import Code

SOURCES = [
    "f(a + 1)",
    "while c:\n if d: break\n if e: continue\n f()\nelse: g()",
    "for x in y:\n for z in x:\n  if z: continue\n  break",
    "try: f()\nexcept A as e: g(e)\nexcept B: h()\nelse: i()",
    "try: f()\nfinally: g()",
    "with a as b, c: d()",
    "for x in y:\n try:\n  with a as b: continue\n finally: f(x)",
    "while a:\n try: break\n except B: continue\n finally: c()",
    "def f(a, *b, c=1, **d):\n def g():\n  nonlocal a\n  a = c\n  return d\n return g",
    "class A(B, c=D):\n x = 1\n def f(self): return super().f()",
    "x = [y for z in w if z for y in z]",
    "def f():\n x = yield 1\n yield from x",
    "a, *b = c = d[1:2]\na.b += {1: 2, **c}",
    "a = b < c < d and not e or (f if g else h)",
    "def f(a):\n def g[T: a](x: T = a, *, y=1): return a\n return g",
    "class A[T](B): x = T",
]
NUMBERS = {row[0]: number for number, row in enumerate(instr._ROWS)}
NAMES = [row[0] for row in instr._ROWS]
TABLES = ["constants", "names", "varnames", "cellvars", "freevars"]
COUNT = 132
AT_MOST = 24  # codes with one kind of flaw


def codes():
    """The codes of each source, at a level of its own."""
    for number, source in enumerate(SOURCES):
        words = ["exec", str(number % 3), "m.py"]
        status, _, fault, code = compile_rows.run(words, rows_text(source).encode(), True)
        assert status == 0, fault
        yield from (each for each in compile_rows.all_codes(code) if len(each.instructions) < 60)


def with_unit(code, place, unit):
    units = list(code.instructions)
    units[place] = unit
    return replace(code, instructions=tuple(units))


def changed(random, code):
    """A code that differs in one thing."""
    place = random.randrange(len(code.instructions))
    op, byte = code.instructions[place]
    kind = random.choice(["unit", "unit", "operand", "operand", "depth", "table", "missing", "prefix"])
    if kind == "unit":
        other = random.choice(["Pop", "Nop", "PopBlock", "Jump", "Break", "Continue", "SetupFinally", "Duplicate", "ReturnValue",
                               "EndFinally", "WithCleanupFinish", "WithCleanupStart", "SetupLoop", "SetupExcept", "SetupWith",
                               "EnterFinally", "PopException", "Raise", "JumpIfTrueOrPop", "ForIter"])
        return with_unit(code, place, (other, byte if instr.has_target(op) else random.randrange(3)))
    if kind == "operand":
        return with_unit(code, place, (op, random.choice([byte + 1, max(byte, 1) - 1, random.randrange(len(code.instructions) + 1)])))
    if kind == "depth":
        return replace(code, max_stackdepth=max(0, code.max_stackdepth + random.choice([-2, -1, -1, 1])))
    if kind == "missing":
        return replace(code, instructions=code.instructions[:place] + code.instructions[place + 1:])
    if kind == "prefix":
        return with_unit(code, place, ("ExtendedArg", random.randrange(2)))
    tables = [name for name in TABLES if getattr(code, name)]
    if not tables:
        return code
    table = random.choice(tables)
    return replace(code, **{table: getattr(code, table)[:-1]})


def flagged(code):
    """A code that makes a function of all that its flags name, and this code with a flag that there is not."""
    for place, (op, byte) in enumerate(code.instructions):
        if (op, byte) == ("MakeFunction", 31):
            yield code
            yield with_unit(code, place, (op, 32))


def line(code):
    """The code and the model's verdict."""
    flaws, _ = sound.walks(code, True)
    words = [code.max_stackdepth] + [len(getattr(code, name)) for name in TABLES]
    words.append("".join(f"{NUMBERS[op]:02x}{byte:02x}" for op, byte in code.instructions))
    words.append(",".join(f"{kind}:{unit}" for unit, kind in flaws) or "Yes")
    return " ".join(str(word) for word in words)


def lines():
    """Lines of compiled codes, and then of changed ones, so many of each verdict at most."""
    compiled = list(dict.fromkeys(codes()))
    found = list(dict.fromkeys(line(code) for code in compiled for code in (code, *flagged(code))))
    chance = random.Random(1)
    counts = {}
    while len(found) < COUNT:
        one = line(changed(chance, chance.choice(compiled)))
        verdict = one.split(" ")[-1].split(":")[0]
        counts[verdict] = counts.get(verdict, 0) + 1
        if counts[verdict] <= AT_MOST and one not in found:
            found.append(one)
    return found


# The code of `f(a + 1)`, and two that differ from it in the depth and in an operand.
CALLS = [
    "3 2 2 0 0 0 0500050119001c00260120001a01 Yes",
    "2 2 2 0 0 0 0500050119001c00260120001a01 HeightOutside:2",
    "3 2 2 0 0 0 0500050119001c00260120001a02 OperandOutside:6",
]

# No unit, prefixes alone, no end, jumps to a last prefix and to the end, a prefix before a jump, jumps behind a prefix,
# two heights at a unit, too few values, no block, three, four and five prefixes, and a chain of jumps that go back.
BY_HAND = [
    "0 0 0 0 0 0  PlaceOutside:0",
    "0 0 0 0 0 0 4e00 PlaceOutside:0",
    "0 0 0 0 0 0 44004400 PlaceOutside:1",
    "0 1 0 0 0 0 54021a004e00 PlaceOutside:0",
    "0 1 0 0 0 0 54021a00 OperandOutside:0",
    "0 1 0 0 0 0 4e0154021a00 OperandOutside:0",
    "0 0 0 0 0 0 54024e015400 Yes",
    "0 1 0 0 0 0 54024e054e001a00 Yes",
    "1 1 0 0 0 0 1900500319001a00 UnevenHeights:3",
    "0 1 0 0 0 0 20001a00 HeightOutside:0",
    "0 1 0 0 0 0 46001a00 BlockMismatch:0",
    "0 1 0 0 0 0 4e014e004e001a00 OperandOutside:0",
    "0 1 0 0 0 0 4e014e004e004e001a00 Yes",
    "0 1 0 0 0 0 4e014e004e004e004e001a00 Yes",
    "0 1 0 0 0 0 54041a00540154025403 Yes",
]


def code_of(line):
    """The code of a line, and what the line says of it."""
    *numbers, digits, said = line.split(" ")
    depth, constants, names, varnames, cellvars, freevars = map(int, numbers)
    units = bytes.fromhex(digits)
    code = Code(
        flags=1, posonlyarg_count=0, arg_count=0, kwonlyarg_count=0, source_path="m.py", first_line_number=None, obj_name="<module>",
        max_stackdepth=depth, instructions=tuple((NAMES[op], byte) for op, byte in zip(units[::2], units[1::2])), locations=(),
        constants=(None,) * constants, names=("x",) * names, varnames=("x",) * varnames, cellvars=("x",) * cellvars,
        freevars=("x",) * freevars, cell2arg=None,
    )
    return code, said


def verdict_text(said, path=()):
    """A verdict as the program shows it."""
    if said == "Yes":
        return said
    kind, unit = said.split(":")
    return "No(Flaw { path: %s, unit: %s, kind: %s })" % (list(path), unit, kind)


def case(line):
    code, said = code_of(line)
    file = codefile.write(code).hex()
    if "," in said:
        return f"flaw-among {said} {file}", "one of them"
    return "verify " + file, verdict_text(said)


def around(inner):
    """A code that returns None, with another code as its third constant."""
    return replace(code_of("0 2 0 0 0 0 1a01 Yes")[0], constants=(None, None, inner))


def nested():
    """A flaw three codes within, codes that nest as deep as may be, and one deeper."""
    flawed, said = code_of("0 0 0 0 0 0 4400 PlaceOutside:0")
    yield "verify " + codefile.write(around(around(around(flawed)))).hex(), verdict_text(said, (2, 2, 2))
    alone = code_of("0 1 0 0 0 0 1a00 Yes")[0]
    front, back = code_files.around_constant(alone)
    magic, front = front[: len(codefile.MAGIC)].hex(), front[len(codefile.MAGIC):].hex()
    within = codefile.constant(alone)[:1].hex()
    deepest = f"{magic} {front}{within}*2046 {front}{codefile.constant(None).hex()} {back.hex()}*2047"
    yield "verify " + deepest, "Yes"
    yield "verify within-code " + deepest, verdict_text("TooDeep:0", (0,) * 2047)


def cases():
    """Lines that ask for verdicts, and the answers."""
    for told, made in [
        ("`f(a + 1)`, and the same with another depth and with another operand", map(case, CALLS)),
        ("codes by hand", map(case, BY_HAND)),
        ("codes as they are compiled, and others that differ from one of them", map(case, lines())),
        ("codes within codes", nested()),
    ]:
        yield "# " + told, "# " + told
        yield from made
