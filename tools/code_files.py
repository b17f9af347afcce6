"""Files of code, and what reading answers of others that are made of them by an edit: 200 that are refused, 40 that are
read, and one for each count and length, which is made as high as can be. `code_cases.py` writes them as cases.

The grammar is read and written by `pyc.codefile`, in Python, from its description in crates/py_codefile/README.md and not
from the program. The edits are drawn by chance from a fixed seed, so that they are the same in each run.
"""
import pathlib
import random
import sys
from dataclasses import replace

sys.path.insert(0, str(pathlib.Path(__file__).resolve().parent.parent / "python"))
from pyc import codefile
from pyc.code_object import Code
from pyc.opcodes import NAMES


def answer(data):
    """What reading a file answers."""
    try:
        codefile.read(data)
    except codefile.BadCode as bad:
        return f"{bad.cause} {bad.offset}"
    return "Ok"


def around_constant(code):
    """The bytes of the file of a code that has this one constant, up to the constant and behind it."""
    hole = 0x5ca1ab1e
    front, back = codefile.write(replace(code, constants=(hole,))).split(codefile.constant(hole))
    return front, back


# the Expression `1` at 1:1, compiled from m.py
ONE = Code(
    flags=1, posonlyarg_count=0, arg_count=0, kwonlyarg_count=0, source_path="m.py", first_line_number=1, obj_name="<module>",
    max_stackdepth=0, instructions=(("ReturnConst", 0),), locations=((1, 1),), constants=(1,), names=(), varnames=(),
    cellvars=(), freevars=(), cell2arg=None,
)

# every kind of constant, every table, no first line, all flags
ALL = Code(
    flags=0xffff, posonlyarg_count=1, arg_count=2, kwonlyarg_count=3, source_path="é.py", first_line_number=None, obj_name="f",
    max_stackdepth=4294967295, instructions=((NAMES[0], 0), (NAMES[89], 255)), locations=((1, 4294967295), (2, 1)),
    constants=(None, False, True, "é", b"\x00\xff", -2 ** 127, (None, (), ...), ..., ONE),
    names=("a", "bc"), varnames=("",), cellvars=("c", "d"), freevars=("€",), cell2arg=(-1, 0),
)

FILES = {"one": codefile.write(ONE), "all": codefile.write(ALL)}
WANTED = {
    "Magic": 8, "Truncated": 65, "BadOpcode": 22, "BadTag": 37, "BadText": 30, "ZeroLocation": 25, "Trailing": 13,
    "Ok": 40,
}


def drawn(draw):
    """A file, an offset in it, how many bytes are taken out there, and what is put in their place."""
    name = draw.choice(list(FILES))
    size = len(FILES[name])
    at = draw.randrange(size)
    kind = draw.randrange(6)
    if kind == 0:
        return name, at, size - at, b""
    if kind == 1:
        return name, draw.choice([at, size]), 0, bytes([draw.choice([0, 1, draw.randrange(256)])])
    if kind == 2:
        return name, at, 1, b""
    if kind == 3:
        return name, at, 1, bytes([draw.choice([0, 1, 2, 9, 92, 255])])
    if kind == 4:
        return name, at, min(4, size - at), bytes(min(4, size - at))
    return name, at, 1, bytes([FILES[name][at] ^ 1 << draw.randrange(8)])


def edited(edit):
    name, at, taken, put = edit
    data = FILES[name]
    return data[:at] + put + data[at + taken:]


def drawn_edits():
    """Edits with their answers, so many of each cause, none twice."""
    draw = random.Random(2048)
    left = dict(WANTED)
    seen = set(FILES.values())
    rows = []
    while any(left.values()):
        edit = drawn(draw)
        data = edited(edit)
        want = answer(data)
        if data in seen or want is None:
            continue
        cause = want.split(" ")[0]
        if left.get(cause, 0) > 0:
            left[cause] -= 1
            seen.add(data)
            rows.append((edit, want))
    order = list(FILES)
    return sorted(rows, key=lambda row: (order.index(row[0][0]), row[0][1:]))


def highest_counts():
    """For each count and length of a file: what reading answers where it is 2^32 - 1."""
    rows = []
    for name, data in FILES.items():
        reader = codefile.Reader(data)
        reader.file()
        edits = [(name, at, 4, b"\xff" * 4) for at in reader.counts]
        rows += [(edit, answer(edited(edit))) for edit in edits]
    return rows


# Edits of the file `one`: its last byte is missing, one more follows, and its instruction is none and is another.
BY_HAND = [("one", 105, 1, b""), ("one", 106, 0, b"\x00"), ("one", 54, 1, b"\x5c"), ("one", 54, 1, b"\x20")]


def error_text(said):
    """The error that reading answers, as the program shows it; `Ok` as it is."""
    return " { at: ".join(said.split(" ")) + " }" if " " in said else said


def cases():
    """Lines that ask whether an edited file is read, each behind a line that tells the edit, and their answers."""
    by_hand = [(edit, answer(edited(edit))) for edit in BY_HAND]
    for edit, said in by_hand + drawn_edits() + highest_counts():
        name, at, taken, put = edit
        told = f"# `{name}`, from byte {at} on {taken} out and in {put.hex() or 'nothing'}"
        yield told, told
        yield "read " + edited(edit).hex(), error_text(said)
