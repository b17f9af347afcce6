"""Codes and their faults of form, which `code_cases.py` writes as cases.

Each code is put together here field by field, and what is said of it is written by hand: the places among constants that
lead to the code, a digit each, the unit, and the kind.
"""
import pathlib
import sys

sys.path.insert(0, str(pathlib.Path(__file__).resolve().parent.parent / "python"))
from pyc import codefile
from pyc.code_object import Code


def code(flags=33, counts=(0, 0, 0), units="", constants=(), varnames="", cells="", free="", cell2arg=None, locations=None):
    """A code; units are words, as `LoadFast 0`, and names are letters."""
    words = units.split()
    made = tuple((op, int(arg)) for op, arg in zip(words[::2], words[1::2]))
    posonly, positional, kwonly = counts
    return Code(
        flags=flags, posonlyarg_count=posonly, arg_count=positional, kwonlyarg_count=kwonly, source_path="m.py", first_line_number=1,
        obj_name="f", max_stackdepth=9, instructions=made, locations=((1, 1),) * (len(made) if locations is None else locations),
        constants=tuple(constants), names=(), varnames=tuple(varnames), cellvars=tuple(cells), freevars=tuple(free),
        cell2arg=None if cell2arg is None else tuple(cell2arg),
    )


MAKING = "LoadClosure 0 BuildTuple 1 ExtendedArg 0 LoadConst 0 LoadConst 1 MakeFunction {} StoreFast 1 LoadFast 1 ReturnValue 0"
LOAD_FREE = "LoadDeref 0 ReturnValue 0"


def inner(**fields):
    """The code of `def g(): return a`, where `a` is free."""
    return code(**{"units": LOAD_FREE, "free": "a", **fields})


def outer(made=None, making=1, **fields):
    """The code of `def f(a): def g(): return a` with `return g`."""
    constants = [inner() if made is None else made, "f.<locals>.g"]
    plain = dict(counts=(0, 1, 0), units=MAKING.format(making), constants=constants, varnames="ag", cells="a", cell2arg=[0])
    return code(**{**plain, **fields})


def module(function, **fields):
    """The code of a file that holds one function."""
    return code(**{"flags": 1, "units": "LoadConst 0 LoadConst 1 MakeFunction 0 Pop 0 ReturnConst 2", "constants": [function, "f", None], **fields})


ROWS = [
    # well formed
    (module(outer()), "None"),
    (module(outer(flags=35)), "None"),
    (module(inner(free="", units="ReturnConst 0", constants=[None])), "None"),
    (module(outer(flags=43, varnames="agr", counts=(1, 1, 1))), "None"),
    (module(outer(cell2arg=[-1])), "None"),
    (module(outer(cell2arg=None)), "None"),
    (module(code(flags=35, units="LoadConst 0 YieldValue 0 ReturnValue 0", constants=[None])), "None"),
    # of parameters and locations
    (module(outer(counts=(0, 7, 0))), "0:-:FewLocals"),
    (module(outer(counts=(0, 1, 1), flags=41)), "0:-:FewLocals"),
    (module(outer(counts=(2, 1, 0))), "0:-:PositionalOnly"),
    (module(outer(), locations=0), ":-:Locations"),
    (module(outer(inner(locations=3))), "00:-:Locations"),
    # of cells and free names
    (module(outer(cell2arg=[99])), "0:-:CellEntry"),
    (module(outer(cell2arg=[-2])), "0:-:CellEntry"),
    (module(outer(cell2arg=[1])), "0:-:CellEntry"),
    (module(outer(cell2arg=[0, 1, 1])), "0:-:CellEntries"),
    (module(outer(cells="bab", cell2arg=None)), "0:-:RepeatedCell"),
    (module(inner(free="aba")), ":2:NoClosure"),
    (inner(free="aba"), ":-:RepeatedFree"),
    (module(outer(cells="ba", free="a", cell2arg=None)), ":2:NoClosure"),
    (outer(cells="ba", free="a", cell2arg=None), ":-:CellIsFree"),
    # of units
    (module(outer(flags=0)), "0:6:QuickLocal"),
    (module(outer(inner(flags=0))), "None"),
    (module(code(units="LoadConst 0 YieldValue 0 ReturnValue 0", constants=[None])), "0:1:Yield"),
    (module(code(units="LoadConst 0 LoadConst 0 YieldFrom 0 ReturnValue 0", constants=[None])), "0:2:Yield"),
    (module(5), ":2:MadeOfNoCode"),
    (module(outer(), units="LoadConst 0 LoadConst 2 MakeFunction 0 Pop 0 ReturnConst 2"), ":2:MadeOfNoCode"),
    (module(outer(), units="MakeFunction 0"), ":0:MadeOfNoCode"),
    (module(outer(inner(free=["a", "zz"]))), "0:5:Closure"),
    (module(outer(making=0)), "0:5:NoClosure"),
    (module(outer(making=2)), "0:5:NoClosure"),
    (module(outer(units=MAKING.format(1).replace("LoadClosure 0", "LoadClosure 1"))), "0:5:Closure"),
    (module(outer(units=MAKING.format(1).replace("LoadClosure", "LoadFast"))), "0:5:Closure"),
    (module(outer(units=MAKING.format(1)[len("LoadClosure 0 "):])), "0:4:Closure"),
    (module(outer(units=MAKING.format(1).replace("BuildTuple", "BuildList"))), "0:5:Closure"),
    # the first of several
    (module(outer(inner(flags=0, counts=(0, 1, 0)), flags=0)), "0:6:QuickLocal"),
    (module(outer(counts=(2, 1, 9))), "0:-:PositionalOnly"),
]


def fault_text(said):
    """A fault as the program shows it."""
    if said == "None":
        return said
    path, unit, kind = said.split(":")
    place = "None" if unit == "-" else "Some(%s)" % unit
    return "Some(FormFault { path: %s, unit: %s, kind: %s })" % (list(map(int, path)), place, kind)


def cases():
    """Lines that ask for faults of form, and the answers."""
    told = "# faults of form"
    yield told, told
    for made, said in ROWS:
        yield "form " + codefile.write(made).hex(), fault_text(said)
