"""The codes of the suite that are written instruction by instruction: blocks, units and prefixes, and codes with faults."""
from __future__ import annotations

import itertools
from typing import Dict, Iterator, List, Optional, Tuple

import instr
from conformance_codes import ADDS, Begun, assembled, instruction_text, operands_of, taken
from instruction_words import WORDS

# Blocks: a name, and the instructions. What lies on the stack at the end goes into a tuple.
BLOCKS: Dict[str, str] = {
    "a loop is popped": "SetupLoop; PopBlock; ReturnConst 1",
    "an except is popped": "SetupExcept H; PopBlock; ReturnConst 1; H: ReturnValue",
    "a finally is popped": "SetupFinally H; PopBlock; ReturnConst 1; H: EndFinally; ReturnConst 2",
    "a break cuts the stack": "LoadConst 'under'; SetupLoop; LoadConst 1; LoadConst 2; Break A; A: BuildTuple 1; ReturnValue",
    "a continue does not cut the stack": """
        LoadConst 'under'; SetupLoop; LoadConst 'iterator'; W: LoadNameAny a; JumpIfTrue C; PopBlock; BuildTuple 2; ReturnValue
        C: Continue W""",
    "a continue is cut by an except": """
        LoadConst 'under'; SetupLoop; LoadConst 'iterator'; W: LoadNameAny a; JumpIfTrue C; PopBlock; BuildTuple 2; ReturnValue
        C: SetupExcept H; LoadConst 1; LoadConst 2; Continue W; H: ReturnValue""",
    "a continue is cut by the lowest block": """
        SetupLoop; LoadConst 'iterator'; W: LoadNameAny a; JumpIfTrue C; PopBlock; BuildTuple 1; ReturnValue
        C: SetupExcept H; LoadConst 1; SetupExcept G; LoadConst 2; Continue W; H: ReturnValue; G: ReturnValue""",
    "a break out of two loops goes one": """
        SetupLoop; LoadConst 1; SetupLoop; LoadConst 2; Break A; A: LoadConst 3; BuildTuple 2; ReturnValue""",
    "a return cuts nothing that is seen": "LoadConst 1; SetupLoop; LoadConst 2; SetupExcept H; LoadConst 3; ReturnValue; H: ReturnValue",
    "a raise cuts the stack": "LoadConst 'under'; SetupExcept H; LoadConst 1; LoadNameAny a; BuildTuple 2; ReturnValue; H: StoreFast x; PopException; BuildTuple 1; ReturnValue",
    "a raise in a finally cuts the stack": """
        LoadConst 'under'; SetupExcept G; SetupFinally H; LoadConst 1; LoadNameAny a; BuildTuple 2; ReturnValue
        H: LoadNameAny b; Pop; EndFinally; ReturnConst 2; G: StoreFast x; PopException; BuildTuple 1; ReturnValue""",
    "a raise passes a loop": """
        SetupExcept H; LoadConst 1; SetupLoop; LoadConst 2; LoadNameAny a; Raise 0; H: BuildTuple 1; ReturnValue""",
    "the slot is empty at first": "Raise 2",
    "the slot is full in a handler": "SetupExcept H; LoadNameAny a; Raise 0; H: Pop; Raise 2",
    "the slot is empty behind a handler": "SetupExcept H; LoadNameAny a; Raise 0; H: Pop; PopException; Raise 2",
    "the slot is full behind an inner handler": """
        SetupExcept H; LoadNameAny a; Raise 0; H: Pop; SetupExcept G; LoadNameAny b; Raise 0; G: Pop; PopException; Raise 2""",
    "an inner raise passes a handler": """
        SetupExcept F; SetupExcept H; LoadNameAny a; Raise 0; H: LoadNameAny b; Raise 0
        F: BuildTuple 1; Pop; PopException; Raise 2""",
    "an inner raise passes two handlers": """
        SetupExcept F; SetupExcept H; LoadNameAny a; Raise 0
        H: SetupExcept G; LoadNameAny b; Raise 0; G: LoadNameAny c; Raise 0
        F: BuildTuple 1; Pop; Raise 2""",
    "a break passes two handlers, and the slot is empty": """
        SetupLoop; SetupExcept H; LoadNameAny a; Raise 0
        H: SetupExcept G; LoadNameAny b; Raise 0; G: LoadConst 1; Break A; A: Raise 2""",
    "a continue passes two handlers, and the slot is empty": """
        SetupLoop; W: SetupExcept H; Raise 2
        H: SetupExcept G; LoadNameAny b; Raise 0; G: Pop; LoadNameAny c; JumpIfTrue X; Continue W
        X: ReturnConst 1""",
    "a return passes two handlers into a finally": """
        SetupFinally Z; SetupExcept H; LoadNameAny a; Raise 0
        H: SetupExcept G; LoadNameAny b; Raise 0; G: ReturnConst 1
        Z: SetupExcept Y; Raise 2; Y: Pop; PopException; EndFinally; ReturnConst 2""",
    "a finally without a reason": "LoadConst 1; EnterFinally; LoadConst 2; BuildTuple 1; Pop; EndFinally; BuildTuple 1; ReturnValue",
    "a finally without a reason keeps the slot": """
        SetupExcept H; LoadNameAny a; Raise 0; H: Pop; EnterFinally; SetupExcept G; LoadNameAny b; Raise 0
        G: Pop; PopException; EndFinally; Raise 2""",
    "a raise of a finally is in the slot": "SetupFinally Z; LoadNameAny a; Raise 0; Z: Raise 2",
    "a return of a finally is not in the slot": "SetupFinally Z; ReturnConst 1; Z: Raise 2",
    "a raise in a finally goes on": "SetupFinally Z; LoadNameAny a; Raise 0; Z: LoadNameAny b; Pop; EndFinally; ReturnConst 1",
    "a raise goes on into a handler": """
        LoadConst 'under'; SetupExcept H; SetupFinally Z; LoadConst 1; LoadNameAny a; Raise 0
        Z: LoadNameAny b; Pop; EndFinally; ReturnConst 1; H: StoreFast x; PopException; BuildTuple 1; ReturnValue""",
    "a return through two finallys": """
        SetupFinally Z; SetupFinally Y; LoadNameAny a; ReturnValue
        Y: LoadNameAny b; Pop; EndFinally; ReturnConst 1; Z: LoadNameAny c; Pop; EndFinally; ReturnConst 2""",
    "a break through two finallys": """
        SetupLoop; SetupFinally Z; SetupFinally Y; LoadConst 1; LoadConst 2; Break A
        Y: LoadNameAny b; Pop; EndFinally; ReturnConst 1; Z: LoadNameAny c; Pop; EndFinally; ReturnConst 2
        A: LoadConst 3; BuildTuple 1; ReturnValue""",
    "a continue through two finallys": """
        SetupLoop; LoadConst 'iterator'; W: LoadNameAny a; JumpIfFalse A; SetupFinally Z; SetupFinally Y; LoadConst 1; Continue W
        Y: LoadNameAny b; Pop; EndFinally; ReturnConst 1; Z: LoadNameAny c; Pop; EndFinally; ReturnConst 2
        A: BuildTuple 1; ReturnValue""",
    "a return takes the place of a break": """
        SetupLoop; SetupFinally Z; Break A; Z: LoadNameAny a; ReturnValue; A: ReturnConst 1""",
    "a loop in a finally": """
        SetupFinally Z; ReturnConst 1; Z: SetupLoop; W: LoadNameAny a; JumpIfFalse B; LoadNameAny b; JumpIfTrue C; Break A
        C: Continue W; B: PopBlock; A: EndFinally; ReturnConst 2""",
    "an exit without a reason": """
        LoadNameAny a; SetupWith Z; Pop; PopBlock; EnterFinally; Z: WithCleanupStart; WithCleanupFinish; ReturnConst 1""",
    "an exit, with values below": """
        LoadConst 'under'; LoadNameAny a; SetupWith Z; LoadConst 1; BuildTuple 2; Pop; PopBlock; EnterFinally
        Z: WithCleanupStart; WithCleanupFinish; BuildTuple 1; ReturnValue""",
    "a return through an exit": "LoadNameAny a; SetupWith Z; ReturnValue; Z: WithCleanupStart; WithCleanupFinish; ReturnConst 1",
    "a break through an exit": """
        SetupLoop; LoadConst 1; LoadNameAny a; SetupWith Z; Break A; Z: WithCleanupStart; WithCleanupFinish; ReturnConst 1
        A: LoadConst 2; BuildTuple 1; ReturnValue""",
    "a continue through an exit": """
        SetupLoop; LoadConst 'iterator'; W: LoadNameAny a; JumpIfFalse A; LoadNameAny b; SetupWith Z; Continue W
        Z: WithCleanupStart; WithCleanupFinish; ReturnConst 1; A: BuildTuple 1; ReturnValue""",
    "a raise through an exit": """
        LoadConst 'under'; LoadNameAny a; SetupWith Z; LoadConst 1; LoadNameAny b; Raise 0
        Z: WithCleanupStart; WithCleanupFinish; BuildTuple 1; ReturnValue""",
    "a raise through two exits": """
        LoadNameAny a; SetupWith Z; LoadNameAny b; SetupWith Y; LoadNameAny c; Raise 0
        Y: WithCleanupStart; WithCleanupFinish; Pop; PopBlock; EnterFinally
        Z: WithCleanupStart; WithCleanupFinish; Raise 2""",
    "an exit within a handler": """
        SetupExcept H; LoadNameAny a; Raise 0; H: LoadNameAny b; SetupWith Z; Pop; Raise 2
        Z: WithCleanupStart; WithCleanupFinish; BuildTuple 1; Pop; PopException; Raise 2""",
    "an exit that is caught": """
        LoadConst 'under'; SetupExcept H; LoadNameAny a; SetupWith Z; Pop; PopBlock; EnterFinally
        Z: WithCleanupStart; WithCleanupFinish; PopBlock; ReturnConst 1; H: StoreFast x; PopException; BuildTuple 1; ReturnValue""",
    "a handler is entered by a jump": "SetupExcept H; LoadConst 1; PopBlock; Jump A; H: PopException; A: ReturnValue",
    "a cell through blocks": "SetupFinally Z; LoadClosure c; ReturnValue; Z: LoadNameAny a; Pop; EndFinally; ReturnConst 1",
}


# for each reason, what leaves so into a finally whose part begins at Z
KEPT = {
    "none": "EnterFinally; Jump Z", "break": "SetupFinally Z; Break O", "continue": "SetupFinally Z; Continue P",
    "return": "SetupFinally Z; ReturnConst 'kept'", "raise": "SetupFinally Z; LoadNameAny kept; Raise 0",
}
LEFT = {"break": "Break A", "continue": "Continue W", "return": "LoadNameAny r; ReturnValue", "raise": "LoadNameAny e; Raise 0"}


def dropped() -> Iterator[Begun]:
    """Each leaving out of a finally that keeps each reason: the new one takes its place."""
    for kept, left in itertools.product(KEPT, LEFT):
        text = "SetupLoop; W: LoadNameAny t; JumpIfFalse B; %s; Z: %s; O: ReturnConst 'other'; P: Jump W; B: PopBlock; A: ReturnConst 'behind'"
        yield Begun("%s takes the place of %s" % (left, kept), "", assembled(text % (KEPT[kept], LEFT[left])), ())


def blocks() -> Iterator[Begun]:
    """Blocks, leavings and the slot."""
    for name, text in BLOCKS.items():
        yield Begun(name, "", assembled(text), ())
    yield from dropped()


# the ways of jumps, cells and the stack alone
UNITS: Dict[str, str] = {
    "JumpIfTrue": "LoadConst 'under'; LoadConst 1; JumpIfTrue A; BuildTuple 1; ReturnValue; A: LoadConst 2; BuildTuple 2; ReturnValue",
    "JumpIfFalse": "LoadConst 'under'; LoadConst 1; JumpIfFalse A; BuildTuple 1; ReturnValue; A: LoadConst 2; BuildTuple 2; ReturnValue",
    "JumpIfTrueOrPop": "LoadConst 'under'; LoadConst 1; JumpIfTrueOrPop A; LoadConst 2; A: BuildTuple 2; ReturnValue",
    "JumpIfFalseOrPop": "LoadConst 'under'; LoadConst 1; JumpIfFalseOrPop A; LoadConst 2; A: BuildTuple 2; ReturnValue",
    "JumpIfTrue that raises": "LoadConst 'under'; SetupExcept H; LoadConst 1; JumpIfTrue A; A: PopBlock; ReturnConst 1; H: StoreFast x; PopException; BuildTuple 1; ReturnValue",
    "JumpIfFalse that raises": "LoadConst 'under'; SetupExcept H; LoadConst 1; JumpIfFalse A; A: PopBlock; ReturnConst 1; H: StoreFast x; PopException; BuildTuple 1; ReturnValue",
    "JumpIfTrueOrPop that raises": "SetupExcept H; LoadConst 1; JumpIfTrueOrPop A; LoadConst 2; A: Pop; PopBlock; ReturnConst 1; H: BuildTuple 1; ReturnValue",
    "JumpIfFalseOrPop that raises": "SetupExcept H; LoadConst 1; JumpIfFalseOrPop A; LoadConst 2; A: Pop; PopBlock; ReturnConst 1; H: BuildTuple 1; ReturnValue",
    "ForIter": "LoadConst 'under'; LoadConst 'iterator'; W: ForIter A; BuildTuple 3; ReturnValue; A: BuildTuple 1; ReturnValue",
    "ForIter, around": "LoadConst 'iterator'; W: ForIter A; StoreFast x; Jump W; A: ReturnConst 1",
    "ForIter that raises": "LoadConst 'under'; SetupExcept H; LoadConst 'iterator'; ForIter A; BuildTuple 2; Pop; A: PopBlock; ReturnConst 1; H: StoreFast x; PopException; BuildTuple 1; ReturnValue",
    "Jump": "Jump A; B: ReturnConst 1; A: Jump B",
    "Nop": "Nop; Nop; ReturnConst 1",
    "Pop": "LoadConst 1; LoadConst 2; Pop; BuildTuple 1; ReturnValue",
    "Rotate2": "LoadConst 1; LoadConst 2; LoadConst 3; Rotate2; BuildTuple 3; ReturnValue",
    "Rotate3": "LoadConst 1; LoadConst 2; LoadConst 3; LoadConst 4; Rotate3; BuildTuple 4; ReturnValue",
    "Duplicate": "LoadConst 1; LoadConst 2; Duplicate; BuildTuple 3; ReturnValue",
    "Duplicate2": "LoadConst 1; LoadConst 2; LoadConst 3; Duplicate2; BuildTuple 5; ReturnValue",
    "cells move": "LoadClosure c; LoadConst 1; Rotate2; Duplicate; Pop; LoadConst 2; Rotate3; Pop; LoadConst 3; Duplicate2; Pop; Pop; Pop; ReturnValue",
    "cells are popped": "LoadClosure c; LoadClosure d; Rotate2; Pop; Pop; ReturnConst 1",
    "cells in threes": "LoadClosure c; LoadClosure d; LoadClosure e; Rotate3; Duplicate2; Pop; Pop; Pop; Pop; ReturnValue",
    "cells are joined": "LoadClosure c; LoadClosure d; BuildTuple 2; LoadClosure e; BuildTuple 2; ReturnValue",
    "one cell is joined": "LoadClosure c; BuildTuple 1; LoadConst code; LoadConst 'm.inner'; MakeFunction 1; ReturnValue",
    "a cell of a class": "LoadClosure c; Duplicate; StoreLocal __classcell__; ReturnValue",
    "a cell of a class is taken": "LoadConst 1; LoadClosure c; StoreLocal __classcell__; ReturnValue",
    "a value of that name": "LoadConst 1; StoreLocal __classcell__; ReturnConst 2",
    "None is returned": "ReturnConst None",
    "each kind of constant": """
        LoadConst None; LoadConst True; LoadConst False; LoadConst ...; LoadConst -7; LoadConst 170141183460469231731687303715884105727
        LoadConst 'a\\'b\\\\c\\n\\x7f\\u00e9\\U0001f40d'; LoadConst b'a\\'b\\\\c\\n\\x7f\\xff'; LoadConst (); LoadConst (1,); LoadConst (1, ('x', b'y', None, ...))
        LoadConst code; BuildTuple 12; ReturnValue""",
    "the lowest integer is returned": "ReturnConst -170141183460469231731687303715884105728",
    "a code is returned": "ReturnConst code",
    "names to be quoted": "LoadNameAny it's; StoreLocal back\\slash; DeleteLocal \u00e9t\u00e9; ReturnConst 1",
}


def many(name: str, kind: str, count: int) -> str:
    """Entries so many that the last one has this number."""
    entries = {"Const": "LoadConst %d; Pop", "Name": "LoadNameAny n%d; Pop", "Var": "LoadFast v%d; Pop", "Cell": "LoadDeref c%d; Pop"}
    return "Jump A; %s; A: %s" % ("; ".join(entries[kind] % i for i in range(count)), name)


def prefixed() -> Iterator[Tuple[str, str]]:
    """Operands above a byte, and prefixes."""
    yield "the constant 255", many("LoadConst 255; ReturnValue", "Const", 256)
    yield "the constant 256", many("LoadConst 256; ReturnValue", "Const", 257)
    yield "the name 300", many("LoadNameAny n300; ReturnValue", "Name", 301)
    yield "the variable 256", many("LoadFast v256; ReturnValue", "Var", 257)
    yield "the cell 256", many("LoadDeref c256; ReturnValue", "Cell", 257)
    zeros = "; ".join(["ExtendedArg @0"] * 3)
    for count in (1, 2, 3):
        yield "%d prefixes of 0" % count, "; ".join(["ExtendedArg @0"] * count) + "; LoadConst 1; ReturnValue"
    yield "4 prefixes, the first is lost", "ExtendedArg @7; %s; LoadConst 1; ReturnValue" % zeros
    yield "6 prefixes, the first three are lost", "ExtendedArg @1; ExtendedArg @2; ExtendedArg @3; %s; LoadConst 1; ReturnValue" % zeros
    yield "a prefix of what has no operand", "ExtendedArg @0; Nop; LoadConst 1; ExtendedArg @0; ReturnValue"
    yield "a jump to a prefix", "Jump A; A: ExtendedArg @0; LoadConst 1; ReturnValue"
    yield "a jump between a prefix and its instruction", "LoadConst 2; Pop; Jump A; ExtendedArg @1; A: LoadConst @0; ReturnValue"
    yield "a jump to another unit of an operand", "Jump B; ExtendedArg @1; B: ExtendedArg @0; LoadConst 1; ReturnValue"
    yield "a pair of three bytes", "LoadConst 1; ExtendedArg @0; UnpackEx @257; BuildTuple 3; ReturnValue"
    yield "a far loop", "SetupLoop; W: LoadNameAny a; JumpIfFalse E; %s; Jump W; E: PopBlock; ReturnConst 1" % "; ".join(["Nop"] * 300)
    yield "a far handler", "SetupExcept H; %s; LoadNameAny a; Raise 0; H: ReturnValue" % "; ".join(["Nop"] * 300)
    yield "a far break", "SetupLoop; Break A; %s; A: ReturnConst 1" % "; ".join(["Nop"] * 300)


def units() -> Iterator[Begun]:
    """Jumps, cells, constants, names, and prefixes."""
    for name, text in UNITS.items():
        yield Begun(name, "", assembled(text), ())
    for name, text in prefixed():
        yield Begun(name, "", assembled(text), ())


ENDLESS: Dict[str, str] = {
    "a jump to itself": "A: Jump A",
    "a jump to the start": "A: Nop; Nop; Jump A",
    "a loop behind an answer": "LoadNameAny a; Pop; A: Jump A",
    "a loop in a handler": "SetupExcept H; LoadNameAny a; ReturnValue; H: Nop; Jump H",
    "a continue": "SetupLoop; W: Continue W",
    "a continue through a finally": "SetupLoop; W: SetupFinally Z; Continue W; Z: EndFinally; ReturnConst 1",
    "a break to before the loop": "W: SetupLoop; Break W",
    "a raise in a loop": "W: SetupExcept H; Raise 2; H: Pop; SetupExcept G; Raise 2; G: Pop; PopException; PopException; Jump W",
}


def endless() -> Iterator[Begun]:
    """Codes whose runs do not end for want of an answer."""
    for name, text in ENDLESS.items():
        yield Begun(name, "", assembled(text), ())


# faults
WRONG: Dict[str, str] = {
    "no unit": "",
    "no unit behind the last": "Nop",
    "a prefix at the end": "ExtendedArg @1",
    "a jump behind the end": "Jump @1",
    "a break without a loop": "Break A; A: ReturnConst 1",
    "a continue without a loop": "A: Continue A",
    "a break to a finally without a loop": "SetupFinally Z; Break A; Z: LoadNameAny a; Pop; EndFinally; A: ReturnConst 1",
    "a continue to a finally without a loop": "A: SetupFinally Z; Continue A; Z: LoadNameAny a; Pop; EndFinally; ReturnConst 1",
    "PopBlock without a block": "PopBlock; ReturnConst 1",
    "PopBlock in a handler": "SetupExcept H; LoadNameAny a; Raise 0; H: PopBlock; ReturnConst 1",
    "PopBlock in a finally": "EnterFinally; PopBlock; ReturnConst 1",
    "PopException without a block": "PopException; ReturnConst 1",
    "PopException in a loop": "SetupLoop; PopException; ReturnConst 1",
    "PopException in a try": "SetupExcept H; PopException; H: ReturnConst 1",
    "PopException in a finally": "EnterFinally; PopException; ReturnConst 1",
    "EndFinally without a block": "EndFinally; ReturnConst 1",
    "EndFinally in a try": "SetupFinally Z; EndFinally; Z: ReturnConst 1",
    "EndFinally in a handler": "SetupExcept H; LoadNameAny a; Raise 0; H: EndFinally; ReturnConst 1",
    "WithCleanupStart without a block": "LoadConst 1; WithCleanupStart; ReturnConst 1",
    "WithCleanupStart in a handler": "SetupExcept H; LoadNameAny a; Raise 0; H: WithCleanupStart; ReturnConst 1",
    "WithCleanupStart of nothing": "EnterFinally; WithCleanupStart; ReturnConst 1",
    "WithCleanupStart of cells": "LoadClosure c; EnterFinally; WithCleanupStart; ReturnConst 1",
    "WithCleanupFinish without a block": "LoadConst 1; WithCleanupFinish; ReturnConst 1",
    "WithCleanupFinish in a loop": "LoadConst 1; SetupLoop; WithCleanupFinish; ReturnConst 1",
    "WithCleanupFinish of nothing": "EnterFinally; WithCleanupFinish; ReturnConst 1",
    "WithCleanupFinish of cells": "LoadClosure c; EnterFinally; WithCleanupFinish; ReturnConst 1",
    "a loop cuts above the stack": "LoadConst 1; SetupLoop; Pop; Break A; A: ReturnConst 1",
    "an except cuts above the stack": "LoadConst 1; SetupExcept H; Pop; LoadNameAny a; Raise 0; H: ReturnConst 1",
    "a finally cuts above the stack": "LoadConst 1; SetupFinally Z; Pop; ReturnConst 1; Z: EndFinally",
    "a continue does not cut": "LoadConst 1; SetupLoop; W: Pop; Continue W",
    "a closure that is a value": "LoadConst 1; LoadConst code; LoadConst 'f'; MakeFunction 1; ReturnValue",
    "no closure": "LoadConst code; LoadConst 'f'; MakeFunction 1; ReturnValue",
    "fewer cells than are joined": "LoadClosure c; BuildTuple 2; ReturnValue",
    "a closure where none is taken": "LoadClosure c; LoadConst code; LoadConst 'f'; MakeFunction 8; ReturnValue",
    "a closure in the place of the code": "LoadClosure c; LoadConst 'f'; MakeFunction 0; ReturnValue",
    "cells below a value in a tuple": "LoadClosure c; LoadConst 1; BuildTuple 2; ReturnValue",
    "cells on a value in a tuple": "LoadConst 1; LoadClosure c; BuildTuple 2; ReturnValue",
    "cells between": "LoadConst 1; LoadClosure c; LoadConst 2; ListAppend 1; Pop; BuildTuple 1; ReturnValue",
    "cells are collected into": "LoadClosure c; LoadConst 1; ListAppend 0; ReturnConst 1",
    "cells go to another name": "LoadClosure c; StoreLocal classcell; ReturnConst 1",
    "cells go to a global": "LoadClosure c; StoreGlobal __classcell__; ReturnConst 1",
    "cells go to a variable": "LoadClosure c; StoreFast __classcell__; ReturnConst 1",
}


# Loops that push until the stack is above the depth: in the last step that a run may take, and in the one behind it. The
# first two with an empty script, and the others with one answer, which is left over.
LIMITS: Dict[str, Tuple[str, int]] = {
    "the last step without answers": ("A: Nop; LoadConst 1; Nop; Jump A", 2),
    "a step too many without answers": ("A: Nop; Nop; LoadConst 1; Jump A", 2),
    "the last step with an answer": ("A: Nop; Nop; Nop; LoadConst 1; Jump A", 4),
    "a step too many with an answer": ("A: Nop; Nop; Nop; Nop; LoadConst 1; Jump A", 4),
}


def faults() -> Iterator[Begun]:
    """Codes that do not verify, or that use cells as values."""
    for name, text in WRONG.items():
        yield Begun(name, "", assembled(text, 5), ())
    for name in instr.NAME_OF:
        yield from short_of(name)
        yield from on_cells(name)
        yield from outside(name)
    for depth in range(3):
        text = "LoadConst 1; LoadNameAny a; LoadConst 2; BuildTuple 3; ReturnValue"
        yield Begun("a stack of 3 where the depth is %d" % depth, "", assembled(text, depth), ())
    for name, (text, depth) in LIMITS.items():
        yield Begun(name, "", assembled(text, depth), ())
    yield Begun("a handler above the depth", "", assembled("SetupExcept H; Raise 2; H: ReturnValue", 0), ())
    yield Begun("given values above the depth", "", assembled("LoadConst 1; UnpackSequence 3; BuildTuple 3; ReturnValue", 2), ())


JUMPING = {"JumpIfTrue": "A", "JumpIfFalse": "A", "JumpIfTrueOrPop": "A", "JumpIfFalseOrPop": "A", "ForIter": "A", "SetupWith": "A"}
MOVED = {"Pop": 1, "Rotate2": 2, "Rotate3": 3, "Duplicate": 1, "Duplicate2": 2, "ReturnValue": 1}
OWN = ("WithCleanupStart", "WithCleanupFinish", "MakeFunction")


def pushing(name: str, operand: object) -> List[str]:
    """What pushes what an instruction takes and looks at."""
    if name in JUMPING or name in MOVED:
        return ["LoadConst %d" % (i + 1) for i in range(MOVED.get(name, 1))]
    return taken(name, operand)


def tried(name: str) -> object:
    """An operand with which an instruction takes a value."""
    if name in JUMPING:
        return JUMPING[name]
    if name in ADDS or instr.operand_kind(name) in ("Count", "Bit"):
        return 1
    return 1 if name == "Raise" else operands_of(name)[0] if instr.operand_kind(name) != "Const" else "1"


def ended(name: str, operand: object, lines: List[str]) -> str:
    return "\n".join([*lines, instruction_text(name, operand), "ReturnConst 1", "A: ReturnConst 2"])


def short_of(name: str) -> Iterator[Begun]:
    """An instruction with one value too few, and with none."""
    if not (WORDS[name].takes or WORDS[name].looks) or name in OWN[:2]:
        return
    lines = pushing(name, tried(name))
    for count in sorted({0, len(lines) - 1}):
        text = ended(name, tried(name), lines[len(lines) - count:])
        yield Begun("%s with %d values" % (name, count), "", assembled(text, 9), ())


def on_cells(name: str) -> Iterator[Begun]:
    """An instruction with cells in the place of each of its values."""
    if not (WORDS[name].takes or WORDS[name].looks) or name in MOVED or name in OWN:
        return
    lines = pushing(name, tried(name))
    for at in range(len(lines)):
        if lines[at] != "LoadConst 'between'" and (name, len(lines)) != ("BuildTuple", 1):
            text = ended(name, tried(name), [*lines[:at], "LoadClosure c", *lines[at + 1:]])
            yield Begun("%s of cells, value %d" % (name, at), "", assembled(text, 9), ())


def too_large(name: str) -> Optional[str]:
    """The first operand that is too large."""
    kind = instr.operand_kind(name)
    if kind in ("Const", "Name", "Var", "Cell"):
        return "@200"
    known = {"None": 1, "Count": 1 << 30, "Flags": 32, "Pair": 1 << 16, "Bit": 2, "Label": 250}
    return "@%d" % (known[kind] if kind in known else len(instr.CASES[kind]))


def outside(name: str) -> Iterator[Begun]:
    """An instruction with the first operand that is too large, on a stack of values."""
    if name == "ExtendedArg":
        return
    lines = ["LoadConst %d" % i for i in range(6)]
    wrap = ["SetupLoop"] if name in ("Break", "Continue", "PopBlock") else ["EnterFinally"] if name in ("EndFinally", *OWN[:2]) else []
    text = "\n".join([*lines, *wrap, instruction_text(name, too_large(name)), "ReturnConst 1"])
    yield Begun("%s %s" % (name, str(too_large(name))[1:]), "", assembled(text, 9), ())
