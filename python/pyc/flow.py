"""What each instruction does to the height of the stack and to the blocks, as crates/py_dataflow has it.

It is written once more here, and its tests hold it against tools/model. Nothing is proved of it.
"""
from __future__ import annotations

from typing import Callable, Dict, NamedTuple, Optional, Tuple


class Effect(NamedTuple):
    """How many values an instruction takes from the stack, and how many it then gives."""

    takes: int
    gives: int


class Flow(NamedTuple):
    """What an instruction does where the next one follows, and where it jumps."""

    falls: Optional[Effect]
    """None where the next instruction never follows."""
    jumps: Optional[Effect]
    """None where the instruction does not jump, and of a Break and a Continue, which cut the stack to a loop's height."""
    opens: str = ""
    """The kind of the block that it opens where the next instruction follows; empty where it opens none."""
    closes: bool = False
    """Whether it closes the innermost block."""
    handler: str = ""
    """The kind of the block that is open where it jumps to; empty where that is no handler."""


# The values that are taken and given, of each instruction that has no label, opens no block and closes none.
FIXED: Dict[Tuple[int, int], str] = {
    (0, 0): "DeleteFast DeleteLocal DeleteGlobal DeleteDeref SetupAnnotation Nop WithCleanupStart ExtendedArg",
    (0, 1): "ImportFrom LoadFast LoadNameAny LoadGlobal LoadDeref LoadClassDeref LoadClosure LoadConst LoadBuildClass",
    (1, 0): "ImportStar StoreFast StoreLocal StoreGlobal StoreDeref DeleteAttr Pop PrintExpr ListAppend SetAdd",
    (1, 1): "LoadAttr UnaryOperation GetIter YieldValue TypeVar",
    (1, 2): "Duplicate",
    (1, 3): "LoadMethod",
    (2, 0): "DeleteSubscript StoreAttr MapAdd",
    (2, 1): "ImportName ImportNameless Subscript BinaryOperation BinaryOperationInplace CompareOperation TestOperation "
    "DictUpdate FormatValue YieldFrom TypeVarWithBound",
    (2, 2): "Rotate2",
    (2, 4): "Duplicate2",
    (3, 0): "StoreSubscript",
    (3, 1): "TypeAlias",
    (3, 3): "Rotate3",
}

# How many values are taken by the operand, of those that then give one.
COUNTED: Dict[str, Callable[[int], int]] = {
    **dict.fromkeys("BuildString BuildTuple BuildList BuildSet BuildTupleUnpack BuildListUnpack".split(), lambda n: n),
    **dict.fromkeys("BuildSetUnpack BuildMapForCall".split(), lambda n: n),
    "BuildMap": lambda n: 2 * n,
    "BuildSlice": lambda n: n + 2,
    "CallFunctionPositional": lambda n: n + 1,
    "CallFunctionKeyword": lambda n: n + 2,
    "CallFunctionEx": lambda n: n + 2,
    "CallMethodPositional": lambda n: n + 3,
    "CallMethodKeyword": lambda n: n + 4,
    "CallMethodEx": lambda n: n + 4,
    "MakeFunction": lambda n: 2 + bin(n).count("1"),
}

# How many values are given by the operand, of those that take one.
UNPACKED: Dict[str, Callable[[int], int]] = {
    "UnpackSequence": lambda n: n,
    "UnpackEx": lambda n: n % 256 + n // 256 + 1,
}

STRAIGHT = Effect(0, 0)

# Those that jump, open a block or close one, and those after which the next instruction never follows.
SPECIAL: Dict[str, Flow] = {
    **dict.fromkeys(("JumpIfTrue", "JumpIfFalse"), Flow(Effect(1, 0), Effect(1, 0))),
    **dict.fromkeys(("JumpIfTrueOrPop", "JumpIfFalseOrPop"), Flow(Effect(1, 0), STRAIGHT)),
    "ForIter": Flow(Effect(0, 1), Effect(1, 0)),
    "Jump": Flow(None, STRAIGHT),
    **dict.fromkeys(("Break", "Continue", "ReturnConst", "ReturnValue", "Raise"), Flow(None, None)),
    "SetupLoop": Flow(STRAIGHT, None, opens="loop"),
    "SetupExcept": Flow(STRAIGHT, Effect(0, 1), opens="except", handler="except handler"),
    "SetupFinally": Flow(STRAIGHT, STRAIGHT, opens="finally", handler="finally handler"),
    "SetupWith": Flow(Effect(1, 2), STRAIGHT, opens="with", handler="finally handler"),
    "EnterFinally": Flow(STRAIGHT, None, opens="finally handler"),
    **dict.fromkeys(("PopBlock", "PopException", "EndFinally"), Flow(STRAIGHT, None, closes=True)),
    "WithCleanupFinish": Flow(Effect(1, 0), None, closes=True),
}

EFFECTS = {name: Effect(*effect) for effect, names in FIXED.items() for name in names.split()}

LABELS = frozenset(
    "JumpIfTrue JumpIfFalse JumpIfTrueOrPop JumpIfFalseOrPop ForIter Jump Break Continue SetupExcept SetupFinally SetupWith".split()
)
"""The instructions whose operand is the unit that they jump to, or the handler that they name."""


def flow_of(name: str, operand: int) -> Flow:
    """What an instruction does, by its name and its whole operand. A name of no instruction is a KeyError."""
    if name in SPECIAL:
        return SPECIAL[name]
    if name in COUNTED:
        return Flow(Effect(COUNTED[name](operand), 1), None)
    if name in UNPACKED:
        return Flow(Effect(1, UNPACKED[name](operand)), None)
    return Flow(EFFECTS[name], None)
