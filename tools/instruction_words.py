"""What each instruction takes, gives and looks at, which blocks it has to do with, and what a trace lists of it.

This is the part of docs/INSTRUCTIONS.md that is written by hand; numbers, operands and effects come from
`instruction_table!` of crates/py_bytecode/src/instruction.rt. tools/instructions.py joins both, and sees that what an
instruction gives less what it takes is its effect.
"""
from __future__ import annotations

from typing import Dict, NamedTuple, Tuple, Union

# Values on the stack: a word for one value, or how many there are and a word. The counts are "n" and "2n" of the operand
# n, "bits" (one for each flag), "pair" (one more than UnpackEx has before and after), and "raise" (as many as its case says).
Values = Tuple[Union[str, Tuple[str, str]], ...]


class Words(NamedTuple):
    """What is said of an instruction. Values are told from the top of the stack down."""

    takes: Values = ()
    gives: Values = ()
    # what lies on the stack and stays, with its place
    looks: str = ""
    # the block that has to be there, the block that is pushed, the block that is popped
    wants: str = ""
    opens: str = ""
    closes: str = ""
    # "op" for the line of an operation, "load", "store", "delete", "truth", "next", or "" where nothing is listed
    event: str = "op"
    # the values of an answer are pushed in order, the last on top, unless this says that the first is on top
    first_on_top: bool = False


def words(takes: Values = (), gives: Values = (), **more: object) -> Words:
    """The words of an instruction that lists an operation."""
    return Words(takes, gives, **more)  # type: ignore[arg-type]


def silent(takes: Values = (), gives: Values = (), **more: object) -> Words:
    """The words of an instruction that lists nothing."""
    return Words(takes, gives, event="", **more)  # type: ignore[arg-type]


LOAD = Words(gives=("value",), event="load")
STORE = Words(takes=("value",), event="store")
DELETE = Words(event="delete")
MODULE = words(("names, or None", "level"), ("module",))
TWO = words(("right", "left"), ("result",))
CONDITION = Words(takes=("value",), event="truth")
KEPT_CONDITION = Words(takes=("value",), event="truth", looks="where it jumps, the value stays")
ARGUMENTS = ("n", "arguments, the last on top")
METHOD = ("function", "whether the object goes first", "object, or None")
KEYWORDS = ("n", "map of keywords, where the operand is 1")
VALUES = (("n", "values, the last on top"),)
ITERABLES = (("n", "iterables, the last on top"),)
FUNCTION_PARTS = ("qualified name", "code", ("bits", "one for each flag: cells (1), annotations (2), type parameters (16), keyword-only defaults (4), defaults (8)"))

WORDS: Dict[str, Words] = {
    "ImportName": MODULE,
    "ImportNameless": MODULE,
    "ImportStar": words(("module",)),
    "ImportFrom": words(gives=("value",), looks="the module on top"),
    "LoadFast": LOAD,
    "LoadNameAny": LOAD,
    "LoadGlobal": LOAD,
    "LoadDeref": LOAD,
    "LoadClassDeref": LOAD,
    "LoadClosure": silent(gives=("cell",)),
    "StoreFast": STORE,
    "StoreLocal": STORE,
    "StoreGlobal": STORE,
    "StoreDeref": STORE,
    "DeleteFast": DELETE,
    "DeleteLocal": DELETE,
    "DeleteGlobal": DELETE,
    "DeleteDeref": DELETE,
    "Subscript": words(("index", "container"), ("element",)),
    "StoreSubscript": words(("index", "container", "value")),
    "DeleteSubscript": words(("index", "container")),
    "LoadAttr": words(("object",), ("value",)),
    "StoreAttr": words(("object", "value")),
    "DeleteAttr": words(("object",)),
    "LoadMethod": words(("object",), METHOD),
    "LoadConst": silent(gives=("constant",)),
    "ReturnConst": silent(),
    "UnaryOperation": words(("operand",), ("result",)),
    "BinaryOperation": TWO,
    "BinaryOperationInplace": TWO,
    "CompareOperation": TWO,
    "TestOperation": TWO,
    "Pop": silent(("value",)),
    "Rotate2": silent(("a", "b"), ("b", "a")),
    "Rotate3": silent(("a", "b", "c"), ("b", "c", "a")),
    "Duplicate": silent(("a",), ("a", "a")),
    "Duplicate2": silent(("a", "b"), ("a", "b", "a", "b")),
    "GetIter": words(("iterable",), ("iterator",)),
    "CallFunctionPositional": words((ARGUMENTS, "callee"), ("result",)),
    "CallFunctionKeyword": words(("tuple of names", ARGUMENTS, "callee"), ("result",)),
    "CallFunctionEx": words((KEYWORDS, "tuple of arguments", "callee"), ("result",)),
    "CallMethodPositional": words((ARGUMENTS, *METHOD), ("result",)),
    "CallMethodKeyword": words(("tuple of names", ARGUMENTS, *METHOD), ("result",)),
    "CallMethodEx": words((KEYWORDS, "tuple of arguments", *METHOD), ("result",)),
    "BuildString": words((("n", "texts, the last on top"),), ("text",)),
    "BuildTuple": words(VALUES, ("tuple",)),
    "BuildList": words(VALUES, ("list",)),
    "BuildSet": words(VALUES, ("set",)),
    "BuildTupleUnpack": words(ITERABLES, ("tuple",)),
    "BuildListUnpack": words(ITERABLES, ("list",)),
    "BuildSetUnpack": words(ITERABLES, ("set",)),
    "BuildMapForCall": words((("n", "maps, the last on top"),), ("map",)),
    "BuildMap": words((("2n", "values and keys in turn, the last value on top"),), ("map",)),
    "DictUpdate": words(("map", "dict"), ("dict",)),
    "BuildSlice": words((("n", "step, where the operand is 1"), "upper", "lower"), ("slice",)),
    "ListAppend": words(("value",), looks="the list, n below the top once the value is off"),
    "SetAdd": words(("value",), looks="the set, n below the top once the value is off"),
    "MapAdd": words(("value", "key"), looks="the dict, n below the top once both are off"),
    "PrintExpr": words(("value",)),
    "LoadBuildClass": words(gives=("builder of classes",)),
    "UnpackSequence": words(("iterable",), (("n", "values, the first on top"),), first_on_top=True),
    "UnpackEx": words(("iterable",), (("pair", "values, the first on top"),), first_on_top=True),
    "FormatValue": words(("format", "value"), ("text",)),
    "MakeFunction": words(FUNCTION_PARTS, ("function",)),
    "YieldValue": words(("value",), ("what is sent",)),
    "YieldFrom": words(("what is sent first", "iterator"), ("result",)),
    "SetupAnnotation": words(),
    "TypeAlias": words(("name", "tuple of type parameters", "value"), ("alias",)),
    "Nop": silent(),
    "SetupLoop": silent(opens="Loop"),
    "PopBlock": silent(closes="Loop, Except or Finally"),
    "PopException": silent(closes="ExceptHandler"),
    "EnterFinally": silent(opens="FinallyHandler"),
    "EndFinally": silent(closes="FinallyHandler"),
    "WithCleanupStart": words(("exit",), ("answer of the exit",), wants="FinallyHandler on top"),
    "WithCleanupFinish": Words(takes=("answer of the exit",), event="truth", closes="FinallyHandler"),
    "Raise": words((("raise", "cause, exception; or exception; or nothing"),)),
    "ReturnValue": silent(("value",)),
    "ExtendedArg": silent(),
    "JumpIfTrue": CONDITION,
    "JumpIfFalse": CONDITION,
    "JumpIfTrueOrPop": KEPT_CONDITION,
    "JumpIfFalseOrPop": KEPT_CONDITION,
    "ForIter": Words(gives=("next value",), event="next", looks="the iterator on top; at its end it is taken"),
    "Jump": silent(),
    "Break": silent(wants="a Loop among the blocks"),
    "Continue": silent(wants="a Loop among the blocks"),
    "SetupExcept": silent(opens="Except"),
    "SetupFinally": silent(opens="Finally"),
    "SetupWith": words(("manager",), ("what was entered", "exit"), opens="Finally"),
    "TypeVar": words(("name",), ("type variable",)),
    "TypeVarWithBound": words(("name", "bound"), ("type variable",)),
}
