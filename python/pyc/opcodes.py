"""The instructions, by their numbers in files of code (crates/py_codefile/README.md)."""
from __future__ import annotations

NAMES: tuple[str, ...] = tuple(
    """
    ImportName ImportNameless ImportStar ImportFrom LoadFast LoadNameAny LoadGlobal LoadDeref LoadClassDeref LoadClosure
    StoreFast StoreLocal StoreGlobal StoreDeref DeleteFast DeleteLocal DeleteGlobal DeleteDeref Subscript StoreSubscript
    DeleteSubscript LoadAttr StoreAttr DeleteAttr LoadMethod LoadConst ReturnConst UnaryOperation BinaryOperation BinaryOperationInplace
    CompareOperation TestOperation Pop Rotate2 Rotate3 Duplicate Duplicate2 GetIter CallFunctionPositional CallFunctionKeyword
    CallFunctionEx CallMethodPositional CallMethodKeyword CallMethodEx BuildString BuildTuple BuildList BuildSet BuildTupleUnpack BuildListUnpack
    BuildSetUnpack BuildMapForCall BuildMap DictUpdate BuildSlice ListAppend SetAdd MapAdd PrintExpr LoadBuildClass
    UnpackSequence UnpackEx FormatValue MakeFunction YieldValue YieldFrom SetupAnnotation TypeAlias Nop SetupLoop
    PopBlock PopException EnterFinally EndFinally WithCleanupStart WithCleanupFinish Raise ReturnValue ExtendedArg JumpIfTrue
    JumpIfFalse JumpIfTrueOrPop JumpIfFalseOrPop ForIter Jump Break Continue SetupExcept SetupFinally SetupWith
    TypeVar TypeVarWithBound
    """.split()
)

NUMBERS: dict[str, int] = {name: number for number, name in enumerate(NAMES)}
