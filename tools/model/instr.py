"""The instructions: name, kind of operand, effect, effect of the jump, how many values it gives, and how many it looks at.

effect(a) and gives(a) are functions of the operand; it takes gives - effect values.
A jump has a jump effect; `gives` is then that of the fall through.
"""


def _bits(a):
    return bin(a).count("1")


def _pair(a):
    return (a & 0xFF) + (a >> 8)


UNARY = ["Plus", "Minus", "Not", "Invert"]
BINARY = ["Add", "Subtract", "Multiply", "MatrixMultiply", "Divide", "FloorDivide", "Modulo", "Power", "Lshift", "Rshift", "Or", "Xor", "And"]
COMPARE = ["Less", "Greater", "NotEqual", "Equal", "LessOrEqual", "GreaterOrEqual"]
TEST = ["In", "NotIn", "Is", "IsNot", "ExceptionMatch"]
RAISE = ["Raise", "RaiseCause", "Reraise"]
CONVERSION = ["None", "Str", "Ascii", "Repr"]
CASES = {"Unary": UNARY, "Binary": BINARY, "Compare": COMPARE, "Test": TEST, "RaiseKind": RAISE, "Conversion": CONVERSION}

# rows of the first table: names, operand kinds, effects, gives, looks
_ROWS = []


def _row(names, kinds, effects, gives=1, looks=0):
    names = names.split()
    kinds = kinds.split() if isinstance(kinds, str) else kinds
    if len(kinds) == 1:
        kinds = kinds * len(names)
    if not isinstance(effects, list):
        effects = [effects] * len(names)
    for n, k, e in zip(names, kinds, effects):
        eff = e if callable(e) else (lambda a, e=e: e)
        g = gives if callable(gives) else (lambda a, g=gives: g)
        l = looks if callable(looks) else (lambda a, l=looks: l)
        _ROWS.append((n, k, eff, None, g, l))


_row("ImportName", "Name", -1)
_row("ImportNameless", "None", -1)
_row("ImportStar", "None", -1, gives=0)
_row("ImportFrom", "Name", 1, looks=1)
_row("LoadFast LoadNameAny LoadGlobal LoadDeref LoadClassDeref LoadClosure", "Var Name Name Cell Cell Cell", 1)
_row("StoreFast StoreLocal StoreGlobal StoreDeref", "Var Name Name Cell", -1, gives=0)
_row("DeleteFast DeleteLocal DeleteGlobal DeleteDeref", "Var Name Name Cell", 0, gives=0)
_row("Subscript", "None", -1)
_row("StoreSubscript", "None", -3, gives=0)
_row("DeleteSubscript", "None", -2, gives=0)
_row("LoadAttr", "Name", 0)
_row("StoreAttr", "Name", -2, gives=0)
_row("DeleteAttr", "Name", -1, gives=0)
_row("LoadMethod", "Name", 2, gives=3)
_row("LoadConst", "Const", 1)
_row("ReturnConst", "Const", 0, gives=0)
_row("UnaryOperation", "Unary", 0)
_row("BinaryOperation BinaryOperationInplace", "Binary", -1)
_row("CompareOperation", "Compare", -1)
_row("TestOperation", "Test", -1)
_row("Pop", "None", -1, gives=0)
_row("Rotate2", "None", 0, gives=2)
_row("Rotate3", "None", 0, gives=3)
_row("Duplicate", "None", 1, gives=2)
_row("Duplicate2", "None", 2, gives=4)
_row("GetIter", "None", 0)
_row("CallFunctionPositional CallFunctionKeyword", "Count", [lambda a: -a, lambda a: -a - 1])
_row("CallFunctionEx", "Bit", lambda a: -1 - a)
_row("CallMethodPositional CallMethodKeyword CallMethodEx", "Count Count Bit", [lambda a: -a - 2, lambda a: -a - 3, lambda a: -3 - a])
_row("BuildString BuildTuple BuildList BuildSet BuildTupleUnpack BuildListUnpack BuildSetUnpack BuildMapForCall", "Count", lambda a: 1 - a)
_row("BuildMap", "Count", lambda a: 1 - 2 * a)
_row("DictUpdate", "None", -1)
_row("BuildSlice", "Bit", lambda a: -1 - a)
_row("ListAppend SetAdd MapAdd", "Count", [-1, -1, -2], gives=0, looks=lambda a: a + 1)
_row("PrintExpr", "None", -1, gives=0)
_row("LoadBuildClass", "None", 1)
_row("UnpackSequence", "Count", lambda a: a - 1, gives=lambda a: a)
_row("UnpackEx", "Pair", _pair, gives=lambda a: _pair(a) + 1)
_row("FormatValue", "Conversion", -1)
_row("MakeFunction", "Flags", lambda a: -1 - _bits(a))
_row("YieldValue YieldFrom", "None", [0, -1])
_row("SetupAnnotation", "None", 0, gives=0)
_row("TypeAlias", "None", -2)
_row("Nop", "None", 0, gives=0)
_row("SetupLoop PopBlock PopException EnterFinally EndFinally", "None", 0, gives=0)
_row("WithCleanupStart", "None", 0, gives=0, looks=1)
_row("WithCleanupFinish", "None", -1, gives=0)
_row("Raise", "RaiseKind", lambda a: [-1, -2, 0][a], gives=0)
_row("ReturnValue", "None", -1, gives=0)
_row("ExtendedArg", "Count", 0, gives=0)

# jumps: fall through, jump, gives on fall through, looks
def _jump(names, fall, jump, gives=0, looks=0):
    for n in names.split():
        _ROWS.append((n, "Label", lambda a, e=fall: e, jump, lambda a, g=gives: g, lambda a, l=looks: l))


_jump("JumpIfTrue JumpIfFalse", -1, -1)
_jump("JumpIfTrueOrPop JumpIfFalseOrPop", -1, 0)
_jump("ForIter", 1, -1, gives=1, looks=1)
_jump("Jump Break Continue", 0, 0)
_jump("SetupExcept", 0, 1)
_jump("SetupFinally", 0, 0)
_jump("SetupWith", 1, 0, gives=2)
# type parameters: TypeVar 90, TypeVarWithBound 91
_row("TypeVar", "None", 0)
_row("TypeVarWithBound", "None", -1)

TABLE = {r[0]: r for r in _ROWS}
NUMBER = {r[0]: i for i, r in enumerate(_ROWS)}
NAME_OF = [r[0] for r in _ROWS]
UNCONDITIONAL = {"Jump", "Break", "Continue", "ReturnValue", "ReturnConst", "Raise"}


def operand_kind(op):
    return TABLE[op][1]


def has_target(op):
    return TABLE[op][1] == "Label"


def unconditional_branch(op):
    return op in UNCONDITIONAL


def stack_effect(op, arg, jump=False):
    r = TABLE[op]
    return r[3] if jump and r[3] is not None else r[2](arg)


def gives(op, arg):
    return TABLE[op][4](arg)


def looks(op, arg):
    return TABLE[op][5](arg)


def takes(op, arg):
    return gives(op, arg) - TABLE[op][2](arg)


def in_range(op, arg, sizes, python_order=True):
    """sizes: dict Const, Name, Var, Cell -> length. Labels are not asked here."""
    kind = operand_kind(op)
    if kind == "None":
        return arg == 0
    if kind in ("Const", "Name", "Var", "Cell"):
        return arg < sizes[kind]
    if kind == "Count":
        return arg < 2**30
    if kind == "Flags":
        return arg < (32 if python_order else 16)
    if kind == "Pair":
        return arg < 2**16
    if kind == "Bit":
        return arg < 2
    if kind == "Label":
        return True
    return arg < len(CASES[kind])


def instr_size(arg):
    return 1 if arg <= 0xFF else 2 if arg <= 0xFFFF else 3 if arg <= 0xFFFFFF else 4
