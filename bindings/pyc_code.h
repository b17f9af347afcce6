/* The instructions of the code that pyc makes: numbers, operands, effects on the height of the value stack.
 *
 * docs/INSTRUCTIONS.md says what each does, and crates/py_codefile/README.md how a file holds code. This header is
 * written by tools/instructions.py. It wants no library, and compiles as C99 and as C++.
 */
#ifndef PYC_CODE_H
#define PYC_CODE_H

#include <stdint.h>

#ifdef __cplusplus
extern "C" {
#endif

/* How many instructions there are. */
#define PYC_INSTRUCTION_COUNT 92

/* The instructions by number. */
enum pyc_instruction {
    PYC_IMPORT_NAME = 0,
    PYC_IMPORT_NAMELESS = 1,
    PYC_IMPORT_STAR = 2,
    PYC_IMPORT_FROM = 3,
    PYC_LOAD_FAST = 4,
    PYC_LOAD_NAME_ANY = 5,
    PYC_LOAD_GLOBAL = 6,
    PYC_LOAD_DEREF = 7,
    PYC_LOAD_CLASS_DEREF = 8,
    PYC_LOAD_CLOSURE = 9,
    PYC_STORE_FAST = 10,
    PYC_STORE_LOCAL = 11,
    PYC_STORE_GLOBAL = 12,
    PYC_STORE_DEREF = 13,
    PYC_DELETE_FAST = 14,
    PYC_DELETE_LOCAL = 15,
    PYC_DELETE_GLOBAL = 16,
    PYC_DELETE_DEREF = 17,
    PYC_SUBSCRIPT = 18,
    PYC_STORE_SUBSCRIPT = 19,
    PYC_DELETE_SUBSCRIPT = 20,
    PYC_LOAD_ATTR = 21,
    PYC_STORE_ATTR = 22,
    PYC_DELETE_ATTR = 23,
    PYC_LOAD_METHOD = 24,
    PYC_LOAD_CONST = 25,
    PYC_RETURN_CONST = 26,
    PYC_UNARY_OPERATION = 27,
    PYC_BINARY_OPERATION = 28,
    PYC_BINARY_OPERATION_INPLACE = 29,
    PYC_COMPARE_OPERATION = 30,
    PYC_TEST_OPERATION = 31,
    PYC_POP = 32,
    PYC_ROTATE_2 = 33,
    PYC_ROTATE_3 = 34,
    PYC_DUPLICATE = 35,
    PYC_DUPLICATE_2 = 36,
    PYC_GET_ITER = 37,
    PYC_CALL_FUNCTION_POSITIONAL = 38,
    PYC_CALL_FUNCTION_KEYWORD = 39,
    PYC_CALL_FUNCTION_EX = 40,
    PYC_CALL_METHOD_POSITIONAL = 41,
    PYC_CALL_METHOD_KEYWORD = 42,
    PYC_CALL_METHOD_EX = 43,
    PYC_BUILD_STRING = 44,
    PYC_BUILD_TUPLE = 45,
    PYC_BUILD_LIST = 46,
    PYC_BUILD_SET = 47,
    PYC_BUILD_TUPLE_UNPACK = 48,
    PYC_BUILD_LIST_UNPACK = 49,
    PYC_BUILD_SET_UNPACK = 50,
    PYC_BUILD_MAP_FOR_CALL = 51,
    PYC_BUILD_MAP = 52,
    PYC_DICT_UPDATE = 53,
    PYC_BUILD_SLICE = 54,
    PYC_LIST_APPEND = 55,
    PYC_SET_ADD = 56,
    PYC_MAP_ADD = 57,
    PYC_PRINT_EXPR = 58,
    PYC_LOAD_BUILD_CLASS = 59,
    PYC_UNPACK_SEQUENCE = 60,
    PYC_UNPACK_EX = 61,
    PYC_FORMAT_VALUE = 62,
    PYC_MAKE_FUNCTION = 63,
    PYC_YIELD_VALUE = 64,
    PYC_YIELD_FROM = 65,
    PYC_SETUP_ANNOTATION = 66,
    PYC_TYPE_ALIAS = 67,
    PYC_NOP = 68,
    PYC_SETUP_LOOP = 69,
    PYC_POP_BLOCK = 70,
    PYC_POP_EXCEPTION = 71,
    PYC_ENTER_FINALLY = 72,
    PYC_END_FINALLY = 73,
    PYC_WITH_CLEANUP_START = 74,
    PYC_WITH_CLEANUP_FINISH = 75,
    PYC_RAISE = 76,
    PYC_RETURN_VALUE = 77,
    PYC_EXTENDED_ARG = 78,
    PYC_JUMP_IF_TRUE = 79,
    PYC_JUMP_IF_FALSE = 80,
    PYC_JUMP_IF_TRUE_OR_POP = 81,
    PYC_JUMP_IF_FALSE_OR_POP = 82,
    PYC_FOR_ITER = 83,
    PYC_JUMP = 84,
    PYC_BREAK = 85,
    PYC_CONTINUE = 86,
    PYC_SETUP_EXCEPT = 87,
    PYC_SETUP_FINALLY = 88,
    PYC_SETUP_WITH = 89,
    PYC_TYPE_VAR = 90,
    PYC_TYPE_VAR_WITH_BOUND = 91
};

/* What an operand is (docs/INSTRUCTIONS.md). */
enum pyc_operand {
    PYC_OPERAND_NONE = 0,
    PYC_OPERAND_CONST = 1,
    PYC_OPERAND_NAME = 2,
    PYC_OPERAND_VAR = 3,
    PYC_OPERAND_CELL = 4,
    PYC_OPERAND_LABEL = 5,
    PYC_OPERAND_COUNT = 6,
    PYC_OPERAND_FLAGS = 7,
    PYC_OPERAND_PAIR = 8,
    PYC_OPERAND_BIT = 9,
    PYC_OPERAND_UNARY = 10,
    PYC_OPERAND_BINARY = 11,
    PYC_OPERAND_COMPARE = 12,
    PYC_OPERAND_TEST = 13,
    PYC_OPERAND_RAISE_KIND = 14,
    PYC_OPERAND_CONVERSION = 15
};

/* The cases of an operand of kind Unary. */
enum pyc_unary_case {
    PYC_UNARY_PLUS = 0,
    PYC_UNARY_MINUS = 1,
    PYC_UNARY_NOT = 2,
    PYC_UNARY_INVERT = 3
};

/* The cases of an operand of kind Binary. */
enum pyc_binary_case {
    PYC_BINARY_ADD = 0,
    PYC_BINARY_SUBTRACT = 1,
    PYC_BINARY_MULTIPLY = 2,
    PYC_BINARY_MATRIX_MULTIPLY = 3,
    PYC_BINARY_DIVIDE = 4,
    PYC_BINARY_FLOOR_DIVIDE = 5,
    PYC_BINARY_MODULO = 6,
    PYC_BINARY_POWER = 7,
    PYC_BINARY_LSHIFT = 8,
    PYC_BINARY_RSHIFT = 9,
    PYC_BINARY_OR = 10,
    PYC_BINARY_XOR = 11,
    PYC_BINARY_AND = 12
};

/* The cases of an operand of kind Compare. */
enum pyc_compare_case {
    PYC_COMPARE_LESS = 0,
    PYC_COMPARE_GREATER = 1,
    PYC_COMPARE_NOT_EQUAL = 2,
    PYC_COMPARE_EQUAL = 3,
    PYC_COMPARE_LESS_OR_EQUAL = 4,
    PYC_COMPARE_GREATER_OR_EQUAL = 5
};

/* The cases of an operand of kind Test. */
enum pyc_test_case {
    PYC_TEST_IN = 0,
    PYC_TEST_NOT_IN = 1,
    PYC_TEST_IS = 2,
    PYC_TEST_IS_NOT = 3,
    PYC_TEST_EXCEPTION_MATCH = 4
};

/* The cases of an operand of kind RaiseKind. */
enum pyc_raise_case {
    PYC_RAISE_RAISE = 0,
    PYC_RAISE_RAISE_CAUSE = 1,
    PYC_RAISE_RERAISE = 2
};

/* The cases of an operand of kind Conversion. */
enum pyc_conversion_case {
    PYC_CONVERSION_NONE = 0,
    PYC_CONVERSION_STR = 1,
    PYC_CONVERSION_ASCII = 2,
    PYC_CONVERSION_REPR = 3
};

/* The flags of a code. */
enum pyc_code_flag {
    PYC_CODE_NEW_LOCALS = 1,
    PYC_CODE_IS_GENERATOR = 2,
    PYC_CODE_HAS_VARARGS = 8,
    PYC_CODE_HAS_VARKEYWORDS = 16,
    PYC_CODE_IS_OPTIMIZED = 32
};

/* What lies below the code for MakeFunction. */
enum pyc_make_function_flag {
    PYC_MAKE_FUNCTION_CLOSURE = 1,
    PYC_MAKE_FUNCTION_ANNOTATIONS = 2,
    PYC_MAKE_FUNCTION_KW_ONLY_DEFAULTS = 4,
    PYC_MAKE_FUNCTION_DEFAULTS = 8,
    PYC_MAKE_FUNCTION_TYPE_PARAMS = 16
};

/* What an effect counts of an operand. */
enum pyc_measure {
    PYC_MEASURE_OPERAND = 0, /* the operand itself */
    PYC_MEASURE_BITS = 1,    /* how many of its bits are set */
    PYC_MEASURE_PAIR = 2,    /* the sum of its two bytes */
    PYC_MEASURE_RAISE = 3    /* how many values a raise of this case takes */
};

/* base + times * the measure of the operand */
struct pyc_effect {
    int8_t base;
    int8_t times;
    uint8_t measure; /* enum pyc_measure */
};

struct pyc_instruction_row {
    const char *name;
    uint8_t operand;        /* enum pyc_operand */
    uint8_t leaves;         /* 1 where the next instruction never follows */
    struct pyc_effect next; /* where the next instruction follows */
    struct pyc_effect jump; /* where it jumps; as `next` where it never does */
};

/* The instructions by number. */
static const struct pyc_instruction_row pyc_instructions[PYC_INSTRUCTION_COUNT] = {
    {"ImportName", PYC_OPERAND_NAME, 0, {-1, 0, PYC_MEASURE_OPERAND}, {-1, 0, PYC_MEASURE_OPERAND}},
    {"ImportNameless", PYC_OPERAND_NONE, 0, {-1, 0, PYC_MEASURE_OPERAND}, {-1, 0, PYC_MEASURE_OPERAND}},
    {"ImportStar", PYC_OPERAND_NONE, 0, {-1, 0, PYC_MEASURE_OPERAND}, {-1, 0, PYC_MEASURE_OPERAND}},
    {"ImportFrom", PYC_OPERAND_NAME, 0, {1, 0, PYC_MEASURE_OPERAND}, {1, 0, PYC_MEASURE_OPERAND}},
    {"LoadFast", PYC_OPERAND_VAR, 0, {1, 0, PYC_MEASURE_OPERAND}, {1, 0, PYC_MEASURE_OPERAND}},
    {"LoadNameAny", PYC_OPERAND_NAME, 0, {1, 0, PYC_MEASURE_OPERAND}, {1, 0, PYC_MEASURE_OPERAND}},
    {"LoadGlobal", PYC_OPERAND_NAME, 0, {1, 0, PYC_MEASURE_OPERAND}, {1, 0, PYC_MEASURE_OPERAND}},
    {"LoadDeref", PYC_OPERAND_CELL, 0, {1, 0, PYC_MEASURE_OPERAND}, {1, 0, PYC_MEASURE_OPERAND}},
    {"LoadClassDeref", PYC_OPERAND_CELL, 0, {1, 0, PYC_MEASURE_OPERAND}, {1, 0, PYC_MEASURE_OPERAND}},
    {"LoadClosure", PYC_OPERAND_CELL, 0, {1, 0, PYC_MEASURE_OPERAND}, {1, 0, PYC_MEASURE_OPERAND}},
    {"StoreFast", PYC_OPERAND_VAR, 0, {-1, 0, PYC_MEASURE_OPERAND}, {-1, 0, PYC_MEASURE_OPERAND}},
    {"StoreLocal", PYC_OPERAND_NAME, 0, {-1, 0, PYC_MEASURE_OPERAND}, {-1, 0, PYC_MEASURE_OPERAND}},
    {"StoreGlobal", PYC_OPERAND_NAME, 0, {-1, 0, PYC_MEASURE_OPERAND}, {-1, 0, PYC_MEASURE_OPERAND}},
    {"StoreDeref", PYC_OPERAND_CELL, 0, {-1, 0, PYC_MEASURE_OPERAND}, {-1, 0, PYC_MEASURE_OPERAND}},
    {"DeleteFast", PYC_OPERAND_VAR, 0, {0, 0, PYC_MEASURE_OPERAND}, {0, 0, PYC_MEASURE_OPERAND}},
    {"DeleteLocal", PYC_OPERAND_NAME, 0, {0, 0, PYC_MEASURE_OPERAND}, {0, 0, PYC_MEASURE_OPERAND}},
    {"DeleteGlobal", PYC_OPERAND_NAME, 0, {0, 0, PYC_MEASURE_OPERAND}, {0, 0, PYC_MEASURE_OPERAND}},
    {"DeleteDeref", PYC_OPERAND_CELL, 0, {0, 0, PYC_MEASURE_OPERAND}, {0, 0, PYC_MEASURE_OPERAND}},
    {"Subscript", PYC_OPERAND_NONE, 0, {-1, 0, PYC_MEASURE_OPERAND}, {-1, 0, PYC_MEASURE_OPERAND}},
    {"StoreSubscript", PYC_OPERAND_NONE, 0, {-3, 0, PYC_MEASURE_OPERAND}, {-3, 0, PYC_MEASURE_OPERAND}},
    {"DeleteSubscript", PYC_OPERAND_NONE, 0, {-2, 0, PYC_MEASURE_OPERAND}, {-2, 0, PYC_MEASURE_OPERAND}},
    {"LoadAttr", PYC_OPERAND_NAME, 0, {0, 0, PYC_MEASURE_OPERAND}, {0, 0, PYC_MEASURE_OPERAND}},
    {"StoreAttr", PYC_OPERAND_NAME, 0, {-2, 0, PYC_MEASURE_OPERAND}, {-2, 0, PYC_MEASURE_OPERAND}},
    {"DeleteAttr", PYC_OPERAND_NAME, 0, {-1, 0, PYC_MEASURE_OPERAND}, {-1, 0, PYC_MEASURE_OPERAND}},
    {"LoadMethod", PYC_OPERAND_NAME, 0, {2, 0, PYC_MEASURE_OPERAND}, {2, 0, PYC_MEASURE_OPERAND}},
    {"LoadConst", PYC_OPERAND_CONST, 0, {1, 0, PYC_MEASURE_OPERAND}, {1, 0, PYC_MEASURE_OPERAND}},
    {"ReturnConst", PYC_OPERAND_CONST, 1, {0, 0, PYC_MEASURE_OPERAND}, {0, 0, PYC_MEASURE_OPERAND}},
    {"UnaryOperation", PYC_OPERAND_UNARY, 0, {0, 0, PYC_MEASURE_OPERAND}, {0, 0, PYC_MEASURE_OPERAND}},
    {"BinaryOperation", PYC_OPERAND_BINARY, 0, {-1, 0, PYC_MEASURE_OPERAND}, {-1, 0, PYC_MEASURE_OPERAND}},
    {"BinaryOperationInplace", PYC_OPERAND_BINARY, 0, {-1, 0, PYC_MEASURE_OPERAND}, {-1, 0, PYC_MEASURE_OPERAND}},
    {"CompareOperation", PYC_OPERAND_COMPARE, 0, {-1, 0, PYC_MEASURE_OPERAND}, {-1, 0, PYC_MEASURE_OPERAND}},
    {"TestOperation", PYC_OPERAND_TEST, 0, {-1, 0, PYC_MEASURE_OPERAND}, {-1, 0, PYC_MEASURE_OPERAND}},
    {"Pop", PYC_OPERAND_NONE, 0, {-1, 0, PYC_MEASURE_OPERAND}, {-1, 0, PYC_MEASURE_OPERAND}},
    {"Rotate2", PYC_OPERAND_NONE, 0, {0, 0, PYC_MEASURE_OPERAND}, {0, 0, PYC_MEASURE_OPERAND}},
    {"Rotate3", PYC_OPERAND_NONE, 0, {0, 0, PYC_MEASURE_OPERAND}, {0, 0, PYC_MEASURE_OPERAND}},
    {"Duplicate", PYC_OPERAND_NONE, 0, {1, 0, PYC_MEASURE_OPERAND}, {1, 0, PYC_MEASURE_OPERAND}},
    {"Duplicate2", PYC_OPERAND_NONE, 0, {2, 0, PYC_MEASURE_OPERAND}, {2, 0, PYC_MEASURE_OPERAND}},
    {"GetIter", PYC_OPERAND_NONE, 0, {0, 0, PYC_MEASURE_OPERAND}, {0, 0, PYC_MEASURE_OPERAND}},
    {"CallFunctionPositional", PYC_OPERAND_COUNT, 0, {0, -1, PYC_MEASURE_OPERAND}, {0, -1, PYC_MEASURE_OPERAND}},
    {"CallFunctionKeyword", PYC_OPERAND_COUNT, 0, {-1, -1, PYC_MEASURE_OPERAND}, {-1, -1, PYC_MEASURE_OPERAND}},
    {"CallFunctionEx", PYC_OPERAND_BIT, 0, {-1, -1, PYC_MEASURE_OPERAND}, {-1, -1, PYC_MEASURE_OPERAND}},
    {"CallMethodPositional", PYC_OPERAND_COUNT, 0, {-2, -1, PYC_MEASURE_OPERAND}, {-2, -1, PYC_MEASURE_OPERAND}},
    {"CallMethodKeyword", PYC_OPERAND_COUNT, 0, {-3, -1, PYC_MEASURE_OPERAND}, {-3, -1, PYC_MEASURE_OPERAND}},
    {"CallMethodEx", PYC_OPERAND_BIT, 0, {-3, -1, PYC_MEASURE_OPERAND}, {-3, -1, PYC_MEASURE_OPERAND}},
    {"BuildString", PYC_OPERAND_COUNT, 0, {1, -1, PYC_MEASURE_OPERAND}, {1, -1, PYC_MEASURE_OPERAND}},
    {"BuildTuple", PYC_OPERAND_COUNT, 0, {1, -1, PYC_MEASURE_OPERAND}, {1, -1, PYC_MEASURE_OPERAND}},
    {"BuildList", PYC_OPERAND_COUNT, 0, {1, -1, PYC_MEASURE_OPERAND}, {1, -1, PYC_MEASURE_OPERAND}},
    {"BuildSet", PYC_OPERAND_COUNT, 0, {1, -1, PYC_MEASURE_OPERAND}, {1, -1, PYC_MEASURE_OPERAND}},
    {"BuildTupleUnpack", PYC_OPERAND_COUNT, 0, {1, -1, PYC_MEASURE_OPERAND}, {1, -1, PYC_MEASURE_OPERAND}},
    {"BuildListUnpack", PYC_OPERAND_COUNT, 0, {1, -1, PYC_MEASURE_OPERAND}, {1, -1, PYC_MEASURE_OPERAND}},
    {"BuildSetUnpack", PYC_OPERAND_COUNT, 0, {1, -1, PYC_MEASURE_OPERAND}, {1, -1, PYC_MEASURE_OPERAND}},
    {"BuildMapForCall", PYC_OPERAND_COUNT, 0, {1, -1, PYC_MEASURE_OPERAND}, {1, -1, PYC_MEASURE_OPERAND}},
    {"BuildMap", PYC_OPERAND_COUNT, 0, {1, -2, PYC_MEASURE_OPERAND}, {1, -2, PYC_MEASURE_OPERAND}},
    {"DictUpdate", PYC_OPERAND_NONE, 0, {-1, 0, PYC_MEASURE_OPERAND}, {-1, 0, PYC_MEASURE_OPERAND}},
    {"BuildSlice", PYC_OPERAND_BIT, 0, {-1, -1, PYC_MEASURE_OPERAND}, {-1, -1, PYC_MEASURE_OPERAND}},
    {"ListAppend", PYC_OPERAND_COUNT, 0, {-1, 0, PYC_MEASURE_OPERAND}, {-1, 0, PYC_MEASURE_OPERAND}},
    {"SetAdd", PYC_OPERAND_COUNT, 0, {-1, 0, PYC_MEASURE_OPERAND}, {-1, 0, PYC_MEASURE_OPERAND}},
    {"MapAdd", PYC_OPERAND_COUNT, 0, {-2, 0, PYC_MEASURE_OPERAND}, {-2, 0, PYC_MEASURE_OPERAND}},
    {"PrintExpr", PYC_OPERAND_NONE, 0, {-1, 0, PYC_MEASURE_OPERAND}, {-1, 0, PYC_MEASURE_OPERAND}},
    {"LoadBuildClass", PYC_OPERAND_NONE, 0, {1, 0, PYC_MEASURE_OPERAND}, {1, 0, PYC_MEASURE_OPERAND}},
    {"UnpackSequence", PYC_OPERAND_COUNT, 0, {-1, 1, PYC_MEASURE_OPERAND}, {-1, 1, PYC_MEASURE_OPERAND}},
    {"UnpackEx", PYC_OPERAND_PAIR, 0, {0, 1, PYC_MEASURE_PAIR}, {0, 1, PYC_MEASURE_PAIR}},
    {"FormatValue", PYC_OPERAND_CONVERSION, 0, {-1, 0, PYC_MEASURE_OPERAND}, {-1, 0, PYC_MEASURE_OPERAND}},
    {"MakeFunction", PYC_OPERAND_FLAGS, 0, {-1, -1, PYC_MEASURE_BITS}, {-1, -1, PYC_MEASURE_BITS}},
    {"YieldValue", PYC_OPERAND_NONE, 0, {0, 0, PYC_MEASURE_OPERAND}, {0, 0, PYC_MEASURE_OPERAND}},
    {"YieldFrom", PYC_OPERAND_NONE, 0, {-1, 0, PYC_MEASURE_OPERAND}, {-1, 0, PYC_MEASURE_OPERAND}},
    {"SetupAnnotation", PYC_OPERAND_NONE, 0, {0, 0, PYC_MEASURE_OPERAND}, {0, 0, PYC_MEASURE_OPERAND}},
    {"TypeAlias", PYC_OPERAND_NONE, 0, {-2, 0, PYC_MEASURE_OPERAND}, {-2, 0, PYC_MEASURE_OPERAND}},
    {"Nop", PYC_OPERAND_NONE, 0, {0, 0, PYC_MEASURE_OPERAND}, {0, 0, PYC_MEASURE_OPERAND}},
    {"SetupLoop", PYC_OPERAND_NONE, 0, {0, 0, PYC_MEASURE_OPERAND}, {0, 0, PYC_MEASURE_OPERAND}},
    {"PopBlock", PYC_OPERAND_NONE, 0, {0, 0, PYC_MEASURE_OPERAND}, {0, 0, PYC_MEASURE_OPERAND}},
    {"PopException", PYC_OPERAND_NONE, 0, {0, 0, PYC_MEASURE_OPERAND}, {0, 0, PYC_MEASURE_OPERAND}},
    {"EnterFinally", PYC_OPERAND_NONE, 0, {0, 0, PYC_MEASURE_OPERAND}, {0, 0, PYC_MEASURE_OPERAND}},
    {"EndFinally", PYC_OPERAND_NONE, 0, {0, 0, PYC_MEASURE_OPERAND}, {0, 0, PYC_MEASURE_OPERAND}},
    {"WithCleanupStart", PYC_OPERAND_NONE, 0, {0, 0, PYC_MEASURE_OPERAND}, {0, 0, PYC_MEASURE_OPERAND}},
    {"WithCleanupFinish", PYC_OPERAND_NONE, 0, {-1, 0, PYC_MEASURE_OPERAND}, {-1, 0, PYC_MEASURE_OPERAND}},
    {"Raise", PYC_OPERAND_RAISE_KIND, 1, {0, -1, PYC_MEASURE_RAISE}, {0, -1, PYC_MEASURE_RAISE}},
    {"ReturnValue", PYC_OPERAND_NONE, 1, {-1, 0, PYC_MEASURE_OPERAND}, {-1, 0, PYC_MEASURE_OPERAND}},
    {"ExtendedArg", PYC_OPERAND_COUNT, 0, {0, 0, PYC_MEASURE_OPERAND}, {0, 0, PYC_MEASURE_OPERAND}},
    {"JumpIfTrue", PYC_OPERAND_LABEL, 0, {-1, 0, PYC_MEASURE_OPERAND}, {-1, 0, PYC_MEASURE_OPERAND}},
    {"JumpIfFalse", PYC_OPERAND_LABEL, 0, {-1, 0, PYC_MEASURE_OPERAND}, {-1, 0, PYC_MEASURE_OPERAND}},
    {"JumpIfTrueOrPop", PYC_OPERAND_LABEL, 0, {-1, 0, PYC_MEASURE_OPERAND}, {0, 0, PYC_MEASURE_OPERAND}},
    {"JumpIfFalseOrPop", PYC_OPERAND_LABEL, 0, {-1, 0, PYC_MEASURE_OPERAND}, {0, 0, PYC_MEASURE_OPERAND}},
    {"ForIter", PYC_OPERAND_LABEL, 0, {1, 0, PYC_MEASURE_OPERAND}, {-1, 0, PYC_MEASURE_OPERAND}},
    {"Jump", PYC_OPERAND_LABEL, 1, {0, 0, PYC_MEASURE_OPERAND}, {0, 0, PYC_MEASURE_OPERAND}},
    {"Break", PYC_OPERAND_LABEL, 1, {0, 0, PYC_MEASURE_OPERAND}, {0, 0, PYC_MEASURE_OPERAND}},
    {"Continue", PYC_OPERAND_LABEL, 1, {0, 0, PYC_MEASURE_OPERAND}, {0, 0, PYC_MEASURE_OPERAND}},
    {"SetupExcept", PYC_OPERAND_LABEL, 0, {0, 0, PYC_MEASURE_OPERAND}, {1, 0, PYC_MEASURE_OPERAND}},
    {"SetupFinally", PYC_OPERAND_LABEL, 0, {0, 0, PYC_MEASURE_OPERAND}, {0, 0, PYC_MEASURE_OPERAND}},
    {"SetupWith", PYC_OPERAND_LABEL, 0, {1, 0, PYC_MEASURE_OPERAND}, {0, 0, PYC_MEASURE_OPERAND}},
    {"TypeVar", PYC_OPERAND_NONE, 0, {0, 0, PYC_MEASURE_OPERAND}, {0, 0, PYC_MEASURE_OPERAND}},
    {"TypeVarWithBound", PYC_OPERAND_NONE, 0, {-1, 0, PYC_MEASURE_OPERAND}, {-1, 0, PYC_MEASURE_OPERAND}}
};

/* The change of the height of the value stack that an instruction below PYC_INSTRUCTION_COUNT makes with an operand in
 * its range: where the next instruction follows, or, with a `jumps` that is not 0, where it jumps.
 */
static inline int64_t pyc_stack_effect(uint8_t instruction, uint32_t operand, int jumps)
{
    const struct pyc_effect effect = jumps ? pyc_instructions[instruction].jump : pyc_instructions[instruction].next;
    int64_t measure = (int64_t)operand;

    if (effect.measure == PYC_MEASURE_BITS) {
        for (measure = 0; operand != 0; operand >>= 1) {
            measure += (int64_t)(operand & 1);
        }
    } else if (effect.measure == PYC_MEASURE_PAIR) {
        measure = (int64_t)(operand % 256 + operand / 256);
    } else if (effect.measure == PYC_MEASURE_RAISE) {
        measure = operand == PYC_RAISE_RAISE ? 1 : operand == PYC_RAISE_RAISE_CAUSE ? 2 : 0;
    }
    return effect.base + effect.times * measure;
}

#ifdef __cplusplus
}
#endif

#endif
