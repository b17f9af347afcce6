#!/usr/bin/env python3
"""Writes what is told of the instructions in several places: tables of docs/INSTRUCTIONS.md, the header
bindings/pyc_code.h, and python/pyc/instructions.json.

usage: instructions.py (--write | --check)

Numbers, operands and effects come from crates/py_bytecode/src/instruction.rt, the cases from
crates/py_listing/specs/Listing.antt, the flags from crates/py_bytecode/src/flags.rt, and the words from
tools/instruction_words.py. The worked runs come from the machine of tools/model. In the page these stand between two
marks each; what stands elsewhere is written by hand. With --check nothing is written, and the status is 1 where a file
is another, or where the parts do not fit one another.
"""
from __future__ import annotations

import argparse
import ast
import json
import pathlib
import re
import sys
from typing import Any, Dict, List, NamedTuple, Tuple, Union

from instruction_words import WORDS, Words

TOP = pathlib.Path(__file__).resolve().parent.parent
sys.path[:0] = [str(TOP / "python"), str(TOP / "tools" / "model")]

import instr
from pyc.commands.instructions import amount_text, values_text

PAGE = TOP / "docs" / "INSTRUCTIONS.md"
HEADER = TOP / "bindings" / "pyc_code.h"
JSON = TOP / "python" / "pyc" / "instructions.json"
TABLE = TOP / "crates" / "py_bytecode" / "src" / "instruction.rt"
FLAGS = TOP / "crates" / "py_bytecode" / "src" / "flags.rt"
RANGES = TOP / "crates" / "py_bytecode" / "specs" / "Table.antt"
CASES = TOP / "crates" / "py_listing" / "specs" / "Listing.antt"
CODE_FILE = TOP / "crates" / "py_codefile" / "README.md"

# What an operand of a kind is, for the kinds without cases.
KINDS = {
    "None": "0",
    "Const": "a place among the constants",
    "Name": "a place among the names",
    "Var": "a place among the local variables",
    "Cell": "a place among the cells and then the free names",
    "Label": "the place of a unit of this code",
    "Count": "a number below 2^30",
    "Flags": "a sum of flags, below 32",
    "Pair": "before + 256 * after, below 2^16",
    "Bit": "0 or 1",
}


class Wrong(Exception):
    """What does not fit."""


class Amount(NamedTuple):
    """base + times * what `of` says of the operand: `n` the operand itself, `bits` how many of its bits are set, `pair`
    the sum of its two bytes, `raise` how many values a raise of the case takes."""

    base: int
    times: int = 0
    of: str = "n"

    def at(self, operand: int) -> int:
        """The number for an operand."""
        known = {"n": operand, "bits": bin(operand).count("1"), "pair": operand % 256 + operand // 256}
        measure = [1, 2, 0][operand] if self.of == "raise" else known[self.of]
        return self.base + self.times * measure


class Row(NamedTuple):
    """An instruction, as `instruction_table!` has it."""

    number: int
    name: str
    operand: str
    falls: Amount
    jumps: Amount
    leaves: bool


SPECIAL = {
    "(n % 256 + n / 256) as i32": Amount(0, 1, "pair"),
    "-1 - bits(n)": Amount(-1, -1, "bits"),
    "raise(n)": Amount(0, -1, "raise"),
}


def linear(tree: ast.expr) -> Tuple[int, int]:
    """An expression over n as a number and a factor of n."""
    if isinstance(tree, ast.Constant) and isinstance(tree.value, int):
        return tree.value, 0
    if isinstance(tree, ast.Name) and tree.id == "n":
        return 0, 1
    if isinstance(tree, ast.UnaryOp) and isinstance(tree.op, ast.USub):
        base, times = linear(tree.operand)
        return -base, -times
    if isinstance(tree, ast.BinOp):
        left, right = linear(tree.left), linear(tree.right)
        if isinstance(tree.op, (ast.Add, ast.Sub)):
            sign = 1 if isinstance(tree.op, ast.Add) else -1
            return left[0] + sign * right[0], left[1] + sign * right[1]
        if isinstance(tree.op, ast.Mult) and left[1] == 0:
            return left[0] * right[0], left[0] * right[1]
    raise Wrong("an effect has another form: " + ast.dump(tree))


def amount(text: str) -> Amount:
    """An effect as the table writes it."""
    if text in SPECIAL:
        return SPECIAL[text]
    return Amount(*linear(ast.parse(text.replace("(n as i32)", "n"), mode="eval").body))


ROW = re.compile(r"^ *(\w+): (\w+), \((.*)\), \((.*)\), (goes_on|leaves);$", re.M)


def rows() -> List[Row]:
    """The instructions by number."""
    text = TABLE.read_text(encoding="utf-8")
    body = text.split("instruction_column! {", 1)[1].split("\n        }\n", 1)[0]
    found = [Row(i, n, k, amount(f), amount(j), a == "leaves") for i, (n, k, f, j, a) in enumerate(ROW.findall(body))]
    enumeration = re.findall(r"^    (\w+),$", text.split("pub enum Instruction {")[1].split("\n}", 1)[0], re.M)
    numbered = re.findall(r"`(\w+)`", CODE_FILE.read_text(encoding="utf-8").split("| From |")[1].split("\n\n")[0])
    names = [row.name for row in found]
    if not names == enumeration == numbered:
        raise Wrong("the table, the enumeration and the table of numbers of py_codefile/README.md have not the same names in one order")
    if names != list(WORDS):
        raise Wrong("tools/instruction_words.py has other names, or another order")
    return found


def ranges() -> Dict[str, int]:
    """The least number that is too large for each kind that counts or enumerates."""
    found = re.findall(r"^range_of kind\.(\w+) = Some (?:\((\d+) \^ (\d+)\)|(\d+))$", RANGES.read_text(encoding="utf-8"), re.M)
    return {kind: int(whole) if whole else int(base) ** int(power) for kind, base, power, whole in found}


def cases() -> Dict[str, List[str]]:
    """The names of the cases of each kind that has any, by number."""
    found = re.findall(r"^case_names kind\.(\w+) = (.*) ∷ \[\]$", CASES.read_text(encoding="utf-8"), re.M)
    return {kind: re.findall(r'codes "(\w+)"', text) for kind, text in found}


def flags() -> Dict[str, Dict[str, int]]:
    """The flags of a code and of MakeFunction."""
    found = re.findall(r"pub const (\w+): (\w+) = \2\(0x(\w+)\);", FLAGS.read_text(encoding="utf-8"))
    out: Dict[str, Dict[str, int]] = {"CodeFlags": {}, "MakeFunctionFlags": {}}
    for name, of, value in found:
        out[of][name] = int(value, 16)
    return out


COUNTS = {
    "1": Amount(1), "n": Amount(0, 1), "2n": Amount(0, 2), "bits": Amount(0, 1, "bits"), "pair": Amount(1, 1, "pair"),
    "raise": Amount(0, 1, "raise"),
}


def counted(value: Union[str, Tuple[str, str]]) -> Tuple[str, str]:
    """How many values, and a word for them."""
    return ("1", value) if isinstance(value, str) else value


def number_of(values: Any, operand: int) -> int:
    """How many values these are."""
    return sum(COUNTS[counted(value)[0]].at(operand) for value in values)


def compare_words(row: Row, limits: Dict[str, int]) -> None:
    """What is given less what is taken is the effect, for each operand that is tried."""
    words = WORDS[row.name]
    for operand in [x for x in (0, 1, 2, 3, 5, 31, 256, 515) if x < limits.get(row.operand, 1 << 30)]:
        if number_of(words.gives, operand) - number_of(words.takes, operand) != row.falls.at(operand):
            raise Wrong("%s %d takes and gives another number of values than its effect says" % (row.name, operand))


def compare_model(table: List[Row]) -> None:
    """The model, which was written apart, has the same numbers, kinds, effects and cases."""
    if instr.NAME_OF != [row.name for row in table] or instr.CASES != cases():
        raise Wrong("the model has other names or cases")
    for row in table:
        operands = range(3) if row.name == "Raise" else (0, 1, 2, 3, 5, 31, 515)
        same = instr.operand_kind(row.name) == row.operand and instr.unconditional_branch(row.name) == row.leaves
        if not same or any(instr.stack_effect(row.name, x, j) != (row.jumps if j else row.falls).at(x) for x in operands for j in (False, True)):
            raise Wrong("the model has another row for " + row.name)


# the page
def blocks_text(words: Words) -> str:
    """What an instruction has to do with blocks."""
    parts = (("wants ", words.wants), ("opens ", words.opens), ("closes ", words.closes))
    return ", ".join(verb + block for verb, block in parts if block)


def event_text(row: Row, kinds: Dict[str, List[str]]) -> str:
    """What a trace lists, in words of the page."""
    event = WORDS[row.name].event
    if event in ("load", "store", "delete"):
        return "`%s` name" % event
    if event != "op":
        return "`%s`" % event if event else ""
    if row.name in ("ListAppend", "SetAdd", "MapAdd"):
        return "`op`"
    detail = "case" if row.operand in kinds else {"None": "", "Label": "", "Name": "name"}.get(row.operand, "number")
    return ("`op` " + detail).strip()


def table_text(table: List[Row]) -> str:
    """The table of instructions."""
    kinds = cases()
    lines = ["| No. | Instruction | Operand | Takes | Gives | Looks at | Next | Jump | Blocks | Lists |", "|---|---|---|---|---|---|---|---|---|---|"]
    for row in table:
        words = WORDS[row.name]
        falls, jumps = (amount_text(amount_json(it)) for it in (row.falls, row.jumps))
        takes, gives = (values_text(values_json(it), row.operand) for it in (words.takes, words.gives))
        cells = [
            str(row.number), "`%s`" % row.name, "" if row.operand == "None" else row.operand, takes, gives,
            words.looks, "(%s)" % falls if row.leaves else falls, jumps if row.operand == "Label" else "", blocks_text(words), event_text(row, kinds),
        ]
        lines.append("| " + " | ".join(cells) + " |")
    return "\n".join(lines)


def operands_text() -> str:
    """The kinds of operands with their ranges."""
    lines = ["| Kind | The operand is |", "|---|---|"]
    for kind, text in KINDS.items():
        lines.append("| %s | %s |" % (kind, text))
    for kind, names in cases().items():
        lines.append("| %s | the number of a case, below %d |" % (kind, len(names)))
    return "\n".join(lines)


def cases_text() -> str:
    """The cases by number."""
    lines = ["| Kind | Cases |", "|---|---|"]
    for kind, names in cases().items():
        lines.append("| %s | %s |" % (kind, ", ".join("%d %s" % case for case in enumerate(names))))
    return "\n".join(lines)


def flags_text() -> str:
    """The flags of a code."""
    return ", ".join("%d `%s`" % (value, name) for name, value in flags()["CodeFlags"].items()) + "."


def page_text(old: str, table: List[Row]) -> str:
    """The page with its tables new."""
    import worked_runs

    parts = {"operands": operands_text(), "table": table_text(table), "cases": cases_text(), "code flags": flags_text(), **worked_runs.parts()}
    new = old
    for name, text in parts.items():
        begin, end = "<!-- %s: tools/instructions.py writes these lines -->\n" % name, "<!-- %s end -->\n" % name
        if new.count(begin) != 1 or new.count(end) != 1:
            raise Wrong("docs/INSTRUCTIONS.md has not each of the marks of `%s` once" % name)
        before, rest = new.split(begin)
        new = before + begin + "\n" + text + "\n\n" + end + rest.split(end)[1]
    compare_page(new, table)
    return new


def compare_page(page: str, table: List[Row]) -> None:
    """Each instruction has one row in the tables that are written by hand, in the part `What each does`."""
    part = page.split("\n## What each does\n")[1].split("\n## ")[0]
    told = [name for cell in re.findall(r"^\| ((?:`\w+`(?:, )?)+) \|", part, re.M) for name in re.findall(r"`(\w+)`", cell)]
    for row in table:
        if told.count(row.name) != 1:
            raise Wrong("docs/INSTRUCTIONS.md says %d times what %s does" % (told.count(row.name), row.name))


# JSON
def amount_json(it: Amount) -> Dict[str, Any]:
    return {"base": it.base, "times": it.times, "of": it.of}


def values_json(values: Any) -> List[Dict[str, Any]]:
    return [{"count": amount_json(COUNTS[count]), "what": word} for count, word in map(counted, values)]


def row_json(row: Row) -> Dict[str, Any]:
    """An instruction as an object of the file."""
    words = WORDS[row.name]
    return {
        "number": row.number, "name": row.name, "operand": row.operand, "next": amount_json(row.falls), "jump": amount_json(row.jumps),
        "leaves": row.leaves, "takes": values_json(words.takes), "gives": values_json(words.gives), "first_on_top": words.first_on_top,
        "looks": words.looks, "wants": words.wants, "opens": words.opens, "closes": words.closes, "lists": words.event,
    }


def json_text(table: List[Row]) -> str:
    """The file, one line an instruction."""
    limits, kinds = ranges(), cases()
    operands = [
        {"kind": kind, "below": limits.get(kind), "is": KINDS.get(kind, "the number of a case"), "cases": kinds.get(kind, [])}
        for kind in [*KINDS, *kinds]
    ]
    parts = []
    for name, entries in (("operands", operands), ("instructions", [row_json(row) for row in table])):
        parts.append('"%s": [\n%s\n]' % (name, ",\n".join(map(json.dumps, entries))))
    parts.append('"flags": ' + json.dumps(flags()))
    return "{\n" + ",\n".join(parts) + "\n}\n"


# C
def snake(name: str) -> str:
    """A name in capitals with lines between its words."""
    return re.sub(r"(?<=[a-z])(?=[A-Z0-9])", "_", name).upper()


def enum_text(about: str, name: str, entries: List[Tuple[str, int]]) -> str:
    """An enumeration in C."""
    lines = ",\n".join("    %s = %d" % entry for entry in entries)
    return "/* %s */\nenum %s {\n%s\n};\n" % (about, name, lines)


def enums_text(table: List[Row]) -> str:
    """The enumerations of the header."""
    kinds = [*KINDS, *cases()]
    parts = [
        enum_text("The instructions by number.", "pyc_instruction", [("PYC_" + snake(row.name), row.number) for row in table]),
        enum_text("What an operand is (docs/INSTRUCTIONS.md).", "pyc_operand", [("PYC_OPERAND_" + snake(kind), i) for i, kind in enumerate(kinds)]),
    ]
    for kind, names in cases().items():
        prefix = "PYC_%s_" % snake(kind.replace("Kind", ""))
        name = "pyc_%s_case" % snake(kind.replace("Kind", "")).lower()
        parts.append(enum_text("The cases of an operand of kind %s." % kind, name, [(prefix + snake(case), i) for i, case in enumerate(names)]))
    told = {
        "CodeFlags": ("The flags of a code.", "pyc_code_flag", "PYC_CODE_"),
        "MakeFunctionFlags": ("What lies below the code for MakeFunction.", "pyc_make_function_flag", "PYC_MAKE_FUNCTION_"),
    }
    for of, (about, name, prefix) in told.items():
        parts.append(enum_text(about, name, [(prefix + flag, value) for flag, value in flags()[of].items()]))
    return "\n".join(parts)


HEADER_HEAD = """\
/* The instructions of the code that pyc makes: numbers, operands, effects on the height of the value stack.
 *
 * docs/INSTRUCTIONS.md says what each does, and crates/py_codefile/README.md how a file holds code. This header is
 * written by tools/instructions.py. It wants no library, and compiles as C99 and as C++.
 */
#ifndef PYC_CODE_H
#define PYC_CODE_H

#include <stdint.h>

#ifdef __cplusplus
extern "C" {
#endif

/* How many instructions there are. */
#define PYC_INSTRUCTION_COUNT %d

"""

HEADER_TYPES = """
/* What an effect counts of an operand. */
enum pyc_measure {
    PYC_MEASURE_OPERAND = 0, /* the operand itself */
    PYC_MEASURE_BITS = 1,    /* how many of its bits are set */
    PYC_MEASURE_PAIR = 2,    /* the sum of its two bytes */
    PYC_MEASURE_RAISE = 3    /* how many values a raise of this case takes */
};

/* base + times * the measure of the operand */
struct pyc_effect {
    int8_t base;
    int8_t times;
    uint8_t measure; /* enum pyc_measure */
};

struct pyc_instruction_row {
    const char *name;
    uint8_t operand;        /* enum pyc_operand */
    uint8_t leaves;         /* 1 where the next instruction never follows */
    struct pyc_effect next; /* where the next instruction follows */
    struct pyc_effect jump; /* where it jumps; as `next` where it never does */
};

/* The instructions by number. */
static const struct pyc_instruction_row pyc_instructions[PYC_INSTRUCTION_COUNT] = {
"""

HEADER_TAIL = """\
};

/* The change of the height of the value stack that an instruction below PYC_INSTRUCTION_COUNT makes with an operand in
 * its range: where the next instruction follows, or, with a `jumps` that is not 0, where it jumps.
 */
static inline int64_t pyc_stack_effect(uint8_t instruction, uint32_t operand, int jumps)
{
    const struct pyc_effect effect = jumps ? pyc_instructions[instruction].jump : pyc_instructions[instruction].next;
    int64_t measure = (int64_t)operand;

    if (effect.measure == PYC_MEASURE_BITS) {
        for (measure = 0; operand != 0; operand >>= 1) {
            measure += (int64_t)(operand & 1);
        }
    } else if (effect.measure == PYC_MEASURE_PAIR) {
        measure = (int64_t)(operand % 256 + operand / 256);
    } else if (effect.measure == PYC_MEASURE_RAISE) {
        measure = operand == PYC_RAISE_RAISE ? 1 : operand == PYC_RAISE_RAISE_CAUSE ? 2 : 0;
    }
    return effect.base + effect.times * measure;
}

#ifdef __cplusplus
}
#endif

#endif
"""


def effect_c(it: Amount) -> str:
    measure = {"n": "OPERAND", "bits": "BITS", "pair": "PAIR", "raise": "RAISE"}[it.of]
    return "{%d, %d, PYC_MEASURE_%s}" % (it.base, it.times, measure)


def header_text(table: List[Row]) -> str:
    """The header."""
    lines = [
        '    {"%s", PYC_OPERAND_%s, %d, %s, %s}' % (row.name, snake(row.operand), row.leaves, effect_c(row.falls), effect_c(row.jumps))
        for row in table
    ]
    return HEADER_HEAD % len(table) + enums_text(table) + HEADER_TYPES + ",\n".join(lines) + "\n" + HEADER_TAIL


def texts() -> Dict[pathlib.Path, str]:
    """Each file with the text that it is to have."""
    table, limits = rows(), ranges()
    for row in table:
        compare_words(row, limits)
    compare_model(table)
    return {PAGE: page_text(PAGE.read_text(encoding="utf-8"), table), HEADER: header_text(table), JSON: json_text(table)}


def main() -> int:
    parser = argparse.ArgumentParser(prog="instructions.py", description=__doc__.split("\n\n")[0])
    way = parser.add_mutually_exclusive_group(required=True)
    way.add_argument("--write", action="store_true", help="write the files")
    way.add_argument("--check", action="store_true", help="write nothing, and fail where a file is another")
    words = parser.parse_args()
    try:
        wanted = texts()
    except Wrong as wrong:
        print("instructions.py: %s" % wrong, file=sys.stderr)
        return 1
    status = 0
    for path, text in wanted.items():
        old = path.read_text(encoding="utf-8") if path.exists() else ""
        if old != text and words.check:
            print("instructions.py: %s is another: run tools/instructions.py --write" % path.relative_to(TOP), file=sys.stderr)
            status = 1
        elif old != text:
            path.write_text(text, encoding="utf-8")
    return status


if __name__ == "__main__":
    sys.exit(main())
