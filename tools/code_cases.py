#!/usr/bin/env python3
"""Writes crates/code_vectors/stdin and stdout: questions about codes of files, and their answers.

usage: code_cases.py [--check]

The README of that crate tells what a line is. Nothing comes from the program: `code_files.py` has files and edits of them,
with what `pyc.codefile` reads, `verdict_table.py` codes with the flaws that the model finds, and `form_table.py` codes with
their faults of form. With --check nothing is written, and the status is 1 where the files differ. It wants Python 3.12 or
later, which reads type parameters.
"""
import argparse
import dataclasses
import sys
from typing import Iterator, Tuple

import case_files
import code_files
import form_table
import step_rows
import verdict_table
from listing import listing
from pyc import codefile

# A line of the input, and what is written in its place.
Case = Tuple[str, str]

# The file of a code without texts, units and locations, up to the count of its constants and behind them.
EMPTY = dataclasses.replace(code_files.ONE, source_path="", obj_name="", first_line_number=None, instructions=(), locations=(), constants=())
FRONT, BACK = (it.hex() for it in code_files.around_constant(EMPTY))
MAGIC, ONE, NONE = codefile.MAGIC.hex(), "00000001", "00000000"
FRONT, BODY = FRONT[: -len(ONE)], FRONT[len(MAGIC) : -len(ONE)]
# The bytes of a tuple and of a code, and how deep they may nest.
TUPLE, CODE, MOST = "06", "08", codefile.DEEPEST - 1


# A code with an instruction for each kind of operand, also past the end of its table, and prefixes; and constants of each kind.
UNITS = (
    "LoadConst 5, LoadConst 12, ImportName 0, LoadAttr 2, StoreFast 0, LoadDeref 0, LoadClosure 1, StoreDeref 2, Jump 3, "
    "CallFunctionPositional 2, MakeFunction 5, ExtendedArg 1, UnpackEx 2, BuildSlice 1, UnaryOperation 3, UnaryOperation 4, "
    "BinaryOperation 12, CompareOperation 5, TestOperation 4, Raise 2, FormatValue 3, Pop 0, ExtendedArg 9, ExtendedArg 1, "
    "ExtendedArg 2, ExtendedArg 3, Jump 4, ReturnConst 0"
)
INNER = dataclasses.replace(
    code_files.ONE, flags=0, first_line_number=None, obj_name="inner", locations=(), constants=(None,), cell2arg=()
)
KINDS = dataclasses.replace(
    INNER, flags=33, posonlyarg_count=1, arg_count=2, kwonlyarg_count=3, source_path="a'b.py", first_line_number=4, obj_name="f",
    max_stackdepth=300, instructions=tuple((op, int(arg)) for op, arg in (unit.split(" ") for unit in UNITS.split(", "))),
    locations=((1, 1), (12, 34)),
    constants=(None, True, False, ..., -12, "it's \\ \n\x7fé", b"a'\\\x00\xff~", (), (7,), (None, "x"), INNER,
               (dataclasses.replace(INNER, obj_name="hidden"),)),
    names=("n", "m"), varnames=("v",), cellvars=("c",), freevars=("d",), cell2arg=(-1, 0),
)


def heading(text: str) -> Case:
    return "# " + text, "# " + text


def spellings() -> Iterator[Case]:
    """Files that are read, listed and written."""
    for name, data in {**code_files.FILES, "kinds": codefile.write(KINDS)}.items():
        yield heading("the file `%s`" % name)
        yield "list " + data.hex(), listing(step_rows.code_of(codefile.read(data)))
        yield "write " + data.hex(), "the same file"


def nesting() -> Iterator[Case]:
    """Tuples and codes that nest as deep as may be, and one deeper."""
    tuples = [FRONT, "%s%s*%d" % (ONE, TUPLE, MOST - 1), NONE, BACK]
    codes = [MAGIC, "%s%s%s*%d" % (BODY, ONE, CODE, MOST - 1), BODY, NONE, "%s*%d" % (BACK, MOST)]
    for around, what, file in (("around-tuple", "tuples", tuples), ("within-code", "codes", codes)):
        yield heading("%s that nest %d deep, and one deeper" % (what, MOST))
        yield "write " + " ".join(file), "the same file"
        yield "write %s %s" % (around, " ".join(file)), "TooDeep"
    yield heading("bytes that end within tuples and within codes, and bytes that nest too deep")
    for front, part in ((FRONT, ONE + TUPLE), (MAGIC, BODY + ONE + CODE)):
        for times in (MOST - 1, MOST):
            at = (len(front) + times * len(part)) // 2
            wanted = "Truncated { at: %d }" % at if times < MOST else "TooDeep { at: %d }" % (at - 1)
            yield "read %s %s*%d" % (front, part, times), wanted


def cases() -> Iterator[Case]:
    yield from spellings()
    yield from nesting()
    yield from code_files.cases()
    yield from verdict_table.cases()
    yield from form_table.cases()


def main() -> int:
    parser = argparse.ArgumentParser(prog="code_cases.py", description="Writes the cases of crates/code_vectors.")
    parser.add_argument("--check", action="store_true", help="compare them alone")
    check = parser.parse_args().check
    if sys.version_info < (3, 12):
        sys.exit("code_cases.py: Python 3.12 or later is wanted, which reads type parameters")
    return case_files.settle("code_vectors", cases(), check)


if __name__ == "__main__":
    sys.exit(main())
