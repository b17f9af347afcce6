"""Finds the program, and calls it."""
from __future__ import annotations

import os
import re
import subprocess
from typing import IO, List, Optional, Sequence, Tuple, Union

from .errors import DONE, INPUT, MEMORY, REFUSED, Ended, NoProgram, OutOfMemory, Refused
from .refusals import OF_TREE as REFUSAL
from .refusals import of_program

__all__ = ("HERE", "PROGRAM", "REFUSAL", "ROOT", "call", "check", "find", "is_checkout")

HERE = os.path.dirname(os.path.abspath(__file__))
# The checkout in which this package stands, where it does.
ROOT = os.path.dirname(os.path.dirname(HERE))


def is_checkout() -> bool:
    """Whether this package stands in a checkout, which can build the program."""
    return os.path.exists(os.path.join(ROOT, "tools", "build.py")) and os.path.exists(os.path.join(ROOT, "crates.txt"))


# Where the program is: in a checkout where rt builds it, and in an installation within the package.
PROGRAM = os.path.join(ROOT, "crates", "pyc", "out", "pyc") if is_checkout() else os.path.join(HERE, "bin", "pyc")

# The lines that `rt try` writes of itself on standard error, beside those of the program.
OF_TRY = re.compile(r"^(?:allocations: |interpreter: |checked: |run=|rt: ).*\n?", re.M)


def find() -> str:
    """The path of the program: the proved one, else that which cargo has built of the sources as they stand. Raises NoProgram
    where neither is there."""
    if os.access(PROGRAM, os.X_OK):
        return PROGRAM
    from . import quick

    found = quick.found()
    if found is not None:
        quick.tell()
        return found
    raise NoProgram("the program is not built: %s is not there" % PROGRAM)


def call(program: Optional[str], words: Sequence[str], data: bytes, output: Union[None, int, IO[bytes]]) -> Tuple[int, bytes, str]:
    """Runs the program over rows; where it is None, by `rt try`. Its status, its output and what it wrote on standard error.

    What it writes on standard output goes to the output, to our own where that is None, and is given for subprocess.PIPE.
    A negative status is a signal.
    """
    command: List[str] = ["rt", "try", "--", *words] if program is None else [program, *words]
    folder = os.path.join(ROOT, "crates", "pyc") if program is None else None
    ended = subprocess.run(command, cwd=folder, input=data, stdout=output, stderr=subprocess.PIPE)
    said = ended.stderr.decode("utf-8", "replace")
    return ended.returncode, ended.stdout or b"", OF_TRY.sub("", said) if program is None else said


def check(status: int, said: str, path: str, rows: bytes, lines: Optional[List[str]], is_source: bool) -> None:
    """Raises what keeps rows from being compiled, after the status and the line of the program over them."""
    if status == DONE:
        return
    if status in (REFUSED, INPUT) and said:
        raise Refused(of_program(path, said, rows, lines, is_source))
    if status == MEMORY:
        raise OutOfMemory("%s: no memory" % path)
    if status < 0:
        raise Ended("%s: the program was ended by signal %d" % (path, -status), 128 - status)
    raise Ended("%s: %s" % (path, said.strip() or "the program ended with %d" % status), status)
