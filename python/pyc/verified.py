"""Files of code that the program has verified, so that they may be run and shown."""
from __future__ import annotations

import subprocess
from typing import Optional

from . import codefile, program
from .code_object import Code
from .errors import INPUT, Failed


def unpacked(data: bytes, name: str = "<code>", by: Optional[str] = None) -> str:
    """The listing of a file of code, once the program has verified it: that program, or the one that is found.

    Raises Failed, with the line that is told of the file of that name, where the bytes are no file of code that verifies
    (status 3); NoProgram; and Ended or OutOfMemory where the program ends otherwise.
    """
    status, listing, said = program.call(by or program.find(), ["unpack"], data, subprocess.PIPE)
    if status == INPUT and said:
        raise Failed("%s: %s\n" % (name, said.rstrip("\n")), INPUT)
    program.check(status, said, name, b"", None, False)
    return listing.decode("utf-8")


def verified_code(data: bytes, name: str = "<code>", by: Optional[str] = None) -> Code:
    """The code in a file of code, once the program has verified it. Raises as `unpacked` does."""
    unpacked(data, name, by)
    try:
        return codefile.read(data)
    except codefile.BadCode as bad:
        # The program and this reader would differ.
        raise Failed("%s: %s\n" % (name, bad), INPUT) from None
