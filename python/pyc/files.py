"""Writes files whole or not at all."""
from __future__ import annotations

import contextlib
import os
import stat
from typing import IO, Iterator


@contextlib.contextmanager
def replacing(path: str) -> Iterator[IO[bytes]]:
    """A file that takes the place of the one at this path once it is written; where writing fails, that one stays as it is.

    What is no plain file, as a terminal or a pipe, and what stands in a folder where no file can be made, is written as it
    stands. Raises OSError.
    """
    path = os.path.realpath(path)
    mode = None
    with contextlib.suppress(FileNotFoundError):
        mode = os.stat(path).st_mode
    beside = "%s.%d.new" % (path, os.getpid())
    try:
        out = open(beside, "xb") if mode is None or stat.S_ISREG(mode) else open(path, "wb")
    except PermissionError:
        out = open(path, "wb")
    try:
        with out:
            yield out
        if out.name == beside:
            if mode is not None:
                os.chmod(beside, stat.S_IMODE(mode))
            os.replace(beside, path)
    except BaseException:
        if out.name == beside:
            with contextlib.suppress(OSError):
                os.remove(beside)
        raise
