"""Calls of the command within the process of a test, which spare it a start of Python."""
from __future__ import annotations

import os
import pathlib
import sys
import tempfile
from typing import Sequence, Tuple

sys.path.insert(0, str(pathlib.Path(__file__).resolve().parent.parent))

from pyc import cli


def call(words: Sequence[str], folder: str) -> Tuple[int, str, str]:
    """The status of a call from a folder, what it wrote on standard output, and what it told on standard error."""
    with tempfile.TemporaryFile() as out, tempfile.TemporaryFile() as told:
        sys.stdout.flush()
        sys.stderr.flush()
        before = os.getcwd(), os.dup(1), os.dup(2)
        os.chdir(folder)
        os.dup2(out.fileno(), 1)
        os.dup2(told.fileno(), 2)
        try:
            status = cli.main(list(words))
        finally:
            os.chdir(before[0])
            for number, kept in enumerate(before[1:], 1):
                os.dup2(kept, number)
                os.close(kept)
        out.seek(0)
        told.seek(0)
        return status, out.read().decode("utf-8"), told.read().decode("utf-8")
