"""Codes that are kept between runs, in a folder of the user's.

A file of the folder has the name of the sum of all that its code follows from, so it is never out of date. It begins with
the sum of what comes behind, so that half a file is none. It is written under another name and then moved, so two runs at
once do no harm.
"""
from __future__ import annotations

import hashlib
import importlib.util
import marshal
import os
import sys
import tempfile
import types
from typing import Iterable, Optional

HERE = os.path.dirname(os.path.abspath(__file__))

# How many bytes a sum has, and how many files are kept at most; of more the oldest quarter goes.
SUM, MOST = 32, 4096


def folder() -> str:
    """The folder of the user's in which codes are kept; `XDG_CACHE_HOME` says where, else it is in `~/.cache`."""
    named = os.environ.get("XDG_CACHE_HOME", "")
    return os.path.join(named if os.path.isabs(named) else os.path.expanduser("~/.cache"), "pyc", "codes")


def sum_of_parts(parts: Iterable[bytes]) -> bytes:
    """A sum over parts, each with its length."""
    found = hashlib.sha256()
    for part in parts:
        found.update(len(part).to_bytes(8, "big"))
        found.update(part)
    return found.digest()


def sum_of_files(paths: Iterable[str]) -> bytes:
    """A sum over the bytes of files."""
    parts = []
    for path in paths:
        with open(path, "rb") as file:
            parts.append(file.read())
    return sum_of_parts(parts)


def own_files() -> list[str]:
    """The files of this package that make code of a source."""
    package = os.path.dirname(HERE)
    names = [os.path.join(package, it) for it in ("rows.py", "codefile.py", "code_object.py", "listing.py", "opcodes.py")]
    return names + sorted(os.path.join(HERE, it) for it in os.listdir(HERE) if it.endswith(".py"))


class Kept:
    """The folder, for codes that one compiler makes: a program at a level, with or without a way to write literals."""

    def __init__(self, program: Optional[str], words: str):
        self.folder = folder()
        files = own_files() + ([] if program is None else [program])
        self.ground = sum_of_parts((sum_of_files(files), words.encode(), importlib.util.MAGIC_NUMBER, sys.version.encode()))

    def path(self, data: bytes, path: str, mode: str) -> str:
        """The file for the code of a source."""
        name = sum_of_parts((self.ground, data, os.fsencode(path), mode.encode()))
        return os.path.join(self.folder, name.hex())

    def read(self, file: str) -> Optional[types.CodeType]:
        """The code that is kept in a file; None where there is none, or a bad one."""
        try:
            with open(file, "rb") as it:
                if not is_own(it.fileno()):
                    return None
                data = it.read()
            os.utime(file)
        except OSError:
            return None
        if hashlib.sha256(data[SUM:]).digest() != data[:SUM]:
            return None
        return marshal.loads(data[SUM:])

    def write(self, file: str, code: types.CodeType) -> None:
        """Keeps a code in a file. Where that cannot be done, nothing is kept."""
        data = marshal.dumps(code)
        try:
            os.makedirs(self.folder, mode=0o700, exist_ok=True)
            self.make_room()
            number, name = tempfile.mkstemp(dir=self.folder)
        except OSError:
            return
        try:
            with open(number, "wb") as it:
                it.write(hashlib.sha256(data).digest() + data)
            os.replace(name, file)
        except OSError:
            os.unlink(name)

    def make_room(self) -> None:
        """Takes the oldest files away where there are too many."""
        with os.scandir(self.folder) as found:
            files = list(found)
        if len(files) < MOST:
            return
        for it in sorted(files, key=lambda it: it.stat().st_mtime)[: MOST // 4]:
            os.unlink(it.path)


def is_own(number: int) -> bool:
    """Whether an open file is the user's own, and no other may write it."""
    found = os.fstat(number)
    return not hasattr(os, "getuid") or (found.st_uid == os.getuid() and not found.st_mode & 0o022)
