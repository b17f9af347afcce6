"""Which pyc this is, and whether the program is known to be proved."""
from __future__ import annotations

import os
import subprocess
from typing import Optional

from . import program, quick, stamp
from .errors import NoProgram


def number() -> str:
    """The version, as the file VERSION at the top of the checkout, or of the installed package, has it."""
    for folder in (program.HERE, program.ROOT):
        try:
            with open(os.path.join(folder, "VERSION"), encoding="ascii") as it:
                return it.read().strip()
        except OSError:
            continue
    return "of no number"


def commit() -> Optional[str]:
    """The commit of the checkout, where there is one and git tells it."""
    if not program.is_checkout() or not os.path.exists(os.path.join(program.ROOT, ".git")):
        return None
    try:
        words = ["git", "-C", program.ROOT, "rev-parse", "--short", "HEAD"]
        ended = subprocess.run(words, stdout=subprocess.PIPE, stderr=subprocess.DEVNULL)
    except OSError:
        return None
    return ended.stdout.decode("ascii", "replace").strip() or None


def text() -> str:
    """The line of --version."""
    try:
        path = program.find()
    except NoProgram:
        return "pyc %s%s, the program is not built" % (number(), in_brackets(commit()))
    if path == quick.found():
        return "pyc %s%s, not proved: built by cargo of these sources%s" % (number(), in_brackets(commit()), in_brackets(quick.kit()))
    found = stamp.read(path)
    known = commit() or (found.commit if found else None)
    return "pyc %s%s, %s" % (number(), in_brackets(known), proof(found, path))


def in_brackets(known: Optional[str]) -> str:
    """A commit, or what a program was built by, in brackets, where it is known."""
    return " (%s)" % known if known else ""


def proof(found: Optional[stamp.Stamp], path: str) -> str:
    """Whether the program is proved, as its stamp says."""
    if found is None or found.program != stamp.sum_of_file(path):
        return "not proved, or not known to be: its build has left no stamp of this program"
    if program.is_checkout() and found.sources != stamp.sum_of_sources(program.ROOT):
        return "proved by %s, of other sources than these" % found.kit
    return "proved by %s" % found.kit
