"""The command `manual`: writes the man page."""
from __future__ import annotations

from typing import List

from .. import cli, ends, version
from ..errors import DONE, WrongWords
from ..manual import man_page
from ..options import Command, parse

COMMAND = Command(
    "manual",
    "",
    "Writes the man page pyc.1 on standard output.",
    (),
    "    pyc manual | man -l -",
)


def main(words: List[str]) -> int:
    """Writes the man page."""
    if parse(COMMAND, words).files:
        raise WrongWords("'manual' is followed by no word; a file of that name is ./manual")
    ends.write(man_page(cli.commands(), version.number()))
    return DONE
