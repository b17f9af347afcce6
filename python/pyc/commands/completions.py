"""The command `completions`: writes the completions for a shell."""
from __future__ import annotations

from typing import List

from .. import cli, ends
from ..completions import SHELLS
from ..errors import DONE, WrongWords
from ..options import Command, one_of, parse

COMMAND = Command(
    "completions",
    "SHELL",
    "Writes the completions for a shell (bash, zsh or fish) on standard output.",
    (),
    "`make install` puts them where the shells look for them. By hand:\n\n    pyc completions bash >~/.local/share/bash-completion/completions/pyc\n    pyc completions zsh >FOLDER/_pyc          # a folder of $fpath\n    pyc completions fish >~/.config/fish/completions/pyc.fish",
)


def main(words: List[str]) -> int:
    """Writes the completions for the shell that the words name."""
    given = parse(COMMAND, words)
    if len(given.files) != 1 or given.files[0] not in SHELLS:
        raise WrongWords("'completions' is followed by %s; a file of that name is ./completions" % one_of(tuple(SHELLS)))
    ends.write(SHELLS[given.files[0]](cli.commands()))
    return DONE
