"""The words that the program itself reads: it gets the rows, or the file of code, that stand on standard input."""
from __future__ import annotations

import os
from typing import List

from .. import program
from ..errors import WrongWords
from ..options import Command, HelpWanted, one_of
from .compile import LEVELS, MODES

ROWS = "docs/COMMANDS.md says what it reads, writes and refuses. It wants no Python: pyc.sh hands these words to the program."

COMMANDS = {
    "pack": Command("pack", "MODE LEVEL PATH <ROWS >CODE", "Compiles rows and writes the code to a file in place of its listing.", (), ROWS),
    "unpack": Command("unpack", "<CODE", "Verifies a file of code and writes its listing.", (), ROWS),
    "step": Command("step", "MODE LEVEL PATH SCRIPT <ROWS", "Runs the code and the tree that the rows are over a script of answers, and tells both.", (), ROWS),
    "sample": Command("sample", "N LEVEL", "Compiles a made program of N statements and says in numbers what it became.", (), ROWS),
}
# How many words stand behind a command.
COUNTS = {"pack": 3, "unpack": 0, "step": 4, "sample": 2}


def main(words: List[str]) -> int:
    """Hands the words to the program, which takes the place of this process."""
    name, *rest = words
    if name in COMMANDS and rest and rest[0] in ("-h", "--help"):
        raise HelpWanted(COMMANDS[name])
    check(name, rest)
    path = program.find()
    os.execv(path, [path, *words])
    raise AssertionError("execv does not return")


def check(name: str, words: List[str]) -> None:
    """Sees that the words behind a command are those that it takes."""
    if name in MODES:
        check_mode_level(name, [name, *words], "a level and one path, as in `%s 0 m.py <rows`" % name, 3)
    elif name in ("pack", "step"):
        check_mode_level(name, words, "MODE LEVEL PATH" + " SCRIPT" * (name == "step"), COUNTS[name])
    elif len(words) != COUNTS[name]:
        wanted = {"unpack": "no word", "sample": "N and a level"}[name]
        raise WrongWords("'%s' is followed by %s, and here by %s; a file of that name is ./%s" % (name, wanted, counted(words), name))
    elif name == "sample":
        check_sample(*words)


def counted(words: List[str]) -> str:
    """How many words there are."""
    return "1 word" if len(words) == 1 else "%d words" % len(words)


def check_mode_level(name: str, words: List[str], wanted: str, count: int) -> None:
    """Sees that a mode and a level come first, and that there are so many words."""
    if len(words) > 0 and words[0] not in MODES:
        raise WrongWords("there is no mode '%s': %s" % (words[0], one_of(MODES)))
    if len(words) > 1 and words[1] not in LEVELS:
        raise WrongWords("there is no level '%s': %s; a file of the name %s is ./%s" % (words[1], one_of(LEVELS), name, name))
    if len(words) != count:
        behind = words[1:] if name in MODES else words
        raise WrongWords("'%s' is followed by %s, and here by %s; a file of that name is ./%s" % (name, wanted, counted(behind), name))


def check_sample(number: str, level: str) -> None:
    """Sees that the words of `sample` are a number and a level."""
    if not (number.isascii() and number.isdigit()) or int(number) >= 2**17:
        raise WrongWords("there is no program of '%s' statements: a number below 131072 is wanted" % number)
    if level not in LEVELS:
        raise WrongWords("there is no level '%s': %s" % (level, one_of(LEVELS)))
