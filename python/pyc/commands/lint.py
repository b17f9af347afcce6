"""The command `lint`: tells what is found in files, by the report of the program on their names and by its refusals."""
from __future__ import annotations

import os
from typing import Any, Dict, Iterator, List, Optional

from .. import ends, program
from ..errors import DONE, READ, REFUSED, WRITE, Error, Failed, WrongWords
from ..findings import Found, findings_of
from ..linting import FORMATS, Choice, choice_of, chosen
from ..options import Command, Option, parse
from ..refusals import shown
from ..sources import bytes_of, name_of

COMMAND = Command(
    "lint",
    "FILE.. | FOLDER.. | -",
    "Tells which names of Python files are bound nowhere, never read or hidden, and why files are refused, as "
    "FILE:ROW:COL: CODE TEXT [KIND]. Of a folder all files that end in .py are looked at, those of folders within too, "
    "but not what begins with a dot.",
    (
        Option(("--select",), "tell these codes or kinds alone, joined by commas (all but N104): N101 and N105 unbound, N102 unused, N103 shadowed, N104 captured; R.. syntax, rows or refused, as --explain has them; N and R are all of their sort", "CODES", many=True),
        Option(("--ignore",), "do not tell these codes or kinds", "CODES", many=True),
        Option(("--builtins",), "the names that are bound without a word for it: +NAME,.. adds names to the built-ins of the running Python, and none takes these away", "NAMES", many=True),
        Option(("--all",), "tell each line of the report: N104, names with an underscore in front that are never read, names that nobody wrote, and what a comment # noqa silences"),
        Option(("--format",), "text (the default); json, an object a line; github, commands of a workflow", "FORMAT", tuple(FORMATS), "text"),
        Option(("--no-config",), "do not read [tool.pyc] of pyproject.toml"),
        Option(("-q", "--quiet"), "do not tell how many there are"),
    ),
    "A comment # noqa silences its row, and # noqa: N101,N102 these codes there. The table [tool.pyc] of the pyproject.toml "
    "of this folder, or of the next above that has one, may have select, ignore and builtins, each a list of texts; words "
    "of the call come before it.\n\n"
    "Status: 0 nothing was found; 1 something was; 2 wrong words; 4 a file is not there or not read; 5 a write failed.",
)


def main(words: List[str]) -> int:
    """Tells what is found in the files that the words name. The status."""
    given = parse(COMMAND, words)
    if not given.files:
        raise WrongWords("no file is named")
    return lint_all(given, choice_of_words(given), program.find())


def choice_of_words(given: Any) -> Choice:
    """The choice by the words of the call, and by pyproject.toml what these do not say."""
    said: Dict[str, Any] = {}
    for key in ("select", "ignore", "builtins"):
        words = getattr(given, key)
        if words:
            said[key] = [it.strip() for word in words for it in word.split(",")]
    choice = choice_of(said, given.all, lambda key: "--" + key)
    file = None if given.no_config else config_file(os.getcwd())
    config = read_config(file) if file else {}
    if not config:
        return choice
    return choice_of({**config, **said}, given.all, lambda key: "--" + key if key in said else "%s: %s" % (file, key))


def config_file(folder: str) -> Optional[str]:
    """The pyproject.toml of a folder, or of the next one above that has one."""
    while True:
        file = os.path.join(folder, "pyproject.toml")
        if os.path.isfile(file):
            return file
        if os.path.dirname(folder) == folder:
            return None
        folder = os.path.dirname(folder)


def read_config(file: str) -> Dict[str, List[str]]:
    """The lists of [tool.pyc]. Raises WrongWords where it cannot be read, or has another key."""
    try:
        with open(file, "rb") as it:
            data = it.read()
    except OSError as error:
        raise WrongWords("%s: %s" % (file, error.strerror)) from None
    try:
        import tomllib
    except ImportError:
        if b"[tool.pyc]" not in data:
            return {}
        raise WrongWords("%s has a table [tool.pyc], which Python 3.11 and later read: --no-config passes over it" % file) from None
    try:
        table = tomllib.loads(data.decode("utf-8")).get("tool", {}).get("pyc", {})
    except ValueError as error:
        raise WrongWords("%s: %s" % (file, error)) from None
    return {key: texts_of(file, key, value) for key, value in table.items() if not isinstance(value, dict)}


def texts_of(file: str, key: str, value: object) -> List[str]:
    """The value of a key of [tool.pyc]: a list of texts."""
    if key not in ("select", "ignore", "builtins"):
        raise WrongWords("%s: [tool.pyc] has select, ignore and builtins, and no '%s'" % (file, key))
    if not isinstance(value, list) or not all(isinstance(it, str) for it in value):
        raise WrongWords("%s: '%s' of [tool.pyc] is a list of texts" % (file, key))
    return value


def files_of(names: List[str], unread: List[OSError]) -> Iterator[str]:
    """The files that are named, and those of folders that are, in order; none twice. Of folders not read the errors are kept."""
    seen = set()
    for name in names:
        for file in python_files(name, unread) if name != "-" and os.path.isdir(name) else (name,):
            if file not in seen:
                seen.add(file)
                yield file


def python_files(folder: str, unread: List[OSError]) -> Iterator[str]:
    """The files of Python of a folder and of those within, each folder's own files first; not what begins with a dot."""
    for here, folders, files in os.walk(folder, onerror=unread.append):
        folders[:] = sorted(it for it in folders if not it.startswith("."))
        yield from (os.path.join(here, it) for it in sorted(files) if it.endswith(".py") and not it.startswith("."))


def lint_all(given: Any, choice: Choice, path: str) -> int:
    """Tells what is found in all files by the program of this path. The highest of their statuses."""
    highest, files, count, refused = DONE, 0, 0, 0
    unread: List[OSError] = []
    for file in files_of(given.files, unread):
        try:
            found = findings_of(bytes_of(file), path, choice.has_refusals())
            told = chosen(found, choice, file)
            ends.write("".join(FORMATS[given.format](name_of(file), it) + "\n" for it in told))
        except (Failed, Error) as fault:
            ends.say(str(fault) if isinstance(fault, Failed) else "%s: %s\n" % (shown(name_of(file)), fault))
            highest = max(highest, fault.status)
            if fault.status == WRITE:
                return WRITE
            continue
        files, count, refused = files + 1, count + len(told), refused + is_refused(found)
        highest = max(highest, REFUSED if told else DONE)
    for error in unread:
        ends.say("%s: %s\n" % (shown(str(error.filename)), error.strerror))
        highest = max(highest, READ)
    if not given.quiet:
        ends.say("%s in %s%s\n" % (counted(count, "finding"), counted(files, "file"), " (%d refused)" % refused if refused else ""))
    return highest


def is_refused(found: Found) -> bool:
    """Whether a file is refused."""
    return any(not it.is_of_name for it in found.findings)


def counted(count: int, word: str) -> str:
    """A number of things."""
    return "%d %s%s" % (count, word, "" if count == 1 else "s")
