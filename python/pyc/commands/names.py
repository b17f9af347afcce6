"""The command `names`: the report on the names of a tree."""
from __future__ import annotations

import json
import os
import subprocess
from typing import List

from .. import ends, program, report, rows, sources
from ..errors import DONE, WORDS, WRITE, Failed, WrongWords
from ..options import Command, Option, parse
from .compile import MODE, tell

COMMAND = Command(
    "names",
    "PATH <ROWS",
    "Reports on the names of the tree whose rows stand on standard input: which are unused, unbound, shadowed or captured, and in which scope. PATH is the name by which the tree is told.",
    (
        Option(("--source",), "PATH.. are files of Python, or - for standard input, and their rows are made"),
        MODE,
        Option(("--json",), "write each line of the report as an object of JSON"),
    ),
    "Without options the words go to the program itself. `pyc lint` tells names with their places.",
)


def main(words: List[str]) -> int:
    """Writes the reports on the names of the trees."""
    given = parse(COMMAND, words)
    if not given.files:
        raise WrongWords("'names' is followed by a path; a file of that name is ./names")
    if not given.source and len(given.files) > 1:
        raise WrongWords("'names' is followed by one path, and '%s' is another; a file of that name is ./names" % given.files[1])
    path = program.find()
    if not given.source and not given.json:
        os.execv(path, [path, "names", given.files[0]])
    highest = DONE
    for file in given.files:
        try:
            highest = max(highest, report_on(file, given, path))
        except Failed as failed:
            highest = max(highest, failed.status)
            ends.say(str(failed))
            if failed.status == WRITE:
                break
    return highest


def report_on(file: str, given, path: str) -> int:
    """Writes the report on a file. Raises Failed."""
    from ..errors import Error

    name = sources.text_of_name(sources.name_of(file) if given.source else file)
    if name is None:
        raise Failed("%s: the name is not UTF-8\n" % ascii(file), WORDS)
    try:
        data = sources.bytes_of(file if given.source else "-")
        made = sources.rows_of(name, data, given.mode) if given.source else data
        status, out, said = program.call(path, ["names", name], made, subprocess.PIPE)
        program.check(status, said, name, made, rows.lines_of(data) if given.source else None, given.source)
    except Error as fault:
        tell(fault, given)
        return fault.status
    text = out.decode("utf-8")
    if given.json:
        items = (dict(it._asdict(), file=name) for it in report.read_report(text))
        text = "".join(json.dumps(it, ensure_ascii=False) + "\n" for it in items)
    elif given.source and len(given.files) > 1:
        text = "".join("%s: %s\n" % (name, line) for line in text.splitlines())
    ends.write(text)
    return DONE
