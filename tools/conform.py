#!/usr/bin/env python3
"""Runs a machine over the suite of conformance/, and compares the lines that it writes with those that are wanted.

usage: conform.py [--each] [--without OUTCOME].. [--list] [--seconds N] [--cases FILE].. [--] COMMAND [WORD..]

The command is started once, and reads requests on standard input: `code` and the hexadecimal digits of a file of code,
`begin` and the places among constants of the code that is run, and `run` and a script. To each `run` it writes the lines
of the run and an empty line. With --each it is started for each case, with more words: the script, which may be empty, and
each place. It reads the bytes of the file on standard input, and writes the lines, as the program pyc_trace does.
conformance/README.md has the formats. How many cases pass is told, and the first that differs. The status is 0 where all
pass, 1 where some differ, 2 where the words are wrong.
"""
from __future__ import annotations

import argparse
import itertools
import pathlib
import subprocess
import sys
from typing import Dict, Iterator, List, NamedTuple, Optional, Tuple

FOLDER = pathlib.Path(__file__).resolve().parent.parent / "conformance"
OUTCOMES = ("returned", "raised", "stopped", "wrong", "leaked", "going")


class Code(NamedTuple):
    """A code of the suite, and where a run begins in it."""

    name: str
    comments: List[str]
    digits: str
    places: str


class Case(NamedTuple):
    """A script and the lines that are wanted, with the file and the row where it stands."""

    file: str
    row: int
    code: Code
    script: str
    lines: List[str]


class Answer(NamedTuple):
    """What a machine wrote of a case, and why that is no run where it is none."""

    lines: List[str]
    fault: str = ""


class Unreadable(Exception):
    """A file that is none of cases."""


def cases_of(path: pathlib.Path) -> List[Case]:
    """The cases of a file. Raises Unreadable with the place."""
    rows = path.read_text(encoding="utf-8").split("\n")
    found: List[Case] = []
    held: Dict[str, str] = {}
    comments: List[str] = []
    at = 0
    while at < len(rows):
        word, _, rest = rows[at].partition(" ")
        at += 1
        if word == "run":
            end = rows.index("", at) if "" in rows[at:] else len(rows)
            if set(held) != {"name", "code", "begin"} or end == at:
                raise Unreadable("%s:%d: a run without a name, a code, a begin or lines" % (path, at))
            found.append(Case(path.name, at, Code(held["name"], comments, held["code"], held["begin"]), rest, rows[at:end]))
            at = end
        elif word == "name":
            held, comments = {"name": rest}, []
        elif word in ("code", "begin"):
            held[word] = rest
        elif word == "#":
            comments.append(rest)
        elif word:
            raise Unreadable("%s:%d: no such line: %s" % (path, at, word[:40]))
    return found


def places_of(code: Code) -> List[str]:
    """The places that lead from the outermost code to the one that is run."""
    return code.places.split(",") if code.places else []


def outcome(lines: List[str]) -> str:
    """How a run ends."""
    return lines[-1].split(" ")[0]


def requests(cases: List[Case]) -> Iterator[str]:
    """The requests for cases, in their order."""
    for code, of in itertools.groupby(cases, key=lambda it: it.code):
        yield "code " + code.digits
        yield ("begin " + code.places).rstrip()
        for case in of:
            yield ("run " + case.script).rstrip()


def text(data: Optional[bytes]) -> str:
    return (data or b"").decode("utf-8", "replace")


def ended(command: List[str], data: bytes, seconds: float) -> Tuple[str, str]:
    """What a command writes, and why it is not to be trusted where it ended otherwise than by 0."""
    try:
        it = subprocess.run(command, input=data, stdout=subprocess.PIPE, stderr=subprocess.PIPE, timeout=seconds)
    except subprocess.TimeoutExpired as late:
        return text(late.stdout), "it took more than %g seconds" % seconds
    if it.returncode == 0:
        return text(it.stdout), ""
    last = text(it.stderr).strip().split("\n")[-1]
    return text(it.stdout), "it ended with %d%s" % (it.returncode, ": " + last if last else "")


def by_one(command: List[str], cases: List[Case], seconds: float) -> Iterator[Answer]:
    """The answers of a command that is started once."""
    written, fault = ended(command, ("\n".join(requests(cases)) + "\n").encode("utf-8"), seconds)
    parts = [part.split("\n") for part in written.split("\n\n")]
    for i in range(len(cases)):
        if i < len(parts) - 1:
            yield Answer(parts[i])
        else:
            yield Answer([it for it in parts[i] if it] if i < len(parts) else [], fault or "there are no lines for it")


def by_each(command: List[str], cases: List[Case], seconds: float) -> Iterator[Answer]:
    """The answers of a command that is started for each case."""
    for case in cases:
        written, fault = ended([*command, case.script, *places_of(case.code)], bytes.fromhex(case.code.digits), seconds)
        yield Answer(written.rstrip("\n").split("\n"), fault)


def differs(case: Case, answer: Answer) -> bool:
    return bool(answer.fault) or answer.lines != case.lines


def shown(case: Case, answer: Answer) -> str:
    """A case that differs: the code, what is wanted, and what was written, from the first line that is another."""
    at = next((i for i, (a, b) in enumerate(zip(case.lines, answer.lines)) if a != b), min(len(case.lines), len(answer.lines)))
    out = ["%s:%d: %s" % (case.file, case.row, case.code.name), *("    " + it for it in case.code.comments)]
    out += ["begin %s" % (case.code.places or "(the outermost code)"), "script %s" % (case.script or "(empty)")]
    out += ["    " + it for it in case.lines[:at]]
    out += ["wanted:", *("    " + it for it in case.lines[at:at + 10] or ["(nothing more)"])]
    out += ["got:", *("    " + it for it in answer.lines[at:at + 10] or ["(nothing more)"])]
    return "\n".join(out + (["%s" % answer.fault] if answer.fault else []))


def parsed(words: List[str]) -> argparse.Namespace:
    parser = argparse.ArgumentParser(prog="conform.py", description=__doc__.split("\n\n")[0])
    parser.add_argument("--each", action="store_true", help="start the command for each case, with the script and each place as words")
    parser.add_argument("--without", action="append", default=[], choices=OUTCOMES, help="leave out the cases that end so")
    parser.add_argument("--list", action="store_true", help="write a line for each case that differs")
    parser.add_argument("--seconds", type=float, default=300, help="how long the command may take, at each start (300)")
    parser.add_argument("--cases", action="append", default=[], type=pathlib.Path, help="a file of cases, in place of those of conformance/cases")
    parser.add_argument("command", nargs=argparse.REMAINDER, metavar="COMMAND [WORD..]", help="the machine")
    found = parser.parse_args(words)
    if found.command[:1] == ["--"]:
        del found.command[0]
    if not found.command:
        parser.error("there is no command")
    return found


def main(words: List[str]) -> int:
    found = parsed(words)
    try:
        cases = [case for path in found.cases or sorted((FOLDER / "cases").glob("*.txt")) for case in cases_of(path)]
        cases = [case for case in cases if outcome(case.lines) not in found.without]
        answers = list((by_each if found.each else by_one)(found.command, cases, found.seconds))
    except (Unreadable, OSError, UnicodeDecodeError) as why:
        print("conform.py: %s" % why, file=sys.stderr)
        return 2
    wrong = [(case, answer) for case, answer in zip(cases, answers) if differs(case, answer)]
    if found.list:
        for case, _ in wrong:
            print("%s:%d: %s" % (case.file, case.row, case.code.name))
    if wrong:
        print(shown(*wrong[0]))
    print("%d of %d cases pass" % (len(cases) - len(wrong), len(cases)))
    return 1 if wrong else 0


if __name__ == "__main__":
    sys.exit(main(sys.argv[1:]))
