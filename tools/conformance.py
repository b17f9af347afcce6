#!/usr/bin/env python3
"""Writes the suite of conformance/: codes, scripts and the lines of their runs, and the table of what they cover.

usage: conformance.py (--write | --check | --table)

The lines come from the machine of tools/model. The codes are those that the model makes of sources, those of
crates/step_vectors, and others that are written instruction by instruction. Scripts are found by trying: one is kept
where its run goes a way through a unit that no run of the code went before. Nothing is drawn by chance, so that each run
writes the same files. With --check nothing is written, and the status is 1 where a file is another. With --table the
table of ways is written on standard output. conformance/README.md says what the files hold.
"""
from __future__ import annotations

import argparse
import collections
import dataclasses
import functools
import itertools
import pathlib
import sys
from typing import Any, Callable, Dict, Iterable, Iterator, List, NamedTuple, Set, Tuple

TOP = pathlib.Path(__file__).resolve().parent.parent
FOLDER = TOP / "conformance"
sys.path[:0] = [str(TOP / "tools" / "model"), str(TOP / "python")]

import answers
import code_objects
import instr
import listing
import machine
import step_rows
from conformance_codes import Begun, alone, caught, flows, programs
from conformance_hand import blocks, endless, faults, units
from conformance_ways import Way, choices, expected, explore, tried, watch
from pyc import codefile
from pyc.code_object import Code

OUTCOMES = ("returned", "raised", "stopped", "wrong", "leaked", "going")
# For each file: what it holds, its codes, how many scripts of a code are tried, and how many of these are kept.
Group = Tuple[str, Callable[[], Iterable[Begun]], int, int]
GROUPS: Dict[str, Group] = {
    "alone": ("Each instruction that asks, with each case and flag: the whole stack behind it.", alone, 20, 6),
    "caught": ("The same where an exception is handled: the stack behind the handler.", caught, 20, 6),
    "units": ("Jumps, moves of the stack, cells, constants, names, prefixes.", units, 40, 12),
    "blocks": ("Blocks of each kind, and each way to leave them.", blocks, 200, 30),
    "flows": ("Functions: two statements one in the other within a loop, and in these each way to leave.", flows, 80, 16),
    "programs": ("Programs, and the functions, classes and comprehensions in them.", programs, 60, 10),
    "endless": ("Runs that do not end for want of an answer.", endless, 12, 4),
    "faults": ("Codes that do not verify, and such as use cells as values.", faults, 20, 4),
}


class Case(NamedTuple):
    """A script and its run."""

    script: str
    lines: List[str]
    ways: Set[Way]
    outcome: str


class Made(NamedTuple):
    """A code with its cases."""

    begun: Begun
    data: bytes
    cases: List[Case]


# files of code
def value(it: Tuple[Any, ...]) -> Any:
    """A constant of the model as pyc.code_object has it."""
    if it[0] == "tuple":
        return tuple(map(value, it[1]))
    if it[0] == "code":
        return package_code(it[1])
    return {"none": None, "true": True, "false": False, "ellipsis": ...}[it[0]] if len(it) == 1 else it[1]


def package_code(code: code_objects.Code) -> Code:
    """A code of the model as pyc.code_object has it."""
    fields = {it.name: getattr(code, it.name) for it in dataclasses.fields(code)}
    return Code(**{**fields, "constants": tuple(map(value, code.constants))})


# cases
def case(code: code_objects.Code, script: List[Any]) -> Case:
    """The case of a script."""
    run = watch(code, script)
    ways = {way for _, way in run.ways}
    return Case(answers.show_script(script), list(step_rows.lines(run, machine.KIND)), ways, run.outcome[0].lower())


UNFIT = [answers.DONE, ("G", 1), ("G", 2), answers.YES, answers.END, answers.NO, ("G", 3)]


def stops(code: code_objects.Code, every: bool, seen: Set[Way], turn: int) -> Iterator[List[Any]]:
    """Scripts that stop where an instruction asks: at the first one, or where no run has stopped at such a one."""
    first = tried(code, [])
    for at, (fit, op) in enumerate(zip(first.fits, first.run.askers)):
        wrong = [it for it in UNFIT if it not in choices(fit)]
        ends = [[], [wrong[turn % len(wrong)]], [wrong[(turn + 2) % len(wrong)]]]
        for end, way in zip(ends, ("no answer", "unfit answer", "unfit answer")):
            if every and at == 0 or (op, way) not in seen:
                seen.add((op, way))
                yield first.script[:at] + end


def code_loops_silently(code: code_objects.Code) -> bool:
    """Whether a run asks nothing and takes more steps than the code has units; an answer lets it take more steps."""
    run = watch(code, [])
    return not run.w.events and run.steps > len(code.instructions)


def cases_of(name: str, begun: Begun, seen: Set[Way], turn: int) -> List[Case]:
    """The cases of a code, no script twice."""
    _, _, tries, most = GROUPS[name]
    code = begun.within()
    scripts = [it.script for it in itertools.islice(explore(code, tries), most)]
    scripts += stops(code, name == "alone", seen, turn)
    if code_loops_silently(code):
        scripts.append([("G", 1)])
    found = {answers.show_script(script): script for script in scripts}
    return [case(code, script) for script in found.values()]


def drawn() -> Iterator[Made]:
    """The codes of crates/step_vectors, each with its script."""
    at: Dict[str, Tuple[Begun, List[Case]]] = {}
    lines = (TOP / "crates/step_vectors/stdin").read_text(encoding="ascii").splitlines()
    for number, line in enumerate(lines):
        digits, _, script = line.partition(" ")
        code = step_rows.code_of(codefile.read(bytes.fromhex(digits)))
        entry = at.setdefault(digits, (Begun("drawn %d" % number, "", code, ()), []))
        entry[1].append(case(code, step_rows.script_of(script)))
    for digits, (begun, found) in at.items():
        yield Made(begun, bytes.fromhex(digits), found)


@functools.lru_cache(maxsize=None)
def suite() -> Dict[str, List[Made]]:
    """The codes of each file with their cases."""
    seen: Set[Way] = set()
    out = {}
    for name, (_, codes, _, _) in GROUPS.items():
        out[name] = [Made(it, codefile.write(package_code(it.code)), cases_of(name, it, seen, turn)) for turn, it in enumerate(codes())]
    out["drawn"] = list(drawn())
    return out


# the files
def comments(begun: Begun) -> Iterator[str]:
    """The source of a code and its listing, as comments."""
    yield from begun.about.split("\n") if begun.about else []
    head, *lines = listing.listing(begun.within()).rstrip("\n").split("\n")
    yield head
    for line in itertools.takewhile(lambda it: not it.startswith("code '"), lines):
        number, _, rest = line.partition(" ")
        yield "%s %s" % (number, rest.split(" ", 1)[1]) if number.isdigit() else line


def made_text(made: Made) -> str:
    """The part of a code in a file."""
    begun = made.begun
    lines = ["name " + begun.name, *("# " + it for it in comments(begun)), "code " + made.data.hex()]
    lines.append(("begin " + ",".join(map(str, begun.places))).rstrip())
    for it in made.cases:
        lines += [("run " + it.script).rstrip(), *it.lines, ""]
    return "\n".join(lines) + "\n"


ABOUT = {**{name: group[0] for name, group in GROUPS.items()}, "drawn": "Codes drawn by chance: those of crates/step_vectors."}


def file_text(name: str, made: List[Made]) -> str:
    """A file of the suite."""
    count = sum(len(it.cases) for it in made)
    head = "# %s\n# %d codes, %d cases, written by tools/conformance.py; README.md says how to read them.\n\n" % (ABOUT[name], len(made), count)
    return head + "\n".join(map(made_text, made))


def counts() -> Dict[Way, Dict[str, int]]:
    """For each way, in how many cases of each outcome it is gone."""
    table: Dict[Way, Dict[str, int]] = {way: collections.Counter() for way in expected()}
    for it in itertools.chain.from_iterable(found.cases for part in suite().values() for found in part):
        for way in it.ways:
            table.setdefault(way, collections.Counter())[it.outcome] += 1
    return table


def table_text() -> str:
    """The table of ways."""
    table, known = counts(), set(expected())
    parts = suite()
    total = sum(len(it.cases) for part in parts.values() for it in part)
    none = sum(not row for row in table.values())
    lines = [
        "# What the suite covers", "",
        "`tools/conformance.py` writes this page. A row is a way through an instruction or through blocks, and tells in how many cases it is gone, by how their runs end. A case may go many ways.", "",
        "| File | Holds | Codes | Cases |", "|---|---|---|---|",
        *("| `cases/%s.txt` | %s | %d | %d |" % (name, ABOUT[name], len(part), sum(len(it.cases) for it in part)) for name, part in parts.items()),
        "", "%d cases, %d ways; %s." % (total, len(table), "each has a case" if none == 0 else "%d have no case" % none), "",
        "| Instruction | Way | %s |" % " | ".join(OUTCOMES), "|---|---|%s" % ("---|" * len(OUTCOMES)),
    ]
    for way, row in table.items():
        note = "" if way in known else " (not foreseen)"
        cells = [str(row[outcome]) if row[outcome] else "" for outcome in OUTCOMES] if row else ["**no case**"] + [""] * (len(OUTCOMES) - 1)
        lines.append("| %s | %s%s | %s |" % ("`%s`" % way[0] if way[0] in instr.NUMBER else way[0], way[1], note, " | ".join(cells)))
    return "\n".join(lines) + "\n"


def texts() -> Dict[pathlib.Path, str]:
    """Each file with its text."""
    out = {FOLDER / "cases" / (name + ".txt"): file_text(name, made) for name, made in suite().items()}
    return {**out, FOLDER / "COVERAGE.md": table_text()}


def compare(wanted: Dict[pathlib.Path, str]) -> int:
    """1 where a file is another, or there is one that is not wanted."""
    status = 0
    for path in sorted({*wanted, *(FOLDER / "cases").glob("*")}):
        if not path.exists() or wanted.get(path) != path.read_text(encoding="utf-8"):
            print("conformance.py: %s is another: run tools/conformance.py --write" % path.relative_to(TOP), file=sys.stderr)
            status = 1
    return status


def main() -> int:
    parser = argparse.ArgumentParser(prog="conformance.py", description=__doc__.split("\n\n")[0])
    way = parser.add_mutually_exclusive_group(required=True)
    way.add_argument("--write", action="store_true", help="write the files")
    way.add_argument("--check", action="store_true", help="write nothing, and fail where a file is another")
    way.add_argument("--table", action="store_true", help="write the table of ways on standard output")
    words = parser.parse_args()
    if sys.version_info < (3, 9):
        print("conformance.py: nothing was made or compared: tools/model reads no subscripts by a Python before 3.9", file=sys.stderr)
        return 0 if words.check else 2
    if words.table:
        sys.stdout.write(table_text())
        return 0
    wanted = texts()
    if words.check:
        return compare(wanted)
    (FOLDER / "cases").mkdir(exist_ok=True)
    for path, text in wanted.items():
        path.write_text(text, encoding="utf-8")
    return 0


if __name__ == "__main__":
    sys.exit(main())
