#!/usr/bin/env python3
"""Writes the tables of crates into docs/ARCHITECTURE.md, from crates.txt and the first sentence of each crate's README.

usage: crates_table.py (--write | --check)

crates.txt has sections: a line `# NAME: WHAT IT IS` begins one. The tables stand between two marker lines, one for each
section, with a row for each crate in the order of crates.txt. A crate without a README is told by the first line of its
sources. With --check nothing is written, and the status is 1 where the document has other tables. Either way the status
is 1 where a crate stands in no section or uses a crate that stands after it, as one of a later section does.
"""
import argparse
import pathlib
import re
import sys
from typing import Dict, List, NamedTuple

import build

ROOT = pathlib.Path(__file__).resolve().parent.parent
CRATES = ROOT / "crates.txt"
DOCUMENT = ROOT / "docs" / "ARCHITECTURE.md"
BEGIN = "<!-- crates: tools/crates_table.py writes these lines -->"
END = "<!-- crates end -->"

# The line that begins a section.
HEADING = re.compile(r"# (\w+): (.+)")

# The first sentence of a text; and what stands before its first colon, where that has three words or more.
SENTENCE = re.compile(r"(.+?)(?:\.(?=\s|$)|$)", re.S)
BEFORE_COLON = re.compile(r"(\S+(?:\s+[^\s:]+){2,}?):\s")


class Section(NamedTuple):
    """A section of crates.txt: its name, what it is, and the names of its crates in their order."""

    name: str
    what: str
    crates: List[str]


class OutOfOrder(Exception):
    """A crate that stands in no section, or before one that it uses."""


def sections_of(text: str) -> List[Section]:
    """The sections of crates.txt in their order. Raises OutOfOrder where a crate stands before the first heading."""
    found: List[Section] = []
    for line in text.splitlines():
        heading = HEADING.fullmatch(line)
        if heading:
            found.append(Section(heading.group(1), heading.group(2), []))
        for name in build.read_crates(line):
            if not found:
                raise OutOfOrder("crates.txt: %s stands in no section" % name)
            found[-1].crates.append(name)
    return found


def check_order(sections: List[Section], crates: Dict[str, List[str]]) -> None:
    """Raises OutOfOrder where a crate uses one that stands after it, which one of a later section does."""
    section_of = {name: section.name for section in sections for name in section.crates}
    before = set()
    for section in sections:
        for name in section.crates:
            for used in crates[name]:
                if used not in before:
                    raise OutOfOrder(
                        "crates.txt: %s (%s) uses %s (%s), which stands after it" % (name, section.name, used, section_of[used])
                    )
            before.add(name)


def about(name: str) -> str:
    """What a crate is: the first sentence of its README, else of its sources."""
    folder = ROOT / "crates" / name
    readme = folder / "README.md"
    if readme.exists():
        paragraphs = [it.strip() for it in readme.read_text(encoding="utf-8").split("\n\n")]
        text = next((it for it in paragraphs if it and not it.startswith("#")), "")
    else:
        source = next(it for it in (folder / "src" / "lib.rt", folder / "src" / "main.rt") if it.exists())
        lines = source.read_text(encoding="utf-8").split("\n")
        text = " ".join(it[3:].strip() for it in lines if it.startswith("//!"))
    sentence = SENTENCE.match(" ".join(text.split())).group(1)
    short = BEFORE_COLON.match(sentence)
    return (short or SENTENCE.match(sentence)).group(1).rstrip(":").replace("|", "\\|")


def row(name: str, crates: Dict[str, List[str]]) -> str:
    """The row of a crate. A crate that comes by another one that it uses is left out of its third column."""
    uses = crates[name]
    direct = [it for it in uses if not any(it in build.below(other, crates) for other in uses if other != it)]
    return "| `%s` | %s | %s |" % (name, about(name), ", ".join("`%s`" % it for it in direct))


def tables(sections: List[Section], crates: Dict[str, List[str]]) -> str:
    """A heading, a sentence and a table for each section."""
    lines = []
    for section in sections:
        lines += ["### %s" % section.name, "", "%s%s." % (section.what[0].upper(), section.what[1:]), ""]
        lines += ["| Crate | What it is | Uses |", "|---|---|---|"]
        lines += [row(name, crates) for name in section.crates]
        lines.append("")
    return "\n".join(lines[:-1])


def main() -> None:
    parser = argparse.ArgumentParser(prog="crates_table.py", description=__doc__.split("\n")[0])
    way = parser.add_mutually_exclusive_group(required=True)
    way.add_argument("--write", action="store_true", help="write the tables into the document")
    way.add_argument("--check", action="store_true", help="write nothing, and fail where the document has other tables")
    words = parser.parse_args()
    text = CRATES.read_text(encoding="utf-8")
    crates = build.read_crates(text)
    try:
        sections = sections_of(text)
        check_order(sections, crates)
    except OutOfOrder as error:
        sys.exit("crates_table.py: %s" % error)
    old = DOCUMENT.read_text(encoding="utf-8")
    if old.count(BEGIN + "\n") != 1 or old.count(END + "\n") != 1:
        sys.exit("crates_table.py: docs/ARCHITECTURE.md has not each of the two marker lines once")
    before, rest = old.split(BEGIN + "\n")
    after = rest.split(END + "\n")[1]
    new = "".join([before, BEGIN, "\n\n", tables(sections, crates), "\n\n", END, "\n", after])
    if words.check and old != new:
        sys.exit("crates_table.py: the tables of docs/ARCHITECTURE.md are not those of crates.txt: run tools/crates_table.py --write")
    if words.write and old != new:
        DOCUMENT.write_text(new, encoding="utf-8")


if __name__ == "__main__":
    main()
