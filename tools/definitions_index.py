#!/usr/bin/env python3
"""Prints the public definitions of a crate, each with the first sentence of the comment above it.

usage: definitions_index.py NAME..

NAME is a crate. Each of its files in specs/ has a table: the name of a definition, and what the comment above it says.
Names without a comment stand behind the table.
"""
import argparse
import pathlib
import re
import sys
from typing import Iterator, List, Optional, Tuple

TOP = pathlib.Path(__file__).resolve().parent.parent
# What a definition begins with; one within `mutual` is indented, as the fields of a record are.
BEGINS = re.compile(r"^( *)(?:(?:abbrev|unfoldable) )?pub (?:(data|record) )?(\S+)")
WHOLE = re.compile(r"^(?:abbrev |unfoldable )?mutual\b")


def first_sentence(lines: List[str]) -> str:
    """The first sentence of the lines of a comment."""
    text = " ".join(line.strip()[2:].strip() for line in lines)
    return re.split(r"(?<=\.) ", text)[0].rstrip(".")


def definitions(text: str) -> Iterator[Tuple[str, Optional[str]]]:
    """The public definitions of a file, each with the first sentence of its comment, or None."""
    comment: List[str] = []
    in_mutual, in_record = False, False
    for line in text.split("\n"):
        if line.strip().startswith("--"):
            comment.append(line)
            continue
        if line and not line.startswith(" "):
            in_mutual, in_record = bool(WHOLE.match(line)), False
        found = BEGINS.match(line)
        if found and (not found.group(1) or in_mutual and not in_record):
            in_record = found.group(2) == "record"
            yield found.group(3), first_sentence(comment) if comment else None
        comment = []


def rows(path: pathlib.Path) -> List[str]:
    """The lines of the part of a file, or none where it defines nothing."""
    found = list(definitions(path.read_text(encoding="utf-8")))
    if not found:
        return []
    lines = ["### `%s`" % path.name, ""]
    told = [(name, said) for name, said in found if said]
    if told:
        lines += ["| Definition | Says |", "|---|---|"]
        lines += ["| `%s` | %s |" % (name.replace("|", "\\|"), said.replace("|", "\\|")) for name, said in told]
        lines.append("")
    bare = ["`%s`" % name for name, said in found if not said]
    if bare:
        lines += ["%s: %s." % ("Also" if told else "Defines", ", ".join(bare)), ""]
    return lines


def page(crate: str, top: pathlib.Path) -> List[str]:
    """The lines of a crate, or none where it defines nothing."""
    paths = sorted((top / "crates" / crate / "specs").glob("**/*.antt"))
    parts = [line for path in paths if path.name != "Lib.antt" for line in rows(path)]
    return ["## %s" % crate, "", *parts] if parts else []


def main() -> None:
    parser = argparse.ArgumentParser(prog="definitions_index.py", description=__doc__.split("\n")[0])
    parser.add_argument("name", nargs="+", metavar="NAME", help="a crate, as py_scope")
    for crate in parser.parse_args().name:
        lines = page(crate, TOP)
        if not lines:
            sys.exit("definitions_index.py: no definition stands in a crate %r" % crate)
        print("\n".join(lines))


if __name__ == "__main__":
    main()
