#!/usr/bin/env python3
"""Prints the files that have an arm for a kind of node or for an instruction, so the places where a new one like it goes.

usage: kind.py KIND

KIND is the name of a kind of node, as IfExp, While or TypeAlias, or of an instruction, as GetIter. A file of crates/ has an
arm for it where its text names the kind, or the struct of its fields, outside of imports and comments. Crates stand in the
order of crates.txt. Behind them come the files of Python, of the Cargo workspace and of the documents that name the kind,
and in the end how many there are of each.
"""
import argparse
import pathlib
import re
import sys
from typing import Dict, Iterator, List

import build

TOP = pathlib.Path(__file__).resolve().parent.parent
FOLDERS = ("src", "specs", "proofs")

# What names kinds as examples.
EXAMPLES = ("tools/kind.py", "tools/test_documents.py", "docs/ARCHITECTURE.md")

# What is left out of a source of Rattle and of a file of definitions or proofs: imports and comments.
LEFT_OUT = {
    ".rt": re.compile(r"//[^\n]*|^\s*(?:pub |ghost )*use\s[^;]*;", re.M),
    ".antt": re.compile(r"--[^\n]*|^\s*(?:pub )?use\s[^\n]*", re.M),
}


def names(kind: str, text: str) -> bool:
    """Whether a text names a kind, or the struct that holds its fields."""
    return bool(re.search(r"\b(?:Expr|Stmt)?%s(?:Of)?\b" % re.escape(kind), text))


def has_arm(kind: str, path: pathlib.Path) -> bool:
    """Whether a file of Rattle, of definitions or of proofs names a kind outside of imports and comments."""
    text = path.read_text(encoding="utf-8")
    return kind in text and names(kind, LEFT_OUT[path.suffix].sub("", text))


def arms(kind: str, crate: pathlib.Path) -> Iterator[pathlib.Path]:
    """The files of a crate that have an arm for a kind, those of each folder in their order."""
    for folder in FOLDERS:
        for path in sorted((crate / folder).rglob("*")):
            if path.suffix in LEFT_OUT and has_arm(kind, path):
                yield path


def beside(kind: str, top: pathlib.Path) -> List[pathlib.Path]:
    """The files outside of crates/ that name a kind."""
    found = [*top.glob("python/**/*.py"), *top.glob("tools/**/*.py"), *top.glob("tools/cargo/**/*.rs"), *top.glob("docs/*.md")]
    places = [path for path in found if path.relative_to(top).as_posix() not in EXAMPLES]
    return sorted(path for path in places if names(kind, path.read_text(encoding="utf-8")))


def lines(kind: str, top: pathlib.Path) -> Iterator[str]:
    """The lines that are printed; none where nothing names the kind."""
    order = build.read_crates((top / "crates.txt").read_text(encoding="utf-8"))
    found: Dict[str, List[pathlib.Path]] = {name: list(arms(kind, top / "crates" / name)) for name in order}
    found = {name: paths for name, paths in found.items() if paths}
    others = beside(kind, top)
    for paths in [*found.values(), others]:
        yield from (path.relative_to(top).as_posix() for path in paths)
    if found or others:
        each = [path.relative_to(top).parts[2] for paths in found.values() for path in paths]
        counts = ", ".join("%d of %s" % (each.count(folder), folder) for folder in FOLDERS)
        yield "%d files of %d crates: %s; and %d beside them" % (len(each), len(found), counts, len(others))


def main() -> None:
    parser = argparse.ArgumentParser(prog="kind.py", description=" ".join(__doc__.partition("\n\n")[0].split()))
    parser.add_argument("kind", metavar="KIND", help="the name of a kind of node or of an instruction, as IfExp")
    kind = parser.parse_args().kind
    told = list(lines(kind, TOP))
    if not told:
        sys.exit("kind.py: no file names a kind %r" % kind)
    print("\n".join(told))


if __name__ == "__main__":
    main()
