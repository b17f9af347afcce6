"""The stamp beside a proved program: the sums of the program and of the sources that it was built of."""
from __future__ import annotations

import hashlib
import json
import os
from typing import Dict, List, NamedTuple, Optional

SUFFIX = ".stamp"
# The folders of a crate that hold what is proved.
PARTS = ("src", "specs", "proofs")


class Stamp(NamedTuple):
    """What a build says of the program that it has proved. The sums are SHA-256, in hexadecimal digits."""

    program: str
    sources: str
    kit: str
    commit: Optional[str] = None


def read(path: str) -> Optional[Stamp]:
    """The stamp beside a program, or None where none is there."""
    try:
        with open(path + SUFFIX, encoding="utf-8") as it:
            return Stamp(**json.load(it))
    except (OSError, ValueError, TypeError):
        return None


def write(path: str, stamp: Stamp) -> None:
    """Puts a stamp beside a program. Raises OSError."""
    with open(path + SUFFIX, "w", encoding="utf-8") as it:
        json.dump(stamp._asdict(), it)
        it.write("\n")


def sum_of_file(path: str) -> str:
    """The sum of the bytes of a file. Raises OSError."""
    found = hashlib.sha256()
    with open(path, "rb") as it:
        for piece in iter(lambda: it.read(1 << 20), b""):
            found.update(piece)
    return found.hexdigest()


def read_crates(text: str) -> Dict[str, List[str]]:
    """The crates of crates.txt: from each name to the names that it uses, of this repository alone."""
    found = {}
    for line in text.splitlines():
        name, colon, uses = line.partition("#")[0].partition(":")
        if colon:
            found[name.split()[0]] = uses.split()
    return {name: [it for it in uses if it in found] for name, uses in found.items()}


def below(name: str, crates: Dict[str, List[str]]) -> List[str]:
    """The names of the crates that this one uses, those that they use too, and its own; lower ones first."""
    seen: Dict[str, None] = {}

    def visit(it: str) -> None:
        if it not in seen:
            for used in crates[it]:
                visit(used)
            seen.setdefault(it, None)

    visit(name)
    return list(seen)


def sum_of_sources(root: str, crate: str = "pyc") -> str:
    """The sum of the sources of a program: of a line for each file, with its sum and its path, in the order of paths."""
    with open(os.path.join(root, "crates.txt"), encoding="utf-8") as it:
        crates = read_crates(it.read())
    paths = []
    for name in below(crate, crates):
        for part in PARTS:
            for folder, _, names in os.walk(os.path.join(root, "crates", name, part)):
                paths += [os.path.relpath(os.path.join(folder, it), root) for it in names]
    lines = ["%s  %s\n" % (sum_of_file(os.path.join(root, path)), path) for path in sorted(paths)]
    return hashlib.sha256("".join(lines).encode("utf-8", "surrogateescape")).hexdigest()
