#!/usr/bin/env python3
"""Writes docs/WRONG_BODIES.md, from the files crates/*/must-fail/*.edit, which rt ci tries, and crates/*/must-fail/*.md,
which tools/try_wrong_bodies.py tries.

usage: wrong_bodies.py (--write | --check)

The page has a row for each file that edits change: its crate, with a star where they are tried on demand, the file, and
the names of the edits in words. With --check nothing is written, and the status is 1 where the page is another.
"""
import argparse
import collections
import pathlib
import sys
from typing import Dict, List, NoReturn, Tuple

TOP = pathlib.Path(__file__).resolve().parent.parent
DOCUMENT = TOP / "docs" / "WRONG_BODIES.md"
HEAD = """# Wrong bodies

A wrong body is an edit of the program that the proofs must refuse: `crates/*/must-fail` holds them. The name of an edit says what it turns. All %d edits are of the program; none is of a contract, a definition or a proof.

`rt ci` tries those that end in `.edit`, %d of them. The first edit of a crate costs a whole check of it, and each further one a part of that. So `rt ci` tries no edit of a crate whose check takes long, and a few of a crate that has many. The others end in `.md`, and have a star below. They are tried on demand: `python3 tools/try_wrong_bodies.py NAME..`.

`python3 tools/wrong_bodies.py --write` writes this page.
"""


def stop(text: str) -> NoReturn:
    sys.exit("wrong_bodies.py: " + text)


def changed_file(edit: pathlib.Path) -> str:
    """The file that an edit changes, as it names it."""
    for line in edit.read_text(encoding="utf-8").splitlines():
        if line.startswith("file: "):
            return line[len("file: ") :].strip()
    stop("%s names no file" % edit.relative_to(TOP))


def page(top: pathlib.Path) -> str:
    """The whole document."""
    names: Dict[Tuple[str, str], List[str]] = collections.defaultdict(list)
    tried, on_demand = sorted(top.glob("crates/*/must-fail/*.edit")), sorted(top.glob("crates/*/must-fail/*.md"))
    for edit in sorted(tried + on_demand):
        crate = edit.parent.parent.name + ("" if edit.suffix == ".edit" else " *")
        names[crate, changed_file(edit)].append(edit.stem.replace("-", " "))
    rows = ["| %s | `%s` | %s |" % (*where, "; ".join(it)) for where, it in sorted(names.items())]
    head = HEAD % (len(tried) + len(on_demand), len(tried))
    return "\n".join([head, "| Crate | File | Wrong bodies |", "|---|---|---|", *rows]) + "\n"


def main() -> None:
    parser = argparse.ArgumentParser(prog="wrong_bodies.py", description=" ".join(__doc__.partition("\n\n")[0].split()))
    way = parser.add_mutually_exclusive_group(required=True)
    way.add_argument("--write", action="store_true", help="write the page")
    way.add_argument("--check", action="store_true", help="write nothing, and fail where the page is not that of the files")
    words = parser.parse_args()
    new = page(TOP)
    if words.write:
        DOCUMENT.write_text(new, encoding="utf-8")
    elif not DOCUMENT.exists() or DOCUMENT.read_text(encoding="utf-8") != new:
        stop("docs/WRONG_BODIES.md is not that of the files: run tools/wrong_bodies.py --write")


if __name__ == "__main__":
    main()
