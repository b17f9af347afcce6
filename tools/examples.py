#!/usr/bin/env python3
"""Writes the rows and the listing of each example, or sees that they are as they should be.

usage: examples.py [--check] [--program PROGRAM]

The rows of examples/NAME.py are examples/NAME.json, which `pyc.sh rows` makes, and its listing is examples/NAME.txt, which
tools/model gives. With --check nothing is written: rows and listings are made again and compared, and the program, where it
is built, is to write the same listings. The rows of an example with type parameters are made by Python 3.12 or later alone.
The status is 1 where something differs.
"""
import argparse
import pathlib
import subprocess
import sys

TOOLS = pathlib.Path(__file__).resolve().parent
EXAMPLES = TOOLS.parent / "examples"
PROGRAM = TOOLS.parent / "crates" / "pyc" / "out" / "pyc"

# Those that an older Python does not read.
NEWER = {"type_parameters"}

sys.path.insert(0, str(TOOLS / "model"))
import compile_rows

sys.path.insert(0, str(TOOLS.parent / "python"))
from pyc import rows


def sources():
    """The sources of the examples."""
    return sorted(EXAMPLES.glob("*.py"))


def rows_of(source):
    """The rows of a source, made anew where this Python reads it, else as they are stored."""
    if source.stem in NEWER and sys.version_info < (3, 12):
        return source.with_suffix(".json").read_bytes()
    return rows.rows_text(source.read_bytes()).encode("utf-8") + b"\n"


def listing_of(source, made):
    """The listing that the model gives for the rows of a source."""
    status, listing, told, _ = compile_rows.run(["exec", "0", source.name], made)
    if status:
        raise ValueError("%s: %s" % (source.name, told))
    return listing.encode("utf-8")


def differing(source, program):
    """What is not as it should be of an example."""
    made = rows_of(source)
    listing = listing_of(source, made)
    for suffix, wanted in ((".json", made), (".txt", listing)):
        if source.with_suffix(suffix).read_bytes() != wanted:
            yield source.with_suffix(suffix).name
    if program.exists():
        ended = subprocess.run([str(program), "exec", "0", source.name], input=made, stdout=subprocess.PIPE)
        if ended.stdout != listing:
            yield "the listing of %s by the program" % source.name


def main():
    parser = argparse.ArgumentParser(prog="examples.py", description=__doc__.split("\n")[0])
    parser.add_argument("--check", action="store_true", help="write nothing, and compare")
    parser.add_argument("--program", type=pathlib.Path, default=PROGRAM, help="the program that is compared (%(default)s)")
    words = parser.parse_args()
    if words.check:
        found = [it for source in sources() for it in differing(source, words.program)]
        for it in found:
            print("examples.py: %s differs" % it)
        return 1 if found else 0
    for source in sources():
        made = rows_of(source)
        source.with_suffix(".json").write_bytes(made)
        source.with_suffix(".txt").write_bytes(listing_of(source, made))
    return 0


if __name__ == "__main__":
    sys.exit(main())
