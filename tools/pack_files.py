#!/usr/bin/env python3
"""Sends Python files through `pack` and `unpack` of the program, and compares what comes out with the listing.

usage: pack_files.py [-h] [--program PROGRAM] [-O LEVEL] PATH..

Of a folder its files *.py are taken, those in its folders too. A file that is no Python, or has no rows, or is refused, is
counted and passed over; `pack` must then end as the compilation did. The first file whose listing comes back otherwise is
named, and the status is then 1. It is run by hand.
"""
import argparse
import pathlib
import subprocess
import sys

ROOT = pathlib.Path(__file__).resolve().parent.parent
sys.path.insert(0, str(ROOT / "python"))
from pyc import rows as rows_of_python



def sources(paths):
    """The files, and those of folders."""
    for path in map(pathlib.Path, paths):
        yield from sorted(path.rglob("*.py")) if path.is_dir() else [path]


def run(program, words, data):
    """The status of a run of the program, and what it wrote on its two outputs."""
    ended = subprocess.run([program, *words], input=data, stdout=subprocess.PIPE, stderr=subprocess.PIPE)
    return ended.returncode, ended.stdout, ended.stderr


def comes_back(program, level, path, rows):
    """Whether the listing comes back through a file, or is refused in both ways alike; and whether there is one."""
    words = ["exec", level, str(path)]
    plain = run(program, words, rows)
    status, packed, told = run(program, ["pack", *words], rows)
    if plain[0] != 0:
        return (status, packed, told) == plain, False
    return status == 0 and run(program, ["unpack"], packed) == plain, True


def main():
    parser = argparse.ArgumentParser(description=__doc__.split("\n\n")[0])
    parser.add_argument("--program", default=ROOT / "crates/pyc/out/pyc", help="the program (crates/pyc/out/pyc)")
    parser.add_argument("-O", dest="level", default="0", choices=["0", "1", "2"], help="the level (0)")
    parser.add_argument("paths", nargs="+", metavar="PATH", help="a file, or a folder of files")
    args = parser.parse_args()
    count = passed = 0
    for path in sources(args.paths):
        try:
            rows = rows_of_python.rows_text(path.read_bytes()).encode("utf-8")
        except rows_of_python.Fault:
            passed += 1
            continue
        same, listed = comes_back(args.program, args.level, path, rows)
        if not same:
            sys.exit(f"{path}: the listing does not come back")
        count += listed
        passed += not listed
    print(f"{count} listings came back through a file, {passed} files were passed over")


if __name__ == "__main__":
    main()
