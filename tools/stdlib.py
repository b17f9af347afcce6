#!/usr/bin/env python3
"""Takes each file of the library of this Python through rows and pyc, and counts how it ends.

usage: stdlib.py [--program FILE] [--files] [--kinds] [FOLDER]

The program is crates/pyc/out/pyc, which `sh pyc.sh --prove` builds. FOLDER takes the place of the library; installed packages
(site-packages) are left out. With --files each file has a line of its own first: how it ended, and its path. The counts
are by kind of fault: the line that is told, without its place; where a kind of node is not compiled, with the kind.
With --kinds the rows of the files that were read are counted by their kind too. The status is 1 where the rows of a file
are refused as input: `pyc rows` makes none that are.
"""
import argparse
import collections
import json
import os
import pathlib
import platform
import subprocess
import sys
import time

ROOT = pathlib.Path(__file__).resolve().parent.parent
sys.path.insert(0, str(ROOT / "python"))
from pyc import rows

PROGRAM = ROOT / "crates" / "pyc" / "out" / "pyc"

# What the program tells of a kind that is not compiled.
NOT_YET = "RustPython does not implement this feature yet"


def library_files(folder):
    """The files of Python of a folder, in order, without installed packages."""
    return (it for it in sorted(folder.glob("**/*.py")) if "site-packages" not in it.parts)


def kind_at(text, place):
    """The kind of the outermost row at a place, as ROW:COL."""
    here = [row[0] for row in json.loads(text) if ":".join(map(str, row[1:3])) == place]
    return here[-1] if here else "no row"


class Found:
    """How a file ends, the bytes of its rows, and the seconds of rows and of the program."""

    def __init__(self, program, file, kinds=None):
        self.size, self.seconds = 0, (0.0, 0.0)
        start = time.perf_counter()
        try:
            text = rows.rows_text(file.read_bytes())
        except rows.Fault as fault:
            self.how = "no rows: " + str(fault)
            self.seconds = (time.perf_counter() - start, 0.0)
            return
        data = text.encode("utf-8")
        middle = time.perf_counter()
        words = [str(program), "exec", "0", file.name]
        ended = subprocess.run(words, input=data, stdout=subprocess.DEVNULL, stderr=subprocess.PIPE)
        self.size = len(data)
        self.seconds = (middle - start, time.perf_counter() - middle)
        if ended.returncode in (0, 1) and kinds is not None:
            kinds.update(row[0] for row in json.loads(text))
        told = ended.stderr.decode("utf-8").strip()
        if ended.returncode == 1:
            place, told = told.split(" ", 1)
            told += ": " + kind_at(text, place) if told == NOT_YET else ""
        self.how = "status %d: %s" % (ended.returncode, told) if ended.returncode else "compiled"


def main():
    parser = argparse.ArgumentParser(prog="stdlib.py", description=__doc__.split("\n")[0])
    parser.add_argument("--program", type=pathlib.Path, default=PROGRAM, help="the program that compiles (%(default)s)")
    parser.add_argument("--files", action="store_true", help="tell of each file how it ends")
    parser.add_argument("--kinds", action="store_true", help="count the rows of each kind")
    parser.add_argument("folder", metavar="FOLDER", nargs="?", type=pathlib.Path, default=pathlib.Path(os.__file__).parent, help="the library (that of this Python)")
    words = parser.parse_args()
    if not os.access(words.program, os.X_OK):
        sys.exit("stdlib.py: there is no program %s: sh pyc.sh --prove builds it" % words.program)
    counts, seconds = collections.Counter(), [0.0, 0.0]
    kinds = collections.Counter() if words.kinds else None
    for file in library_files(words.folder):
        found = Found(words.program.resolve(), file, kinds)
        if words.files:
            print("%s  %s" % (found.how, file), flush=True)
        counts[found.how] += 1
        seconds = [sum(it) for it in zip(seconds, found.seconds)]
    print("%d files of %s, by Python %s" % (sum(counts.values()), words.folder, platform.python_version()))
    for how, count in counts.most_common():
        print("%6d  %s" % (count, how))
    print("rows %.1f seconds, pyc %.1f seconds" % tuple(seconds))
    for kind, count in kinds.most_common() if kinds else ():
        print("%8d  %s" % (count, kind))
    sys.exit(1 if any(how.startswith("status 3") for how in counts) else 0)


if __name__ == "__main__":
    main()
