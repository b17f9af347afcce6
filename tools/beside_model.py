#!/usr/bin/env python3
"""Compiles files of the library of this Python by the program and by the model, and compares what both write.

usage: beside_model.py [--runs N] [--seed N] [--program FILE].. [FOLDER]

Each run draws a file, a mode and a level by chance from a fixed seed. The program gets the rows of the file, and the model
the same rows: standard output, standard error and the status are to be the same. A file without rows is drawn anew.
Without --program it is crates/pyc/out/pyc and, where that is there, crates/pyc/out/pyc.by-rattle. FOLDER takes the place of
the library. What differs is told; the last line has the counts. The status is 1 where something differs, and 2 where the
words are not as above.
"""
import argparse
import pathlib
import random
import subprocess
import sys
import sysconfig
from typing import List, NamedTuple, Optional, Tuple

ROOT = pathlib.Path(__file__).resolve().parent.parent
sys.path.insert(0, str(ROOT / "tools" / "model"))
sys.path.insert(0, str(ROOT / "python"))
import compile_rows  # the model
from pyc import rows
from stdlib import library_files

BUILDS = ("pyc", "pyc.by-rattle")
MODES = ("exec", "exec", "exec", "block")
LEVELS = ("0", "1", "2")

# How deep the model may recurse: a tree nests 2^10 deep, and a level of it is several calls.
DEEPEST = 40000

Ended = Tuple[int, str, str]


class Run(NamedTuple):
    """A file, and the words that it is compiled by."""

    file: pathlib.Path
    words: List[str]


def drawn(random_of: random.Random, files: List[pathlib.Path]) -> Run:
    """A run that is drawn by chance."""
    file = random_of.choice(files)
    return Run(file, [random_of.choice(MODES), random_of.choice(LEVELS), file.name])


def rows_of(run: Run) -> Optional[bytes]:
    """The rows of the file of a run, or None where it has none."""
    try:
        return rows.rows_text(run.file.read_bytes(), run.words[0]).encode("utf-8")
    except (rows.Fault, RecursionError):
        return None


def by_program(program: pathlib.Path, words: List[str], data: bytes) -> Ended:
    """How the program ends, and what it writes."""
    ended = subprocess.run([str(program), *words], input=data, stdout=subprocess.PIPE, stderr=subprocess.PIPE)
    return ended.returncode, ended.stdout.decode("utf-8", "replace"), ended.stderr.decode("utf-8", "replace")


def by_model(words: List[str], data: bytes) -> Ended:
    """How the model ends, and what it writes."""
    status, out, err, _ = compile_rows.run(words, data)
    return status, out, err


def main() -> int:
    parser = argparse.ArgumentParser(prog="beside_model.py", description=__doc__.split("\n")[0])
    parser.add_argument("--runs", type=int, default=200, metavar="N", help="how many runs (%(default)s)")
    parser.add_argument("--seed", type=int, default=1, metavar="N", help="the seed that runs are drawn from (%(default)s)")
    parser.add_argument("--program", type=pathlib.Path, action="append", metavar="FILE", help="a build of the program, instead of those of crates/pyc/out")
    parser.add_argument("folder", type=pathlib.Path, nargs="?", default=pathlib.Path(sysconfig.get_path("stdlib")), metavar="FOLDER", help="a folder of sources (the library)")
    words = parser.parse_args()
    programs = words.program or [it for it in (ROOT / "crates" / "pyc" / "out" / name for name in BUILDS) if it.exists()]
    if not programs:
        parser.error("there is no program: build it (sh pyc.sh), or name one by --program")
    sys.setrecursionlimit(DEEPEST)
    files, random_of = list(library_files(words.folder)), random.Random(words.seed)
    if not files:
        parser.error("there is no source in %s" % words.folder)
    listings = refusals = rowless = differ = done = 0
    while done < words.runs:
        run = drawn(random_of, files)
        data = rows_of(run)
        if data is None:
            rowless += 1
            if rowless > 10 * (words.runs + 1):
                parser.error("the sources of %s have no rows" % words.folder)
            continue
        done += 1
        wanted = by_model(run.words, data)
        listings, refusals = listings + (wanted[0] == 0), refusals + (wanted[0] != 0)
        for program in programs:
            got = by_program(program, run.words, data)
            if got != wanted:
                differ += 1
                print("%s by %s, %s: status %d for %d, output or error differs" % (run.file, program.name, " ".join(run.words[:2]), got[0], wanted[0]), flush=True)
    print("%d runs by %s: %d listings, %d refusals, %d files without rows; %d differ" % (done, ", ".join(it.name for it in programs), listings, refusals, rowless, differ))
    return 1 if differ else 0


if __name__ == "__main__":
    sys.exit(main())
