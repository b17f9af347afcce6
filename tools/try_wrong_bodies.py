#!/usr/bin/env python3
"""Tries the wrong bodies that rt ci passes over, of crates whose check takes long or that have many: crates/NAME/must-fail/*.md.

usage: try_wrong_bodies.py [--together] NAME..

Each file is an edit, as the .edit files beside it are, and is called so while `rt must-fail NAME` tries it: the check
must refuse the crate with it. Change nothing in the crate meanwhile. The status is 1 where an edit is not refused.

With --together the edits of a crate that stand in different functions are made at once, in a copy of the repository,
and `rt ci NAME` checks the crate there once: each function that an edit changes must be refused. A function is proved
over the contracts of those that it calls and not over their bodies, so what is refused of it is refused for its own
edit. Edits that stand in a function that another one changes, or whose function was not looked at since one that it
calls is refused, wait for a further check. Run `rt ci` before, so that the crates below are kept.
"""
import argparse
import pathlib
import re
import shutil
import subprocess
import sys
import tempfile

TOP = pathlib.Path(__file__).resolve().parent.parent
FUNCTION = re.compile(r"\bfn ([a-z_0-9]+)")


def stop(text):
    sys.exit("try_wrong_bodies.py: " + text)


def tried(crate):
    """Whether each edit of a crate is refused."""
    renamed = []
    try:
        for there in sorted((TOP / "crates" / crate / "must-fail").glob("*.md")):
            edit = there.with_suffix(".edit")
            there.rename(edit)
            renamed.append((there, edit))
        return subprocess.run(["rt", "must-fail", crate], cwd=TOP, check=False).returncode == 0
    finally:
        for there, edit in renamed:
            edit.rename(there)


class Edit:
    """A wrong body: the file that it changes, its pairs of old and new text, and the functions in which these stand."""

    def __init__(self, path, sources):
        lines = path.read_text(encoding="utf-8").splitlines()
        self.name = path.stem
        self.file = next(it[len("file: ") :].strip() for it in lines if it.startswith("file: "))
        self.pairs = list(zip((it[5:] for it in lines if it.startswith("old: ")), (it[5:] for it in lines if it.startswith("new:"))))
        text = (sources / self.file).read_text(encoding="utf-8")
        for old, _ in self.pairs:
            if text.count(old) != 1:
                stop("%s: its text stands %d times in %s: %s" % (self.name, text.count(old), self.file, old))
        self.functions = {function_at(text, text.index(old)) for old, _ in self.pairs}

    def apply(self, sources):
        """Makes the edit in these sources."""
        text = (sources / self.file).read_text(encoding="utf-8")
        for old, new in self.pairs:
            text = text.replace(old, new)
        (sources / self.file).write_text(text, encoding="utf-8")


def function_at(text, place):
    """The name of the function that stands around a place of a source."""
    return [it.group(1) for it in FUNCTION.finditer(text) if it.start() <= place][-1]


def apart(edits):
    """Those of the edits that stand in functions which no earlier one changes."""
    found = []
    for edit in edits:
        if not any(edit.file == other.file and edit.functions & other.functions for other in found):
            found.append(edit)
    return found


def refused(said, file, function):
    """What a check says of the goals of a function that it does not prove. It says nothing of one that only calls, or stands in a cycle with, such a function."""
    module = pathlib.Path(file).stem
    goal = re.compile(r"note: %s:[\d:]+ it is not proved .*\(`(%s::)?%s-" % (re.escape(file), module, function))
    # (a method stands in the module of its type)
    told = re.compile(r"fn ([^\s:]+::)*(%s|[A-Z]\w*)::%s: .*did not prove" % (module, function))
    proof = re.compile(r"\./proofs/(\w+/)*(%s|[A-Z]\w*)/%s/\S+ error" % (module, function))
    return [it for it in said.splitlines() if goal.match(it) or told.match(it) or proof.match(it)]


def refused_together(crate, edits):
    """Those of the edits that one check of the crate refuses, each for what stands in a function that it changes."""
    with tempfile.TemporaryDirectory(prefix="wrong-bodies-") as place:
        copy = pathlib.Path(place) / "copy"
        shutil.copytree(TOP, copy, ignore=shutil.ignore_patterns("out", ".git"))
        for edit in edits:
            edit.apply(copy / "crates" / crate)
        subprocess.run(["git", "init", "-q"], cwd=copy, check=True)
        said = subprocess.run(["rt", "ci", crate], cwd=copy, check=False, stdout=subprocess.PIPE, stderr=subprocess.STDOUT, text=True).stdout
    found = []
    for edit in edits:
        lines = [it for function in sorted(edit.functions) for it in refused(said, edit.file, function)]
        if lines:
            found.append(edit)
            print("%s/%s (%s): refused: %s" % (crate, edit.name, ", ".join(sorted(edit.functions)), lines[0].strip()), flush=True)
    return found


def tried_together(crate):
    """Whether each edit of a crate is refused, where as many as can be are made at once."""
    sources = TOP / "crates" / crate
    left = [Edit(it, sources) for it in sorted((sources / "must-fail").glob("*.md"))]
    while left:
        found = refused_together(crate, apart(left))
        if not found:
            print("%s: NOT REFUSED: %s" % (crate, ", ".join(it.name for it in apart(left))))
            return False
        left = [it for it in left if it not in found]
    return True


def main():
    parser = argparse.ArgumentParser(prog="try_wrong_bodies.py", description=__doc__.split("\n")[0])
    parser.add_argument("--together", action="store_true", help="make the edits of different functions at once, in a copy of the repository")
    parser.add_argument("names", metavar="NAME", nargs="+", help="a crate")
    words = parser.parse_args()
    names, together = words.names, words.together
    for name in names:
        if not (TOP / "crates" / name / "must-fail").is_dir():
            stop("no wrong bodies of a crate %s" % name)
    sys.exit(0 if all([(tried_together if together else tried)(name) for name in names]) else 1)


if __name__ == "__main__":
    main()
