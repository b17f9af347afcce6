#!/usr/bin/env python3
"""Builds the program by cargo, without proof, where it is not there or older than its sources.

usage: quick_build.py [--without-note]

The workspace of tools/cargo.py is written into out/cargo, as --offline has it, and built there, so that cargo alone is
wanted. The path of the program goes to standard output; what is done, how long it took, and a note that this build is not
proved, to standard error. Two calls at once build once: the second waits.

Status: 0 the program is there; 1 it could not be built; 127 there is no cargo; 130 and 143 where a signal ends the call.
"""
from __future__ import annotations

import contextlib
import hashlib
import json
import os
import pathlib
import shutil
import signal
import subprocess
import sys
import time
from typing import Callable, Dict, Iterator, Optional, Sequence

TOOLS = pathlib.Path(__file__).resolve().parent
sys.path[:0] = [str(TOOLS), str(TOOLS.parent / "python")]

import cargo  # noqa: E402
from pyc import quick  # noqa: E402
from rattle.tokens import Unknown  # noqa: E402

Say = Callable[[str], None]


class NotBuilt(Exception):
    """Why there is no program."""


def has_cargo() -> bool:
    """Whether cargo and rustc are on the path."""
    return shutil.which("cargo") is not None and shutil.which("rustc") is not None


def rustc_version() -> str:
    """The name and the number of the compiler, as `rustc 1.95.0`; empty where it tells none."""
    said = subprocess.run(["rustc", "--version"], stdin=subprocess.DEVNULL, stdout=subprocess.PIPE, stderr=subprocess.DEVNULL, check=False)
    return " ".join(said.stdout.decode("utf-8", "replace").split()[:2])


def say_on_stderr(line: str) -> None:
    """Says a line as the command does."""
    print("pyc: " + line, file=sys.stderr, flush=True)


class Build:
    """The program in a folder: the workspace, what cargo keeps, and what it was built of."""

    def __init__(self, folder: pathlib.Path = pathlib.Path(quick.FOLDER), root: pathlib.Path = cargo.ROOT) -> None:
        self.folder = folder
        self.root = root
        self.program = pathlib.Path(quick.program_in(str(folder)))

    def is_fresh(self) -> bool:
        """Whether the program is there, and built of the sources as they stand. Where only their times differ from those
        that were seen, the new ones are noted."""
        if not os.access(str(self.program), os.X_OK):
            return False
        record = quick.read_record(str(self.folder))
        seen = quick.seen(str(self.root))
        if record.get("seen") == seen:
            return True
        if record.get("stamp") != stamp_of(self.root):
            return False
        self._write_record(dict(record, seen=seen))
        return True

    def _write_record(self, record: Dict[str, str]) -> None:
        beside = self.folder / "built.json.new"
        beside.write_text(json.dumps(record), encoding="utf-8")
        os.replace(str(beside), str(self.folder / "built.json"))

    def build(self, say: Say) -> None:
        """Writes the workspace and builds the program. Raises NotBuilt."""
        start = time.monotonic()
        seen, stamp = quick.seen(str(self.root)), stamp_of(self.root)
        say("building the program by cargo, without proof, which takes 15 to 60 seconds")
        try:
            cargo.check_folder(self.folder / "workspace")
            made = cargo.workspace(["pyc"], cargo.Wanted(offline=True, plain=True), self.root)
        except (Unknown, cargo.NotWritten) as fault:
            raise NotBuilt(str(fault)) from None
        cargo.put(self.folder / "workspace", made.files)
        self._call_cargo()
        self._write_record({"stamp": stamp, "seen": seen, "rustc": rustc_version()})
        say(f"built in {time.monotonic() - start:.0f} seconds")

    def _call_cargo(self) -> None:
        command = ["cargo", "build", "--release", "--offline", "--quiet", "-p", "pyc", "--bin", "pyc"]
        given = dict(os.environ, CARGO_TARGET_DIR=str(self.folder / "target"))
        given.pop("RUSTFLAGS", None)
        said = subprocess.run(command, cwd=str(self.folder / "workspace"), env=given, stdin=subprocess.DEVNULL,
                              stdout=subprocess.PIPE, stderr=subprocess.STDOUT, check=False)  # fmt: skip
        if said.returncode or not self.program.exists():
            raise NotBuilt("cargo could not build it:\n" + said.stdout.decode("utf-8", "replace").strip())


def stamp_of(root: pathlib.Path) -> str:
    """A sum of all that the program is made of."""
    state = hashlib.sha256()
    for path in quick.files_of(str(root)):
        state.update(os.path.relpath(path, str(root)).encode("utf-8", "surrogateescape") + b"\0")
        state.update(hashlib.sha256(pathlib.Path(path).read_bytes()).digest())
    return state.hexdigest()


@contextlib.contextmanager
def locked(folder: pathlib.Path, say: Say) -> Iterator[None]:
    """Holds the lock of a folder, once no other call does."""
    import fcntl

    folder.mkdir(parents=True, exist_ok=True)
    with open(str(folder / "lock"), "w", encoding="utf-8") as lock:
        try:
            fcntl.flock(lock, fcntl.LOCK_EX | fcntl.LOCK_NB)
        except OSError:
            say("another call builds the program: waiting for it")
            fcntl.flock(lock, fcntl.LOCK_EX)
        yield


def program(say: Say = say_on_stderr, build: Optional[Build] = None) -> pathlib.Path:
    """The program, which is built where that is due. Raises NotBuilt, also where there is no cargo or the folder cannot be
    written."""
    made = build or Build()
    if made.is_fresh():
        return made.program
    if not has_cargo():
        raise NotBuilt("there is no cargo on the path")
    try:
        with locked(made.folder, say):
            if not made.is_fresh():
                made.build(say)
    except OSError as fault:
        raise NotBuilt(str(fault)) from None
    return made.program


def main(words: Sequence[str]) -> int:
    """Builds the program and tells where it is."""
    if list(words) not in ([], ["--without-note"]):
        is_asked = list(words) in (["--help"], ["-h"])
        print(__doc__, file=sys.stdout if is_asked else sys.stderr)
        return 0 if is_asked else 2
    if not Build().is_fresh() and not has_cargo():
        return 127
    # What ends this call ends cargo too.
    signal.signal(signal.SIGTERM, lambda number, frame: sys.exit(128 + number))
    try:
        print(program())
    except NotBuilt as fault:
        say_on_stderr(str(fault))
        return 1
    except KeyboardInterrupt:
        return 130
    if not words:
        say_on_stderr(quick.NOTE)
    return 0


if __name__ == "__main__":
    sys.exit(main(sys.argv[1:]))
