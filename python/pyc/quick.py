"""The program as cargo builds it, without proof, until the proved one is there: it stands in out/cargo of a checkout.

Whether it is fresh is told here, since each call asks for that; tools/quick_build.py builds it.
"""
from __future__ import annotations

import hashlib
import json
import os
import shutil
import subprocess
import sys
from typing import Callable, Dict, List, Optional

from . import program, stamp

FOLDER = os.path.join(program.ROOT, "out", "cargo")
TOOL = os.path.join(program.ROOT, "tools", "quick_build.py")

# What is said of each call of such a program.
NOTE = (
    "this build is tested and not proved; `sh pyc.sh --prove` proves and builds the program, in about 46 minutes on "
    "4 processors and 24 GB"
)

# What takes that line, where a command is called.
teller: Optional[Callable[[str], None]] = None

# The program that this call has built.
_built: Optional[str] = None


def program_in(folder: str) -> str:
    """The path of the program that is built in a folder."""
    return os.path.join(folder, "target", "release", "pyc")


def files_of(root: str) -> List[str]:
    """The files that the program is made of: the sources of its crates, the adapters, and the tools that write them."""
    with open(os.path.join(root, "crates.txt"), encoding="utf-8") as it:
        crates = stamp.read_crates(it.read())
    tools = os.path.join(root, "tools")
    found = [os.path.join(root, "crates.txt")]
    found += [os.path.join(tools, it) for it in ("build.py", "cargo.py", "quick_build.py")]
    tops = [os.path.join(root, "crates", name, "src") for name in stamp.below("pyc", crates)]
    for top in [*tops, os.path.join(tools, "cargo"), os.path.join(tools, "rattle")]:
        for folder, _, names in os.walk(top):
            found += [os.path.join(folder, it) for it in names if not it.endswith(".pyc")]
    return sorted(found)


def seen(root: str) -> str:
    """A sum of the names, sizes and times of these files."""
    lines = []
    for path in files_of(root):
        state = os.stat(path)
        lines.append("%s %d %d\n" % (os.path.relpath(path, root), state.st_size, state.st_mtime_ns))
    return hashlib.sha256("".join(lines).encode("utf-8", "surrogateescape")).hexdigest()


def read_record(folder: str) -> Dict[str, str]:
    """What the last build in a folder says of the files that it saw; empty where there was none."""
    try:
        with open(os.path.join(folder, "built.json"), encoding="utf-8") as it:
            found = json.load(it)
    except (OSError, ValueError):
        return {}
    return found if isinstance(found, dict) else {}


def kit() -> str:
    """The compiler of Rust by which the program was built, as `rustc 1.95.0`; empty where that is not known."""
    return read_record(FOLDER).get("rustc", "")


def found() -> Optional[str]:
    """The program, where it is built of the sources as they stand."""
    if _built is not None:
        return _built
    path = program_in(FOLDER)
    if not program.is_checkout() or not os.access(path, os.X_OK):
        return None
    try:
        return path if read_record(FOLDER).get("seen") == seen(program.ROOT) else None
    except OSError:
        return None


def is_possible() -> bool:
    """Whether cargo is there, and this package stands in a checkout that it can build."""
    return program.is_checkout() and os.path.exists(TOOL) and shutil.which("cargo") is not None and shutil.which("rustc") is not None


def build() -> Optional[str]:
    """Builds the program where that is due. None where it could not be built, which the tool has told."""
    global _built
    ended = subprocess.run([sys.executable, "-B", TOOL, "--without-note"], stdin=subprocess.DEVNULL, stdout=subprocess.PIPE)
    path = ended.stdout.decode("utf-8", "surrogateescape").rstrip("\n")
    _built = path if ended.returncode == 0 and path else None
    return _built


def tell() -> None:
    """Says once what this build is, where a command is called."""
    global teller
    if teller is not None:
        teller("pyc: %s\n" % NOTE)
        teller = None
