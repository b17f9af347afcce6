"""Files that are made of sources, each with a stamp beside it that says of what it was made.

A file is fresh where its stamp says what would make it now, and holds the sum of its bytes. So a file whose making was
stopped, that was changed, or that has the stamp of another call is stale, and made again.
"""
from __future__ import annotations

import contextlib
import hashlib
import json
import os
import platform
import time
from typing import Dict, Iterator, NamedTuple, Optional, Tuple, Union

from . import codefile, rows
from .stamp import sum_of_file

# What stands in a stamp, and how; another number makes all files stale.
STAMP = 1
SUFFIXES = {"code": ".code", "listing": ".txt"}


class Recipe(NamedTuple):
    """How files are made of sources: all that decides about their bytes but the source and its path."""

    form: str
    """`code`, a file of code; or `listing`."""
    mode: str
    level: str
    program: str
    """The path of the program."""
    program_sum: str
    reader: str
    """The Python that reads the sources, and the sum of the module that makes their rows."""


class Unmade(NamedTuple):
    """Why no file is made of a source, which stays so while its stamp is fresh."""

    refused: str
    """The reason, in words."""
    code: str
    """Of the kind of refusal, as `--explain` takes it."""
    note: str
    status: int
    row: Optional[int] = None
    """From 1; None where it has no place."""
    column: Optional[int] = None


class Made(NamedTuple):
    """That a file is made."""

    made: str
    """The sum of its bytes."""


Result = Union[Made, Unmade]


def sum_of(data: bytes) -> str:
    """The sum by which bytes are known again."""
    return hashlib.sha256(data).hexdigest()


def recipe_of(form: str, mode: str, level: str, program: str) -> Recipe:
    """The recipe of a call. Raises OSError where the program is not read."""
    version = "%s %s" % (platform.python_implementation(), platform.python_version())
    reader = "%s, rows %s" % (version, sum_of_file(rows.__file__))
    return Recipe(form, mode, level, program, sum_of_file(program), reader)


def name_of(name: str, recipe: Recipe) -> str:
    """The name of the file that is made of a source of that name: `m.exec-0.code` of `m.py`."""
    stem = name[: -len(".py")] if name.endswith(".py") else name
    return "%s.%s-%s%s" % (stem, recipe.mode, recipe.level, SUFFIXES[recipe.form])


def wanted(recipe: Recipe, path: str, source: bytes) -> Dict[str, object]:
    """What the stamp of a fresh file says beside the result; `path` is the path that the code names."""
    return {
        "stamp": STAMP,
        "form": recipe.form,
        "format": codefile.MAGIC.hex(),
        "mode": recipe.mode,
        "level": recipe.level,
        "path": path,
        "source": sum_of(source),
        "program": recipe.program_sum,
        "reader": recipe.reader,
    }


def stamp_of(target: str) -> str:
    """The path of a file's stamp."""
    return target + ".stamp"


def fresh(target: str, recipe: Recipe, path: str, source: bytes) -> Optional[Result]:
    """What is known of a source whose file, or whose refusal, is fresh; None where it is stale or there is none."""
    try:
        with open(stamp_of(target), "rb") as file:
            said = json.loads(file.read())
        result = said.pop("result")
        if said != wanted(recipe, path, source):
            return None
        if "made" in result:
            return Made(**result) if sum_of_file(target) == result["made"] else None
        # A file that is there is one of another source, which a call at the same time has put there.
        return None if os.path.lexists(target) else Unmade(**result)
    except (OSError, ValueError, TypeError, KeyError, AttributeError):
        # There is no stamp, or it is none of this form.
        return None


def write(target: str, recipe: Recipe, path: str, source: bytes, made: Union[bytes, Unmade]) -> None:
    """Puts a file and its stamp in place; of a refusal the stamp alone, and an older file goes.

    Raises OSError where one of them is not written. Whenever this is stopped, each file that is there is whole.
    """
    os.makedirs(os.path.dirname(target) or ".", exist_ok=True)
    if isinstance(made, Unmade):
        with contextlib.suppress(FileNotFoundError):
            os.remove(target)
        result: Result = made
    else:
        replace(target, made)
        result = Made(sum_of(made))
    stamp = dict(wanted(recipe, path, source), result=result._asdict())
    replace(stamp_of(target), json.dumps(stamp, indent=1).encode("ascii") + b"\n")


def replace(target: str, data: bytes) -> None:
    """Writes a file under another name beside it, and gives it its own name once it is whole; never where it stands."""
    folder, name = os.path.split(target)
    other = os.path.join(folder, ".%s.%d.new" % (name, os.getpid()))
    try:
        with open(other, "wb") as file:
            file.write(data)
        os.replace(other, target)
    except BaseException:
        with contextlib.suppress(OSError):
            os.remove(other)
        raise


def remove_leavings(folder: str) -> None:
    """Removes what calls that were killed have left in a folder an hour ago or more; nothing of one that is running."""
    with contextlib.suppress(OSError):
        for entry, number in list(unfinished(folder)):
            if not is_running(number) and entry.stat().st_mtime < time.time() - 3600:
                os.remove(entry.path)


def unfinished(folder: str) -> Iterator[Tuple[os.DirEntry, int]]:
    """The files that have not got their own name yet, each with the number of the process that writes it."""
    for entry in os.scandir(folder):
        parts = entry.name.rsplit(".", 2)
        if entry.name.startswith(".") and len(parts) == 3 and parts[2] == "new" and parts[1].isdigit():
            yield entry, int(parts[1])


def is_running(number: int) -> bool:
    """Whether there is a process of that number."""
    try:
        os.kill(number, 0)
    except ProcessLookupError:
        return False
    except OSError:
        return True
    return True
