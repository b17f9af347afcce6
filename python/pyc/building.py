"""Which files are made of which sources, and the making of one of them."""
from __future__ import annotations

import os
import re
import subprocess
from typing import Dict, Iterable, Iterator, List, NamedTuple, Optional, Pattern, Sequence, Union

from . import freshness, program, refusals, rows
from .errors import MEMORY, MISSING, READ, WORDS, WRITE, Error, Failed, Refused, WrongWords
from .refusals import Refusal
from .sources import bytes_of, rows_of, text_of_name
from .freshness import Made, Recipe, Unmade

# The folder beside sources in which their files are made, and those in which no sources are looked for.
CACHE = "__pyccode__"
PASSED_OVER = (CACHE, "__pycache__")

# The word that asks the program for a file of that form; without one it gives a listing.
WORDS_OF_FORMS = {"code": ["pack"], "listing": []}


class Source(NamedTuple):
    """A source that was found."""

    file: str
    """Its path, as it was named, or below a folder as that was named."""
    below: str
    """Its path from the folder that was named; its name where it was named itself."""


class Job(NamedTuple):
    """A file that is to be made."""

    file: str
    """The path of the source."""
    path: str
    """The path that the code names."""
    target: Optional[str]
    """The path of the file; None where the bytes are handed back."""


class Outcome(NamedTuple):
    """What became of a job."""

    kind: str
    """`fresh`, `compiled`, `stale`, `refused` or `failed`."""
    status: int = 0
    text: str = ""
    """The lines that are told of it, with their ends; empty where there are none."""
    refusal: Optional[Refusal] = None
    data: bytes = b""
    """What was made, where the job has no target."""


def sources_of(named: Sequence[str], passed: Optional[Pattern[str]]) -> Iterator[Union[Source, Failed]]:
    """The sources: files that are named, and all `*.py` below folders that are, in order; or why there is none.

    What the pattern finds something in is left out.
    """
    for name in named:
        if os.path.isdir(name):
            found: Iterable[Union[Source, Failed]] = below(name)
        elif os.path.exists(name):
            found = [Source(name, os.path.basename(name))]
        else:
            found = [Failed("%s: No such file or directory\n" % shown(name), READ)]
        for it in found:
            if isinstance(it, Failed) or passed is None or not passed.search(it.file):
                yield it


def below(folder: str) -> Iterator[Union[Source, Failed]]:
    """The sources below a folder, by their names. Links to folders are not followed; what is no file, as a pipe, is none.

    A link that leads nowhere is one, and fails where it is read.
    """
    left = [""]
    while left:
        within = left.pop()
        place = os.path.join(folder, within) if within else folder
        try:
            entries = sorted(os.scandir(place), key=lambda it: it.name)
        except OSError as error:
            yield Failed("%s: %s\n" % (shown(place), error.strerror), READ)
            continue
        folders = []
        for entry in entries:
            if entry.is_dir():
                if not entry.is_symlink() and entry.name not in PASSED_OVER:
                    folders.append(os.path.join(within, entry.name))
            elif entry.name.endswith(".py") and (entry.is_file() or not os.path.exists(entry.path)):
                yield Source(os.path.join(place, entry.name), os.path.join(within, entry.name))
        left += reversed(folders)


def jobs_of(sources: Iterable[Source], recipe: Recipe, into: Optional[str], strip: Optional[str]) -> List[Job]:
    """The jobs of sources, each once. Their files come into that folder, or else beside the sources.

    Raises WrongWords where two sources would have one file, where one would be overwritten, or where `strip` begins the
    path of none.
    """
    found: Dict[str, Job] = {}
    stripped = 0
    for source in sources:
        path = stripped_path(source.file, strip)
        stripped += path is not None
        target = target_of(source, recipe, into)
        job = Job(source.file, source.file if path is None else path, target)
        other = found.setdefault(os.path.normpath(target), job)
        if other is not job and not os.path.samefile(other.file, job.file):
            names = shown(other.file), shown(job.file), shown(target)
            raise WrongWords("%s and %s would both be written to %s" % names)
    if strip is not None and found and not stripped:
        raise WrongWords("no source stands below %s, which --strip names" % shown(strip))
    check_targets(found)
    return list(found.values())


def check_targets(jobs: Dict[str, Job]) -> None:
    """Sees that no file that is made is a source, which would be lost. The jobs stand by the paths of their files."""
    # No file that is made has the name of a module.
    files = {os.path.realpath(it.file) for it in jobs.values() if not it.file.endswith(".py")}
    for target in jobs if files else ():
        if os.path.realpath(target) in files:
            raise WrongWords("%s is a source, and would be overwritten" % shown(target))


def stripped_path(file: str, strip: Optional[str]) -> Optional[str]:
    """The path without the folder that it begins with; None where it does not."""
    if strip is None:
        return None
    path, folder = os.path.normpath(file), os.path.normpath(strip)
    if folder == os.curdir:
        return path
    start = os.path.join(folder, "")
    return path[len(start) :] if path.startswith(start) else None


def target_of(source: Source, recipe: Recipe, into: Optional[str]) -> str:
    """The path of the file that is made of a source."""
    folder, name = os.path.split(source.file if into is None else os.path.join(into, source.below))
    return os.path.join(folder, CACHE if into is None else "", freshness.name_of(name, recipe))


def known(job: Job, recipe: Recipe) -> Optional[Outcome]:
    """What became of a job before, where that is fresh; None where its file is stale."""
    assert job.target is not None
    try:
        path = path_of(job)
        source = bytes_of(job.file)
    except Failed as failed:
        return failure(failed)
    result = freshness.fresh(job.target, recipe, path, source)
    if result is None:
        return None
    return Outcome("fresh") if isinstance(result, Made) else refused(refusal_of(job, result, source))


def make(recipe: Recipe, job: Job) -> Outcome:
    """Compiles a source and writes its file, or hands back its bytes."""
    try:
        path = path_of(job)
        source = bytes_of(job.file)
        try:
            made = compiled(recipe, shown(job.file), path, source)
        except Refused as fault:
            return refuse(recipe, job, path, source, fault.refusal)
        write(recipe, job, path, source, made)
        return Outcome("compiled", data=made if job.target is None else b"")
    except (Failed, Error) as fault:
        return failure(fault)
    except MemoryError:
        return Outcome("failed", MEMORY, "%s: no memory\n" % shown(job.file))


def refuse(recipe: Recipe, job: Job, path: str, source: bytes, refusal: Refusal) -> Outcome:
    """Keeps a refusal by a stamp. Where that is not written, both are told."""
    try:
        write(recipe, job, path, source, unmade(refusal))
    except Failed as failed:
        return refused(refusal)._replace(status=max(failed.status, refusal.status), text=str(failed))
    return refused(refusal)


def failure(fault: Union[Failed, Error]) -> Outcome:
    """The outcome where something went wrong that may go well another time."""
    return Outcome("failed", fault.status, str(fault) if isinstance(fault, Failed) else "%s\n" % fault)


def refused(refusal: Refusal) -> Outcome:
    """The outcome of a source that is refused."""
    return Outcome("refused", refusal.status, refusal=refusal)


def unmade(refusal: Refusal) -> Unmade:
    """A refusal as a stamp has it."""
    return Unmade(refusal.text, refusal.code, refusal.note, refusal.status, *(refusal.place or ()))


def refusal_of(job: Job, it: Unmade, source: bytes) -> Refusal:
    """A refusal that a stamp has, as it is told of a source."""
    place = None if it.row is None or it.column is None else (it.row, it.column)
    lines = rows.lines_of(source) or []
    line = lines[place[0] - 1].rstrip() if place is not None and 1 <= place[0] <= len(lines) else ""
    return Refusal(shown(job.file), place, it.refused, it.code, it.note, line or None, it.status)


def path_of(job: Job) -> str:
    """The path that the code names. Raises Failed where it is none that a code may name."""
    path = text_of_name(job.path)
    if path is None:
        raise Failed("%s: the name is not UTF-8\n" % shown(job.file), WORDS)
    return path


def found_program(named: Optional[str]) -> str:
    """The program that is named, or the one that is found. Raises NoProgram, and Failed where the one named is not there."""
    if named is None:
        return program.find()
    if not os.access(named, os.X_OK):
        raise Failed("%s: there is no such program\n" % shown(named), MISSING)
    return named


def compiled(recipe: Recipe, name: str, path: str, source: bytes) -> bytes:
    """What the program makes of a source; `name` is that by which the source is told.

    Raises Refused; Failed, Ended and OutOfMemory where the program did not come to an answer.
    """
    data = rows_of(name, source, recipe.mode)
    words = [*WORDS_OF_FORMS[recipe.form], recipe.mode, recipe.level, path]
    try:
        status, made, said = program.call(recipe.program, words, data, subprocess.PIPE)
    except OSError as error:
        raise Failed("%s: %s\n" % (shown(recipe.program), error.strerror), MEMORY) from None
    if status:
        program.check(status, said, name, data, rows.lines_of(source), True)
    return made


def write(recipe: Recipe, job: Job, path: str, source: bytes, made: Union[bytes, Unmade]) -> None:
    """Puts what was made into its place, where it has one. Raises Failed where it is not written."""
    if job.target is None:
        return
    try:
        freshness.write(job.target, recipe, path, source, made)
    except OSError as error:
        raise Failed("%s: %s\n" % (shown(job.target), error.strerror), WRITE) from None


def shown(name: str) -> str:
    """A path as it is told, also where it is not UTF-8."""
    return refusals.shown(os.fsencode(name).decode("utf-8", "backslashreplace"))


def pattern_of(text: str) -> Pattern[str]:
    """The pattern that a text is. Raises WrongWords where it is none."""
    try:
        return re.compile(text)
    except re.error as error:
        raise WrongWords("'%s' is no regular expression: %s" % (text, error)) from None
