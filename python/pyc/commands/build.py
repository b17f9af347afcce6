"""The command `build`: keeps files of code, or of listings, beside sources, and makes those that are stale."""
from __future__ import annotations

import contextlib
import functools
import os
import shutil
from typing import Dict, List, Optional, Pattern, Sequence, Tuple

from .. import ends, freshness, refusals
from ..building import Job, Outcome, found_program, jobs_of, known, make, pattern_of, shown, sources_of
from ..errors import DONE, MEMORY, MISSING, REFUSED, Failed, WrongWords
from ..freshness import Recipe
from ..options import Command, Option, parse
from ..workers import Lost, processors, results
from .compile import LEVEL, MODE

COMMAND = Command(
    "build",
    "PATH..",
    "Makes a file of code of each source, and again only where it is stale. PATH is a source, or a folder of sources *.py. "
    "The file of m.py is __pyccode__/m.exec-0.code beside it; `pyc run` and `unpack` take it.",
    (
        Option(("-j", "--jobs"), "so many sources at once (1); 0 is one for each processor", "N", default="1"),
        Option(("-d", "--to"), "put the files into DIR, where they stand as the sources do in the folders that are named", "DIR"),
        Option(("-q", "--quiet"), "tell refusals and failures alone"),
        Option(("-f", "--force"), "make all files again, those that are fresh too"),
        Option(("-x", "--exclude"), "leave out sources in whose path the regular expression finds something", "REGEXP"),
        Option(("--strip",), "leave out the folder with which paths begin in the paths that the codes name", "DIR"),
        Option(("--check",), "write nothing, tell what is stale, and end with 1 where something is"),
        Option(("--listings",), "make listings; without -d they are written on standard output, in the order of the sources"),
        MODE,
        LEVEL,
        Option(("--program",), "compile by this program", "FILE"),
    ),
    "The status is the highest of the sources' (README.md, \"Statuses\"). docs/BUILD.md says more.",
)


class Progress:
    """A line on a terminal that says how far a build is; nothing elsewhere."""

    def __init__(self, count: int, is_quiet: bool) -> None:
        self.count = count
        self.is_shown = not is_quiet and os.isatty(2)
        self.done = 0

    def step(self, job: Job) -> None:
        """One more job is done, which is this one."""
        self.done += 1
        if self.is_shown:
            width = len(str(self.count))
            line = "[%*d/%d] %s" % (width, self.done, self.count, shown(job.file))
            self.put(line[: shutil.get_terminal_size().columns - 1])

    def clear(self) -> None:
        """Takes the line away, so that something else may be written there."""
        if self.is_shown:
            self.put("")

    def put(self, line: str) -> None:
        ends.say("\r%s\x1b[K" % line)


class Report:
    """Tells of jobs in their order, whatever the order in which they end."""

    def __init__(self, jobs: Sequence[Job], progress: Progress, is_quiet: bool) -> None:
        self.jobs, self.progress, self.is_quiet = jobs, progress, is_quiet
        self.waiting: Dict[int, Outcome] = {}
        self.told = 0
        self.status = DONE
        self.counts = dict.fromkeys(("compiled", "stale", "fresh", "refused", "failed"), 0)

    def add(self, at: int, outcome: Outcome) -> None:
        """The job at that place has this outcome. Raises Failed where standard output is closed or full."""
        self.progress.step(self.jobs[at])
        self.waiting[at] = outcome
        while self.told in self.waiting:
            self.tell(self.jobs[self.told], self.waiting.pop(self.told))
            self.told += 1

    def tell(self, job: Job, outcome: Outcome) -> None:
        """Tells of the next job."""
        self.counts[outcome.kind] += 1
        self.status = max(self.status, outcome.status)
        is_stale = outcome.kind == "stale" and not self.is_quiet
        if outcome.text or outcome.refusal or is_stale:
            self.progress.clear()
        if outcome.text:
            ends.say(outcome.text)
        if outcome.refusal is not None:
            ends.say(refusals.told(outcome.refusal, ends.width(), ends.is_coloured()))
        if is_stale:
            ends.write("%s: stale\n" % shown(job.file))
        if outcome.data:
            ends.write(outcome.data)

    def summary(self) -> str:
        """How many files there are of each kind."""
        count = len(self.jobs)
        kinds = ", ".join("%d %s" % (number, kind) for kind, number in self.counts.items() if number)
        return "%d %s%s\n" % (count, "file" if count == 1 else "files", ": " + kinds if kinds else "")


def main(words: List[str]) -> int:
    """Builds what the words say, and gives the status."""
    given = parse(COMMAND, words)
    if not given.files:
        raise WrongWords("build wants a file or a folder")
    if "-" in given.files:
        raise WrongWords("build reads files and no standard input; a file of that name is written ./-")
    if given.check and given.listings and given.to is None:
        raise WrongWords("--check has nothing to look at, since listings are not kept without -d")
    count = workers_of(given.jobs)
    passed = None if given.exclude is None else pattern_of(given.exclude)
    recipe = recipe_of(given)
    jobs, status = found(given, recipe, passed)
    return max(status, build(given, recipe, jobs, count))


def recipe_of(given) -> Recipe:
    """How files are made, by the words. Raises NoProgram, and Failed where a program that is named is not there."""
    path = found_program(given.program)
    try:
        return freshness.recipe_of("listing" if given.listings else "code", given.mode, given.level, path)
    except OSError as error:
        raise Failed("%s: %s\n" % (shown(error.filename), error.strerror), MISSING) from None


def workers_of(text: str) -> int:
    """How many sources are compiled at once, by the word behind -j."""
    if not (text.isascii() and text.isdigit()) or len(text) > 4:
        raise WrongWords("-j is followed by a number, and not by '%s'" % text)
    return int(text) or processors()


def found(given, recipe: Recipe, passed: Optional[Pattern[str]]) -> Tuple[List[Job], int]:
    """The jobs, and the status of what was named and is not there, which is told."""
    sources, status = [], DONE
    for it in sources_of(given.files, passed):
        if isinstance(it, Failed):
            ends.say(str(it))
            status = max(status, it.status)
        else:
            sources.append(it)
    jobs = jobs_of(sources, recipe, given.to, given.strip)
    return ([it._replace(target=None) for it in jobs] if given.listings and given.to is None else jobs), status


def build(given, recipe: Recipe, jobs: List[Job], count: int) -> int:
    """Makes what is stale, tells of all, and gives the status."""
    report = Report(jobs, Progress(len(jobs), given.quiet), given.quiet)
    left: List[int] = []
    for at, job in enumerate(jobs):
        outcome = None if job.target is None or given.force else known(job, recipe)
        if outcome is not None:
            report.add(at, counted_fresh(outcome) if given.check else outcome)
        elif given.check:
            report.add(at, Outcome("stale", REFUSED))
        else:
            left.append(at)
    make_all(recipe, jobs, left, count, report)
    report.progress.clear()
    if not given.quiet and not (given.listings and given.to is None):
        ends.write(report.summary())
    return report.status


def counted_fresh(outcome: Outcome) -> Outcome:
    """An outcome as --check counts it: a refusal that is known is nothing that a build would change."""
    return Outcome("refused") if outcome.kind == "refused" else outcome


def make_all(recipe: Recipe, jobs: Sequence[Job], left: Sequence[int], count: int, report: Report) -> None:
    """Makes the files of the jobs at these places, so many at once."""
    for folder in {os.path.dirname(jobs[at].target or "") for at in left if jobs[at].target is not None}:
        freshness.remove_leavings(folder)
    with contextlib.closing(results(functools.partial(make, recipe), [jobs[at] for at in left], count)) as ended:
        for place, outcome in ended:
            report.add(left[place], lost(jobs[left[place]], outcome) if isinstance(outcome, Lost) else outcome)


def lost(job: Job, it: Lost) -> Outcome:
    """The outcome of a job whose worker was ended."""
    status = 128 - it.exit_code if it.exit_code < 0 else MEMORY
    return Outcome("failed", status, "%s: the process that compiled it was ended\n" % shown(job.file))
