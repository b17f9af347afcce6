#!/usr/bin/env python3
"""Times pyc from rows to listing beside what CPython does with the same trees: json.loads, compile and dis.

usage: speed.py [--program PATH] [--runs N] [--series plain|scopes] [--most N] [--library FOLDER | --without-library]
       speed.py [--program PATH] [--runs N] --growth [NAME..] [--sizes N] [--limit SECONDS] [--memory MB]
       speed.py [--program PATH] [--runs N] --source FILE..
       speed.py [--program PATH] [--series plain|scopes] [--library FOLDER] --instructions [FILE..]
       speed.py [--program PATH] [--runs N] [--series plain|scopes] [--most N] --beside PATH

The program is crates/pyc/out/pyc, which `sh pyc.sh --prove` builds. The trees are made ones of 10^3 to 10^5 statements, and
one of --most at most, and those files of the library of this Python, or of FOLDER, that pyc compiles and that import
nothing from the future, as one file. CPython gets the same rows, as text, to read, and the tree of the same source, which is
parsed before, to compile and to show. "JSON" is the program on an object that holds the rows: it reads all of it, and
then refuses it, since it is no array. The series `plain` is of statements of one scope with 25 names; `scopes` is of
functions, closures, classes, methods with super, comprehensions, decorators, default values, try and with.

--growth times made inputs whose cost may grow faster than their size, each at several sizes n, and tells how the rows, the
time and the listing grow: as which power of n, by the line through the logarithms that has the least squares. A run
that takes more seconds than --limit or more memory than --memory is ended, and the input with it. --source times files
from the source on: the rows and the program apart, and `python -m dis` beside them. --instructions counts what the
program executes, by callgrind of valgrind: over 10^4 statements of a series, and over files, or each 34th of those of the
library that pyc compiles. That is the same in each run, whatever else the machine does.

--beside times another build of the program over the same rows, as that which cargo builds without proof
(out/cargo/target/release/pyc): seconds, peaks and, where valgrind is there, instructions, of up to 10^4 statements.

Times are seconds of processor time, the least of N runs (3). Peaks are of resident memory, and no less than what the
Python has that starts the run, some 16 MB. Standard output is a table, as docs/PERFORMANCE.md and docs/GROWTH.md show them.
"""
import argparse
import ast
import collections
import datetime
import dis
import gc
import io
import json
import math
import os
import pathlib
import platform
import resource
import shutil
import subprocess
import sys
import tempfile
import time

import made_inputs

TOOLS = pathlib.Path(__file__).resolve().parent
PROGRAM = TOOLS.parent / "crates" / "pyc" / "out" / "pyc"
# The command, by its path.
STARTER = TOOLS.parent / "python" / "pyc" / "__main__.py"
sys.path.insert(0, str(TOOLS.parent / "python"))
SIZES = (1000, 3160, 10000, 31600, 100000)
# The files of the library that are taken together have rows of so many bytes at most: pyc reads fewer than 2^26.
LIBRARY_ROWS = 30000000
HEADS = (
    "Statements",
    "Rows, MB",
    "pyc",
    "JSON",
    "json.loads",
    "compile",
    "dis",
    "pyc / JSON",
    "pyc / json.loads",
    "pyc / all three",
    "Peak, MB",
    "Peak / rows",
    "Peak of CPython, MB",
)

GROWTH_HEADS = (
    "Input",
    "n",
    "Rows, kB",
    "Seconds",
    "Peak, MB",
    "Listing, kB",
    "Rows grow as n to the",
    "Time",
    "Listing",
)
INSTRUCTION_HEADS = ("Rows of", "Rows, kB", "Instructions, millions", "Instructions / byte of rows")
SOURCE_HEADS = ("File", "Source, kB", "Rows, kB", "rows.py", "pyc", "Both", "pyc / both", "python -m dis")

# The statements over which instructions are counted, and which of the files of the library.
COUNTED, EACH = 10000, 34

# What is started and ended takes about a thousandth of a second, whatever it does: times below this tell little.
SHORTEST = 0.004

BESIDE_HEADS = ("Statements", "Rows, MB", "pyc, s", "Beside, s", "As many times", "Peak of pyc, MB", "Beside, MB", "Instructions of pyc, M", "Beside, M", "CPython, s")

# How a run ended, its seconds of processor time, its peak of memory and what it wrote, in bytes.
Run = collections.namedtuple("Run", "status seconds peak written")


def bounded(limit, memory):
    """What a process does before it becomes the program: it gets a limit of seconds and one of memory, in MB."""
    resource.setrlimit(resource.RLIMIT_CORE, (0, 0))
    resource.setrlimit(resource.RLIMIT_CPU, (limit, limit + 1))
    resource.setrlimit(resource.RLIMIT_AS, (memory * 1000000, memory * 1000000))


def timed(words, source, out=subprocess.DEVNULL, bounds=None):
    """A run over a file. What it writes is counted where `out` is a pipe."""
    begin = bounds and (lambda: bounded(*bounds))
    written = 0
    with open(source, "rb") as it:
        run = subprocess.Popen(list(map(str, words)), stdin=it, stdout=out, stderr=subprocess.DEVNULL, preexec_fn=begin)
    if out == subprocess.PIPE:
        with run.stdout as it:
            written = sum(map(len, iter(lambda: it.read(1 << 16), b"")))
    _, status, usage = os.wait4(run.pid, 0)
    run.returncode = status >> 8 if status & 0xFF == 0 else 128 + (status & 0x7F)
    return Run(run.returncode, usage.ru_utime + usage.ru_stime, usage.ru_maxrss * 1024, written)


def show_cpython(rows, source):
    """Prints the seconds that CPython takes to read the rows, and to compile and show the source, in this process.

    The collector is off, as in rows.py: it would go over all rows again and again while they are read.
    """
    gc.disable()
    text = pathlib.Path(rows).read_text(encoding="utf-8")
    tree = ast.parse(pathlib.Path(source).read_bytes())
    found = []

    def step(call):
        start = time.process_time()
        value = call()
        found.append(time.process_time() - start)
        return value

    step(lambda: json.loads(text))
    code = step(lambda: compile(tree, "m.py", "exec"))
    step(lambda: dis.dis(code, file=io.StringIO()))
    print(json.dumps(found))


class Bench:
    """The program, how often each run is made, and a folder for files."""

    def __init__(self, program, runs, folder):
        self.program, self.runs, self.folder = program, runs, pathlib.Path(folder)

    def rows(self, source):
        """The file of the rows of a source, or None where it has none."""
        file = self.folder / "rows"
        with open(file, "wb") as out:
            run = timed([sys.executable, STARTER, "rows"], source, out)
        return file if run.status == 0 else None

    def pyc(self, rows, wanted=0):
        """The least seconds of the program over rows and its peak, or None where it ends with another status."""
        runs = [timed([self.program, "exec", "0", "m.py"], rows) for _ in range(self.runs)]
        return None if any(it.status != wanted for it in runs) else (min(it.seconds for it in runs), max(it.peak for it in runs))

    def reading(self, rows):
        """The least seconds in which the program reads the JSON of rows, and no more than that."""
        file = self.folder / "object"
        with open(rows, "rb") as it, open(file, "wb") as out:
            out.write(b'{"":')
            # Not as a whole, since the memory of this process counts as that of those that it starts.
            shutil.copyfileobj(it, out)
            out.write(b"}")
        return self.pyc(file, 3)[0]

    def cpython(self, rows, source):
        """The least seconds of each of the three steps of CPython, and its peak."""
        steps, peak = [], 0
        for _ in range(self.runs):
            with open(self.folder / "cpython", "wb") as out:
                run = timed([sys.executable, __file__, "--cpython", rows, source], os.devnull, out)
            steps.append(json.loads((self.folder / "cpython").read_text()))
            peak = max(peak, run.peak)
        return [min(it) for it in zip(*steps)], peak

    def line(self, name, rows, source):
        """A line of the table, and the seconds of the program; None where it does not compile."""
        ours = self.pyc(rows)
        if ours is None:
            return None
        (seconds, peak), reading, size = ours, self.reading(rows), rows.stat().st_size
        theirs, their_peak = self.cpython(rows, source)
        cells = [name, "%.2f" % (size / 1e6), *("%.3f" % it for it in (seconds, reading, *theirs))]
        cells += ["%.2f" % (seconds / it) for it in (reading, theirs[0], sum(theirs))]
        cells += ["%.0f" % (peak / 1e6), "%.0f" % (peak / size), "%.0f" % (their_peak / 1e6)]
        return table_line(cells), seconds

    def grown(self, name, size, bounds):
        """The bytes of the rows of a made input, and a run over them with the least seconds and the greatest peak of all.

        Of a run that does not compile it is that one.
        """
        file = self.folder / "made"
        with open(file, "wb") as out:
            subprocess.run([sys.executable, TOOLS / "made_inputs.py", name, str(size)], stdout=out, check=True)
        words = [self.program, "exec", "0", "m.py"]
        runs = []
        for _ in range(self.runs):
            runs.append(timed(words, file, subprocess.PIPE, bounds))
            if runs[-1].status != 0:
                return file.stat().st_size, runs[-1]
        least, peak = min(it.seconds for it in runs), max(it.peak for it in runs)
        return file.stat().st_size, runs[0]._replace(seconds=least, peak=peak)

    def instructions(self, rows):
        """The instructions that the program executes over rows, or None where it does not compile."""
        file = self.folder / "callgrind"
        words = ["valgrind", "--tool=callgrind", "--callgrind-out-file=%s" % file, self.program, "exec", "0", "m.py"]
        if timed(words, rows).status != 0:
            return None
        return summary_of(file.read_text(errors="replace"))

    def from_source(self, source):
        """The seconds of rows.py, of the program and of dis over a file, and the bytes of its rows; None without them."""
        file = self.folder / "rows"
        reading = []
        for _ in range(self.runs):
            with open(file, "wb") as out:
                reading.append(timed([sys.executable, STARTER, "rows"], source, out))
        ours = self.pyc(file) if all(it.status == 0 for it in reading) else None
        if ours is None:
            return None
        shown = [timed([sys.executable, "-m", "dis", source], os.devnull) for _ in range(self.runs)]
        return min(it.seconds for it in reading), ours[0], min(it.seconds for it in shown), file.stat().st_size


def table_line(cells):
    """A line of the table."""
    return "| %s |" % " | ".join(cells)


def table_head(heads):
    """The first two lines of a table."""
    return table_line(heads) + "\n|" + "---|" * len(heads)


def growth(points):
    """The slope of the line through the logarithms of sizes and values, by least squares; None of fewer than two points."""
    logs = [(math.log(size), math.log(value)) for size, value in points]
    if len({size for size, _ in logs}) < 2:
        return None
    middle = [sum(it) / len(logs) for it in zip(*logs)]
    above = sum((x - middle[0]) * (y - middle[1]) for x, y in logs)
    return above / sum((x - middle[0]) ** 2 for x, _ in logs)


def power(points):
    """The slope in two digits, or a stroke where there is none."""
    slope = growth(points)
    return "-" if slope is None else "%.2f" % slope


def growth_line(text, points, end=None):
    """A line of the table of growth: of the size, the bytes of rows and the run of each point; and how the next one ended."""
    columns = [
        [str(size) for size, _, _ in points],
        ["%.0f" % (rows / 1000) for _, rows, _ in points],
        ["%.3f" % run.seconds for _, _, run in points],
        ["%.0f" % (run.peak / 1e6) for _, _, run in points],
        ["%.0f" % (run.written / 1000) for _, _, run in points],
    ]
    if end is not None:
        columns[0].append(str(end[0]))
        columns[2].append(end[1])
    powers = [
        power([(size, rows) for size, rows, _ in points]),
        power([(size, run.seconds) for size, _, run in points if run.seconds >= SHORTEST]),
        power([(size, run.written) for size, _, run in points]),
    ]
    return table_line([text, *map(", ".join, columns), *powers])


def how_ended(status, limit):
    """How a run ended that has no time, in words."""
    if status in (128 + 9, 128 + 24):
        return "over %d" % limit
    return "no memory" if status == 6 else "status %d" % status


def gather(program, library, together):
    """Writes the files of a folder that the program compiles into one, one after the other, and prints their number."""
    # Here alone, since they take memory, which a process that is started counts as its own.
    from pyc import rows
    import stdlib

    texts, size = [], 0
    for file in stdlib.library_files(pathlib.Path(library)):
        found = stdlib.Found(program, file)
        if found.how != "compiled" or size + found.size > LIBRARY_ROWS:
            continue
        text = rows.text_of(file.read_bytes()) + "\n"
        # An import from the future stands before all else, so behind another file it is refused.
        if "from __future__" not in text:
            size += found.size
            texts.append(text)
    # Encodings are named in the first two lines alone.
    pathlib.Path(together).write_text("\n\n" + "".join(texts), encoding="utf-8")
    print(len(texts))


def summary_of(text):
    """The instructions that a file of callgrind tells, or None where it tells none."""
    lines = [it.split(":")[1].split() for it in text.splitlines() if it.startswith(("summary:", "totals:"))]
    return int(lines[0][0]) if lines and lines[0] else None


def sample(program, library):
    """Each 34th of the files of a folder that the program compiles, as `gather` takes them."""
    from pyc import rows
    import stdlib

    files = stdlib.library_files(pathlib.Path(library))
    found = [it for it in files if stdlib.Found(program, it).how == "compiled" and "from __future__" not in rows.text_of(it.read_bytes())]
    return found[::EACH]


def machine():
    """What the machine is."""
    try:
        lines = pathlib.Path("/proc/cpuinfo").read_text().splitlines()
        name = next(it.split(":")[1].strip() for it in lines if it.startswith("model name"))
    except (OSError, StopIteration):
        name = platform.processor() or platform.machine()
    return "%s, %d processors (load %.1f), %s" % (name, os.cpu_count(), os.getloadavg()[0], platform.system())


def show_growth(bench, names, sizes, bounds):
    """Prints the table of the made inputs of these names."""
    print(table_head(GROWTH_HEADS), flush=True)
    for name in names:
        made, points, end = made_inputs.GROWING[name], [], None
        for size in made.sizes[:sizes]:
            rows, run = bench.grown(name, size, bounds)
            if run.status != 0:
                end = size, how_ended(run.status, bounds[0])
                break
            points.append((size, rows, run))
        print(growth_line(made.text, points, end), flush=True)


def show_sources(bench, files):
    """Prints the table of files, from the source on, and a line of all of them together."""
    print(table_head(SOURCE_HEADS), flush=True)
    whole = [0] * 5
    for file in files:
        found = bench.from_source(file)
        if found is None:
            print("| %s does not compile |" % file, flush=True)
            continue
        numbers = [file.stat().st_size, found[3], *found[:3]]
        whole = [sum(it) for it in zip(whole, numbers)]
        print(source_line(str(file), *numbers), flush=True)
    if len(files) > 1 and whole[0]:
        print(source_line("together", *whole))


def show_instructions(bench, words):
    """Prints the table of instructions, of statements and of files, and a line of all files together."""
    print(table_head(INSTRUCTION_HEADS), flush=True)
    source = bench.folder / "source.py"
    source.write_text(made_inputs.source_of(words.series, COUNTED))
    files = words.instructions or sample(bench.program, words.library)
    size = count = 0
    for name, file in [("%d statements" % COUNTED, source), *((str(it), it) for it in files)]:
        rows = bench.rows(file)
        found = rows and bench.instructions(rows)
        if not found:
            print("| %s does not compile |" % name, flush=True)
            continue
        if file != source:
            size, count = size + rows.stat().st_size, count + found
        print(instruction_line(name, rows.stat().st_size, found), flush=True)
    if size and len(files) > 1:
        print(instruction_line("these %d files" % len(files), size, count))


def show_beside(bench, words):
    """Prints the table of two builds over the same rows, and what CPython does with the same trees."""
    other = Bench(words.beside.resolve(), words.runs, bench.folder)
    print(table_head(BESIDE_HEADS), flush=True)
    source = bench.folder / "source.py"
    for size in sorted({min(it, words.most) for it in SIZES[::2]}):
        source.write_text(made_inputs.source_of(words.series, size))
        rows = bench.rows(source)
        found = [it.pyc(rows) for it in (bench, other)]
        if None in found:
            print("| %d statements do not compile |" % size, flush=True)
            continue
        counts = [None, None]
        if size <= COUNTED and shutil.which("valgrind") is not None:
            counts = [it.instructions(rows) for it in (bench, other)]
        print(beside_line(size, rows.stat().st_size, found, counts, sum(bench.cpython(rows, source)[0])), flush=True)


def beside_line(count, size, found, counts, theirs):
    """A line of the table of two builds: the statements, the bytes of the rows, the seconds and peaks of both, their
    instructions, which may be None, and the seconds of CPython."""
    (ours, our_peak), (other, other_peak) = found
    cells = [str(count), "%.2f" % (size / 1e6), "%.3f" % ours, "%.3f" % other, "%.2f" % (other / ours)]
    cells += ["%.0f" % (our_peak / 1e6), "%.0f" % (other_peak / 1e6)]
    cells += ["%.1f" % (it / 1e6) if it else "" for it in counts]
    return table_line([*cells, "%.3f" % theirs])


def instruction_line(name, size, count):
    """A line of the table of instructions: bytes of the rows, and instructions."""
    return table_line([name, "%.0f" % (size / 1000), "%.1f" % (count / 1e6), "%.0f" % (count / size)])


def source_line(name, size, rows, reading, compiling, showing):
    """A line of the table of sources: bytes of the source and of the rows, and seconds."""
    both = reading + compiling
    cells = ["%.0f" % (size / 1000), "%.0f" % (rows / 1000), *("%.3f" % it for it in (reading, compiling, both))]
    return table_line([name, *cells, "%.2f" % (compiling / both), "%.3f" % showing])


def show_series(bench, words):
    """Prints the table of a series, and of the library."""
    print(table_head(HEADS), flush=True)
    points = []
    source = bench.folder / "source.py"
    for size in sorted({min(it, words.most) for it in SIZES}):
        source.write_text(made_inputs.source_of(words.series, size))
        found = bench.line(str(size), bench.rows(source), source)
        if found is None:
            print("| %d statements do not compile |" % size, flush=True)
            continue
        points.append((size, found[1]))
        print(found[0], flush=True)
    if not words.without_library:
        together = bench.folder / "library.py"
        gathering = [sys.executable, __file__, "--gather", str(bench.program), str(words.library), str(together)]
        count = int(subprocess.check_output(gathering))
        rows = bench.rows(together)
        line = rows and bench.line("%d files of the library" % count, rows, together)
        print(line[0] if line else "| The files of the library do not compile together |")
    if len(points) > 1:
        print("\nGrowth: pyc takes as long as the number of statements to the power %s." % power(points))


def words_of():
    """The words of the call."""
    parser = argparse.ArgumentParser(prog="speed.py", description=__doc__.split("\n")[0])
    parser.add_argument("--program", metavar="PATH", type=pathlib.Path, default=PROGRAM, help="the program that is timed (%(default)s)")
    parser.add_argument("--runs", metavar="N", type=int, default=3, help="how often each is run; the least time counts (%(default)s)")
    parser.add_argument("--series", choices=sorted(made_inputs.SERIES), default="plain", help="the made trees: statements in one scope (plain, the default), or functions, classes and comprehensions")
    parser.add_argument("--most", metavar="N", type=int, default=SIZES[-1], help="the most statements of a made tree (%(default)s)")
    parser.add_argument("--library", metavar="FOLDER", type=pathlib.Path, default=pathlib.Path(os.__file__).parent, help="the library whose files are timed (that of this Python)")
    parser.add_argument("--without-library", action="store_true", help="time the made trees alone")
    parser.add_argument("--growth", metavar="NAME", nargs="*", choices=list(made_inputs.GROWING), help="time made inputs whose cost may grow faster than their size: all, or these of %s (made_inputs.py --help says what they are)" % ", ".join(made_inputs.GROWING))
    parser.add_argument("--sizes", metavar="N", type=int, default=4, help="with --growth: how many sizes of each input, the smallest first (%(default)s)")
    parser.add_argument("--limit", metavar="SECONDS", type=int, default=20, help="with --growth: the most seconds of a run (%(default)s)")
    parser.add_argument("--memory", metavar="MB", type=int, default=4000, help="with --growth: the most memory of a run (%(default)s)")
    parser.add_argument("--source", metavar="FILE", nargs="+", type=pathlib.Path, help="time these files from the source on: rows.py and the program apart")
    parser.add_argument("--beside", metavar="PATH", type=pathlib.Path, help="time another build of the program over the same rows")
    parser.add_argument("--instructions", metavar="FILE", nargs="*", type=pathlib.Path, help="count the instructions of the program, by valgrind: over statements, and over these files or some of the library")
    return parser.parse_args()


def main():
    words = words_of()
    if not os.access(words.program, os.X_OK):
        sys.exit("speed.py: there is no program %s: sh pyc.sh --prove builds it" % words.program)
    if words.beside and not os.access(words.beside, os.X_OK):
        sys.exit("speed.py: there is no program %s" % words.beside)
    missing = [str(it) for it in (words.source or []) + (words.instructions or []) if not it.is_file()]
    if missing:
        sys.exit("speed.py: there is no file %s" % ", ".join(missing))
    print("%s; %s; CPython %s\n" % (datetime.date.today(), machine(), platform.python_version()))
    with tempfile.TemporaryDirectory() as folder:
        bench = Bench(words.program.resolve(), words.runs, folder)
        if words.growth is not None:
            show_growth(bench, words.growth or made_inputs.GROWING, words.sizes, (words.limit, words.memory))
        elif words.source:
            show_sources(bench, words.source)
        elif words.beside:
            show_beside(bench, words)
        elif words.instructions is not None:
            if shutil.which("valgrind") is None:
                sys.exit("speed.py: there is no valgrind")
            show_instructions(bench, words)
        else:
            show_series(bench, words)


if __name__ == "__main__":
    # Steps that take a process of their own, so that their memory is not counted as that of the program.
    if sys.argv[1:2] == ["--cpython"]:
        show_cpython(*sys.argv[2:])
    elif sys.argv[1:2] == ["--gather"]:
        gather(*sys.argv[2:])
    else:
        main()
