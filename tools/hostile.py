#!/usr/bin/env python3
"""Runs pyc where things go wrong: memory that is refused, wrong rows and words, devices that fail, and little stack.

usage: hostile.py {allocations,calls,rows,files,devices,stack,words} [--program FILE] ..

  allocations  refuses each allocation of a run in turn: the run ends as with memory, or with 6 and nothing written
  calls        the same of each call of the library alone, by the program of crates/alloc_calls
  rows         inputs that are no rows, and trees that are refused: the status, and each byte that is written
  files        code files with bytes cut off, changed, doubled, taken out, and counts made large, through `unpack`
  devices      ends that are closed, full, left early, slow or late: the statuses 4 and 5, and what was written
  stack        the deepest tree of each kind at the usual limit, and the least `ulimit -s` that it takes: `--depth 1022` for one
               less, and `rows` has them one deeper, where they are refused
  words        words that are not a mode, a level and a path

The program is crates/pyc/out/pyc, which `sh pyc.sh --prove` builds, or crates/alloc_calls/out/alloc_calls, which `rt ci` leaves. What differs is told with the input, what is wanted and what came;
the last line has the counts. The status is 0 where nothing differs, 1 where something does, and 2 where the words are not as
above. What is wanted comes from docs/ROWS.md and README.md, reports on names from tools/model, and none of it from the program.
Python 3.8 or later, on Linux.
"""
import argparse
import collections
import contextlib
import dataclasses
import fcntl
import json
import os
import pathlib
import pty
import random
import resource
import select
import shutil
import signal
import socket
import subprocess
import sys
import tempfile
import threading
import time
import tty

import code_files
import hostile_cases as cases
import names_table

TOOLS = pathlib.Path(__file__).resolve().parent
sys.path.insert(0, str(TOOLS.parent / "python"))
from pyc import codefile
from pyc import rows as rows_of_python

CRATE = TOOLS.parent / "crates" / "pyc"
SINGLE_CALLS = TOOLS.parent / "crates" / "alloc_calls"

# How long a run may take.
SECONDS = 120

DONE, REFUSED, USAGE, INPUT, READ_FAULT, WRITE_FAULT, MEMORY = range(7)

WORDS = ["exec", "0", "m.py"]

# The commands that read rows, and the one that reads a code file.
PACK = ["pack", *WORDS]
NAMES = ["names", "m.py"]
READERS = [WORDS, PACK, ["step", *WORDS, "g1"], NAMES]
UNPACK = ["unpack"]
USAGE_LINE = b"usage: pyc MODE LEVEL PATH\n"

# A status, which is negative for a signal, None where there was no end, and a text where something else is wrong, and what
# was written on both sinks. In what is wanted None stands for anything.
Ended = collections.namedtuple("Ended", "status out err")

# The rows of `f(a + 1)`, and the listing of its code.
CALL = b'[["Name",1,1,"f"],["Name",1,3,"a"],["int","1"],["Constant",1,7,2],["BinOp",1,3,1,"Add",3],["Call",1,1,0,[4],[]],["Expr",1,1,5],["Module",[6]]]'
CALL_LISTING = b"""code '<module>' from 'm.py' line 1 flags 1 args 0 0 0 depth 3
constants: 1, None
names: 'f', 'a'
0 1:1 LoadNameAny 0 'f'
1 1:3 LoadNameAny 1 'a'
2 1:7 LoadConst 0 1
3 1:7 BinaryOperation 0 Add
4 1:7 CallFunctionPositional 1
5 1:7 Pop
6 1:7 ReturnConst 1 None
"""
CALLED = Ended(DONE, CALL_LISTING, b"")

NOTHING = b'[["Module",[]]]'
NOTHING_LISTING = b"code '<module>' from 'm.py' line 1 flags 1 args 0 0 0 depth 0\nconstants: None\n0 1:1 ReturnConst 0 None\n"
NOTHING_FILE = codefile.write(dataclasses.replace(code_files.ONE, constants=(None,)))
NOTHING_RUNS = b"code\nreturned None\ntree\nreturned None\n"

# A made program, and the summary of its code, as docs/COMMANDS.md has both.
SAMPLE = ["sample", "8", "0"]
SUMMARY = b"statements 8\ncodes 5\nunits 57\nconstants 6\ndepth 3\n"

BREAK = b'[["Break",3,5],["Module",[0]]]'
BREAK_LINE = b"3:5 'break' outside loop\n"


def shown_status(status):
    """A status in words."""
    if status is None:
        return "no end in %d seconds" % SECONDS
    if isinstance(status, str):
        return status
    return "status %d" % status if status >= 0 else "signal " + signal.Signals(-status).name


def shown(data):
    """Bytes in one line, cut off where they are many."""
    text = repr(data)
    return text if len(text) <= 400 else "%s.. (%d bytes)" % (text[:400], len(data))


class Tally:
    """Counts runs, and tells of those that differ."""

    def __init__(self, title):
        self.title, self.runs, self.differing = title, 0, 0

    def check(self, name, wanted, got, given=None):
        """Whether a run ended as is wanted."""
        self.runs += 1
        same = all(want is None or want == it for want, it in zip(wanted, got))
        if not same:
            self.tell(name, wanted, got, given)
        return same

    def tell(self, name, wanted, got, given):
        """What differs."""
        self.differing += 1
        print("%s: %s" % (self.title, name))
        if given is not None:
            print("  input   %s" % shown(given))
        for what, it in ("wanted", wanted), ("got", got):
            texts = ["anything" if text is None else shown(text) for text in it[1:]]
            print("  %-7s %s, out %s, err %s" % (what, shown_status(it[0]), *texts), flush=True)

    def end(self, more=""):
        """The last line, and the status of this tool."""
        print("%s: %d runs, %d differ%s" % (self.title, self.runs, self.differing, more))
        return 1 if self.differing else 0


# An end of a run that is closed.
CLOSED = object()


def started(program, ends, words=WORDS, before=None, env=None):
    """A run over these three ends: files or their numbers, or CLOSED. `before` is called in it first."""

    def prepare():
        resource.setrlimit(resource.RLIMIT_CORE, (0, 0))
        if before is not None:
            before()
        for number, end in enumerate(ends):
            if end is CLOSED:
                os.close(number)

    given = [subprocess.DEVNULL if end is CLOSED else end for end in ends]
    how = dict(zip(("stdin", "stdout", "stderr"), given), preexec_fn=prepare, env={} if env is None else env)
    return subprocess.Popen([str(program), *words], **how)


def finished(process, data=None):
    """How a run ends that is given this on its standard input."""
    try:
        out, err = process.communicate(data, timeout=SECONDS)
        return Ended(process.returncode, out or b"", err or b"")
    except subprocess.TimeoutExpired:
        process.kill()
        out, err = process.communicate()
        return Ended(None, out or b"", err or b"")


def ended(program, data, words=WORDS, before=None, env=None):
    """How a run ends over pipes."""
    return finished(started(program, [subprocess.PIPE] * 3, words, before, env), data)


# Rows


def refused(line):
    """What is wanted of a tree that is refused."""
    return Ended(REFUSED, b"", line.encode("utf-8") + b"\n")


def misread(text):
    """What is wanted of what is no rows."""
    return Ended(INPUT, b"", b"input: " + text.encode("utf-8") + b"\n")


def names_of(count):
    """The rows of a program that declares a name global so many times, which has the size `count + 2`."""
    return cases.text_of(cases.rows_of(cases.module(("Global", 1, 1, ["a"] * count))))


def no_file(data):
    """What is wanted of `unpack` over bytes that are no code file."""
    return misread("bad code file at %s" % code_files.answer(data).split()[1])


def with_unpack(name, data, wanted):
    """An input that is neither rows nor a code file, by each command that reads one: as rows it ends as is wanted."""
    for words in READERS:
        yield "%s, by %s" % (name, words[0]), words, data, wanted
    yield "%s, by unpack" % name, UNPACK, data, wanted if len(data) >= 2**26 else no_file(data)


def with_sample(name, data):
    """The same input for `sample`, which reads none."""
    yield "%s, by sample" % name, SAMPLE, data, Ended(DONE, SUMMARY, b"")


def nothing_cases(name, data):
    """The rows of a program without statements, which may have spaces behind them, by each command."""
    for words, out in zip(READERS, [NOTHING_LISTING, NOTHING_FILE, NOTHING_RUNS, b""]):
        yield "%s, by %s" % (name, words[0]), words, data, Ended(DONE, out, b"")
    yield "%s, by unpack" % name, UNPACK, data, no_file(data)
    yield from with_sample(name, data)


def long_cases():
    """Inputs at the limit of bytes, by each command."""
    most = 2**26 - 1
    for name, data, text in ("2^26 - 1 spaces", b" " * most, "not JSON"), ("2^26 spaces", b" " * 2**26, "too long"):
        yield from with_unpack(name, data, misread(text))
        yield from with_sample(name, data)
    yield from nothing_cases("rows and spaces, 2^26 - 1 bytes", NOTHING.ljust(most))
    yield from with_unpack("rows and spaces, 2^26 bytes", NOTHING.ljust(2**26), misread("too long"))
    for size, wanted in (most, misread("bad code file at %d" % len(NOTHING_FILE))), (2**26, misread("too long")):
        yield "a code file and spaces, %d bytes" % size, UNPACK, NOTHING_FILE.ljust(size), wanted


def too_deep(rows):
    """The input of rows of which the last alone nests too deep, and what is wanted of it."""
    return cases.text_of(rows), misread("row %d: too deep" % (len(rows) - 1))


def deeper_cases():
    """Trees that nest one deeper than is taken, in each way to nest."""
    for deep in cases.deep_trees():
        yield deep.title + ", one too deep", *too_deep(deep.rows(cases.DEEPEST + 1))
    items = [("WithItem", cases.name(), None)] * 1021
    yield "a `with` of 1021 items", *too_deep(cases.rows_of(cases.module(("With", 1, 1, items, [cases.PASS]))))


def large_cases():
    """Inputs at the limit of size."""
    nothing = Ended(DONE, NOTHING_LISTING, b"")
    yield "names, of size 2^22 - 1", names_of(2**22 - 3), nothing
    yield "names, of size 2^22", names_of(2**22 - 2), refused("-:- tree is too large: nodes")
    path = cases.module(cases.imported(".".join("a" * (2**22 - 3))))
    yield "a path, of size 2^22", cases.text_of(cases.rows_of(path)), refused("-:- tree is too large: nodes")


def named(data):
    """What is wanted of `names` over the rows of a tree, as the model says."""
    tree = names_table.read_rows(data)
    line = names_table.refusal(tree)
    if line is not None:
        return refused(line)
    return Ended(DONE, "".join(it + "\n" for it in names_table.names.report(tree)).encode("utf-8"), b"")


def rows_cases():
    """A name, the words, an input, and how it ends."""
    yield from nothing_cases("an empty program", NOTHING)
    yield "a file of an empty program", UNPACK, NOTHING_FILE, Ended(DONE, NOTHING_LISTING, b"")
    yield "a call", WORDS, CALL, CALLED
    for data, text in cases.INPUTS:
        yield from with_unpack(text, data, misread(text))
    for tree, line in cases.refused_trees():
        data = cases.text_of(cases.rows_of(tree))
        for words in READERS:
            yield "%s, by %s" % (line, words[0]), words, data, named(data) if words is NAMES else refused(line)
    for mode in "eval", "single", "block":
        rows = cases.text_of(cases.rows_of(("FunctionType", [], cases.name())))
        yield "a type in " + mode, [mode, "2", "m.py"], rows, refused("-:- malformed tree: WrongMode")
    yield "a prompt in eval", ["eval", "1", "m.py"], b'[["Interactive",[]]]', refused("-:- malformed tree: WrongMode")
    yield from long_cases()
    for found in deeper_cases, large_cases:
        yield from ((name, WORDS, data, wanted) for name, data, wanted in found())


def check_rows(arguments):
    """The subcommand `rows`."""
    tally = Tally("rows")
    for name, words, data, wanted in rows_cases():
        tally.check(name, wanted, ended(arguments.program, data, words), data)
    return tally.end()


# Words

# Texts that are no scripts of answers.
NO_SCRIPTS = [
    "g", "g0", "g01", "g+1", "g 1", "g4194304", "g18446744073709551617", "g1,", ",g1", "g1,,r", ",", " ", "x", "D", "dd", "g1;r", "g1, r", "tf", "g\u0661", ",".join("d" * 65536),
]  # fmt: skip

# Words that are those of no command.
WRONG_WORDS = [
    [], ["-h"], ["--help"], ["--version"], ["exec"], ["exec", "0"], ["exec", "0", "m.py", ""], ["exec", "0", "m.py", "n.py"], ["", "", ""], ["", "0", "m.py"],
    ["Exec", "0", "m.py"], ["EXEC", "0", "m.py"], ["exec ", "0", "m.py"], [" exec", "0", "m.py"], ["exec\n", "0", "m.py"], ["execute", "0", "m.py"],
    ["exe", "0", "m.py"], ["compile", "0", "m.py"], ["func_type", "0", "m.py"], ["exec", "", "m.py"], ["exec", "3", "m.py"], ["exec", "-1", "m.py"],
    ["exec", "00", "m.py"], ["exec", "+0", "m.py"], ["exec", " 0", "m.py"], ["exec", "0 ", "m.py"], ["exec", "0x0", "m.py"], ["exec", "0.0", "m.py"],
    ["exec", "256", "m.py"], ["exec", "18446744073709551616", "m.py"], ["exec", "\u0660", "m.py"], ["exec", "O", "m.py"], ["0", "exec", "m.py"],
    ["--", "exec", "0", "m.py"], ["exec", "--", "0", "m.py"], ["e\u0301xec", "0", "m.py"], ["exec", "0", "m.py"] * 1000,
    ["step", *WORDS], ["step", *WORDS, "g1", "g1"], ["step", "exec", "3", "m.py", "g1"], ["Step", *WORDS, "g1"],
    *(["step", *WORDS, script] for script in NO_SCRIPTS),
]  # fmt: skip

# Words of which one is not UTF-8: nothing is written.
NOT_UTF8 = [
    [b"\xff"], [b"exec", b"0", b"\xff"], [b"exec", b"0", b"m\x80.py"], [b"\xc3", b"0", b"m.py"], [b"exec", b"\xfe", b"m.py"], [b"exec", b"0", b"\xed\xa0\x80"],
    [b"exec", b"0", b"\xc0\xaf"], [b"exec", b"0", b"\xf4\x90\x80\x80"], [b"exec", b"0", b"\xe2\x82"], [b"exec", b"0", b"m.py", b"\xff"], [b"exec", b"3", b"\xff"],
]  # fmt: skip

# Paths, and how a listing shows them.
PATHS = [
    ("", "''"), (" ", "' '"), ("-h", "'-h'"), ("a'b\\c", "'a\\'b\\\\c'"), ("a\nb\t\x7f", "'a\\x0ab\\x09\\x7f'"), ("\u00e9\U0001f600\ufeff", "'\u00e9\U0001f600\ufeff'"),
    ("a" * 100000, "'" + "a" * 100000 + "'"),
]  # fmt: skip


# Code files

# The address space that a run over a small code file may take, in bytes.
SPACE = 128 << 20

UNSOUND = b"input: code does not verify\n"


def counts_of(data):
    """The offsets of the counts and lengths of a code file."""
    reader = codefile.Reader(data)
    reader.file()
    return reader.counts


def mutant(data, counts, draw):
    """A file that is made of another by chance."""
    at, kind = draw.randrange(len(data)), draw.randrange(5)
    if kind == 0:
        return data[:at]
    if kind == 1:
        return data[:at] + bytes([draw.randrange(256)]) + data[at + 1:]
    if kind == 2:
        end = at + draw.randrange(1, 64)
        return data[:end] + data[at:end] + data[end:]
    if kind == 3:
        return data[:at] + data[at + draw.randrange(1, 9):]
    at = draw.choice(counts)
    large = draw.choice([2**32 - 1, 2**31, 2**24, draw.randrange(2**32)])
    return data[:at] + codefile.number(large) + data[at + 4:]


def unpacking_ends(data, got):
    """What is wanted of a run over these bytes. One that reads a code lists it, or says that it does not verify."""
    if code_files.answer(data) != "Ok":
        return no_file(data)
    return Ended(INPUT, b"", UNSOUND) if got.err == UNSOUND else Ended(DONE, None, b"")


def within_space():
    """Limits the address space of the process that calls it."""
    resource.setrlimit(resource.RLIMIT_AS, (SPACE, SPACE))


def check_files(arguments):
    """The subcommand `files`."""
    tally, draw, read = Tally("files"), random.Random(arguments.seed), 0
    rows = rows_of_python.rows_text(source_of(arguments)).encode("utf-8")
    files = [ended(arguments.program, rows, PACK).out, *code_files.FILES.values()]
    counts = [counts_of(it) for it in files]
    for number in range(arguments.count):
        at = number % len(files)
        data = mutant(files[at], counts[at], draw)
        got = ended(arguments.program, data, UNPACK, before=within_space)
        tally.check("mutant %d" % number, unpacking_ends(data, got), got, data)
        read += got.status == DONE
    return tally.end("; %d were read and listed" % read)


def words_cases():
    """Words, an input, and how it ends."""
    for words in WRONG_WORDS:
        yield words, CALL, Ended(USAGE, b"", USAGE_LINE)
    for words in NOT_UTF8:
        yield words, CALL, Ended(USAGE, b"", b"")
    for path, quoted in PATHS:
        yield ["exec", "0", path], NOTHING, Ended(DONE, NOTHING_LISTING.replace(b"'m.py'", quoted.encode("utf-8")), b"")
    for mode in "exec", "eval", "single", "block":
        for level in "012":
            yield [mode, level, "m.py"], CALL, Ended(DONE, None if mode in ("single", "block") else CALL_LISTING, b"")


def check_words(arguments):
    """The subcommand `words`."""
    tally = Tally("words")
    for words, data, wanted in words_cases():
        tally.check("%.200r" % (words,), wanted, ended(arguments.program, data, words), data)
    return tally.end()


# Devices


def wide(count):
    """The rows of so many statements that evaluate a name, and their listing."""
    rows = cases.text_of(cases.rows_of(cases.module(*[("Expr", 1, 1, cases.name())] * count)))
    units = "".join("%d 1:1 LoadNameAny 0 'a'\n%d 1:1 Pop\n" % (2 * at, 2 * at + 1) for at in range(count))
    head = "code '<module>' from 'm.py' line 1 flags 1 args 0 0 0 depth 1\nconstants: None\nnames: 'a'\n"
    return rows, (head + units + "%d 1:1 ReturnConst 0 None\n" % (2 * count)).encode("utf-8")


# Rows whose listing is more than a pipe holds.
WIDE, WIDE_LISTING = wide(5000)

PIPE = subprocess.PIPE
FAILED_READ, FAILED_WRITE = Ended(READ_FAULT, b"", b""), Ended(WRITE_FAULT, b"", b"")


@contextlib.contextmanager
def opened(path, flags):
    """The number of a file that is open for a while."""
    number = os.open(str(path), flags)
    try:
        yield number
    finally:
        os.close(number)


def fed(program, source, feed, words=WORDS):
    """How a run ends over this source, which a thread feeds. The number is closed here once the run has it."""
    process = started(program, [source, PIPE, PIPE], words)
    os.close(source)
    feeder = threading.Thread(target=feed, daemon=True)
    feeder.start()
    got = finished(process)
    feeder.join(SECONDS)
    return got


def write_pieces(number, pieces):
    """Writes these pieces, and closes the file. A reader that has gone ends it."""
    with contextlib.suppress(BrokenPipeError):
        for piece in pieces:
            os.write(number, piece)
    os.close(number)


def single_bytes(program):
    """A source that gives one byte to each read: a pipe keeps what was written together, and no more."""
    source, end = os.pipe2(os.O_DIRECT)
    return fed(program, source, lambda: write_pieces(end, (CALL[at : at + 1] for at in range(len(CALL)))))


def late_end(program):
    """A source that ends half a second after its last byte. Nothing is written before."""
    source, end = os.pipe()
    process = started(program, [source, PIPE, PIPE])
    os.close(source)
    os.write(end, CALL)
    time.sleep(0.5)
    early = process.poll() is not None or bool(select.select([process.stdout, process.stderr], [], [], 0)[0])
    os.close(end)
    got = finished(process)
    return Ended("before its end", got.out, got.err) if early else got


def terminal_gone(program):
    """A source that fails behind some bytes: the end of a terminal whose other end is closed."""
    source, end = pty.openpty()
    tty.setraw(end)
    os.write(end, CALL)
    os.close(end)
    with contextlib.closing(os.fdopen(source, "rb", 0)) as it:
        return finished(started(program, [it, PIPE, PIPE]))


def socket_reset(program):
    """A source that fails behind some bytes: a socket whose other end is closed with bytes that it did not read."""
    source, end = socket.socketpair()
    with source:
        source.send(b"unread")
        end.send(CALL[:64])
        end.close()
        return finished(started(program, [source, PIPE, PIPE]))


def not_waiting(program, data):
    """A source that does not wait for bytes that are not there yet."""
    source, end = os.pipe()
    os.set_blocking(source, False)
    os.write(end, data)
    got = finished(started(program, [source, PIPE, PIPE]))
    os.close(source)
    os.close(end)
    return got


def left_unread(program):
    """A source that holds bytes under wrong words: the run ends at once, and they are all left."""
    source, end = os.pipe()
    os.write(end, CALL)
    got = finished(started(program, [source, PIPE, PIPE], ["exec", "3", "m.py"]))
    os.close(end)
    with os.fdopen(source, "rb") as it:
        left = it.read()
    return got if left == CALL else Ended("%d bytes left" % len(left), got.out, got.err)


def read_cases(program):
    """Sources: what they are, what is wanted, and what comes."""
    ends = [PIPE, PIPE]

    def over(source, words=WORDS):
        return finished(started(program, [source, *ends], words))

    yield "standard input is closed", FAILED_READ, over(CLOSED)
    with opened("/", os.O_RDONLY) as folder:
        yield "standard input is a folder", FAILED_READ, over(folder)
    with opened("/dev/null", os.O_WRONLY) as file:
        yield "standard input is open for writing alone", FAILED_READ, over(file)
    yield "a source that fails at once: nothing is there, and it does not wait", FAILED_READ, not_waiting(program, b"")
    yield "a source that fails behind some bytes: it does not wait", FAILED_READ, not_waiting(program, CALL)
    yield "a source that fails behind some bytes: a socket", FAILED_READ, socket_reset(program)
    yield "a source that fails behind some bytes: a terminal", FAILED_READ, terminal_gone(program)
    with opened("/dev/null", os.O_RDONLY) as file:
        yield "an empty source", misread("not JSON"), over(file)
    with opened("/dev/zero", os.O_RDONLY) as file:
        yield "a source without end", misread("too long"), over(file)
        yield "a source without end, and wrong words", Ended(USAGE, b"", USAGE_LINE), over(file, [])
    yield "standard input is closed, and wrong words", Ended(USAGE, b"", USAGE_LINE), over(CLOSED, [])
    yield "bytes under wrong words", Ended(USAGE, b"", USAGE_LINE), left_unread(program)
    yield "one byte at each read", CALLED, single_bytes(program)
    yield "a source that ends late", CALLED, late_end(program)


# A tree and words for each sink: what is to be written on it, on standard output with Done and else on standard error.
TEXTS = [
    ("a listing", WORDS, CALL, CALLED),
    ("a line of a tree", WORDS, BREAK, Ended(REFUSED, b"", BREAK_LINE)),
    ("a line of what is no rows", WORDS, b"{}", misread("not rows")),
    ("the usage", ["exec"], b"", Ended(USAGE, b"", USAGE_LINE)),
]


def over_sink(program, words, data, number, sink):
    """How a run ends over this sink, which is standard output or standard error."""
    ends = [PIPE, PIPE, PIPE]
    ends[number] = sink
    return finished(started(program, ends, words), data)


def failing_sinks():
    """Sinks that take nothing: what they are, and a number that is open for a while."""
    yield "is closed", contextlib.nullcontext(CLOSED)
    yield "is full", opened("/dev/full", os.O_WRONLY)
    yield "is open for reading alone", opened("/dev/null", os.O_RDONLY)
    source, end = os.pipe()
    os.close(source)
    yield "is a pipe that was left", contextlib.closing(os.fdopen(end, "wb", 0))


def write_cases(program):
    """Sinks that take nothing, under each text, and under a text that is written on the other."""
    for name, words, data, wanted in TEXTS:
        due = 1 if wanted.status == DONE else 2
        for number, title in (1, "standard output"), (2, "standard error"):
            for how, sink in failing_sinks():
                with sink as it:
                    got = over_sink(program, words, data, number, it)
                yield "%s: %s %s" % (name, title, how), FAILED_WRITE if number == due else wanted, got


def fitted(got, size=None):
    """How a run ended, with a word in the place of what it wrote where that is a front of the listing, of this size."""
    is_front = WIDE_LISTING.startswith(got.out) and len(got.out) < len(WIDE_LISTING)
    return Ended(got.status, b"a front" if is_front and size in (None, len(got.out)) else got.out, got.err)


def feed_apart(process, data):
    """Feeds a run in a thread, so that what it writes can be read meanwhile, and kills it where it takes too long."""
    end = os.dup(process.stdin.fileno())
    process.stdin.close()
    process.stdin = None
    late = threading.Timer(SECONDS, process.kill)
    late.daemon = True
    for thread in threading.Thread(target=write_pieces, args=(end, [data]), daemon=True), late:
        thread.start()


def left_early(program):
    """A reader that goes after the first bytes."""
    process = started(program, [PIPE, PIPE, PIPE])
    feed_apart(process, WIDE)
    front = os.read(process.stdout.fileno(), 1000)
    process.stdout.close()
    with process.stderr:
        err = process.stderr.read()
    return Ended(process.wait(), front, err)


def not_taking(program):
    """A pipe that nobody reads, and that does not wait."""
    source, end = os.pipe()
    os.set_blocking(end, False)
    with os.fdopen(source, "rb") as reader:
        with os.fdopen(end, "wb", 0) as sink:
            got = finished(started(program, [PIPE, sink, PIPE]), WIDE)
        return Ended(got.status, reader.read(), got.err)


def limited(program, size):
    """A file that may not be longer than so many bytes, where the signal of that is ignored."""

    def before():
        signal.signal(signal.SIGXFSZ, signal.SIG_IGN)
        resource.setrlimit(resource.RLIMIT_FSIZE, (size, size))

    with tempfile.TemporaryFile() as file:
        got = finished(started(program, [PIPE, file, PIPE], before=before), WIDE)
        file.seek(0)
        return Ended(got.status, file.read(), got.err)


def taken_slowly(program):
    """A small pipe, of which a little is read at a time."""
    process = started(program, [PIPE, PIPE, PIPE])
    fcntl.fcntl(process.stdout.fileno(), getattr(fcntl, "F_SETPIPE_SZ", 1031), 4096)
    feed_apart(process, WIDE)
    out = b"".join(iter(lambda: os.read(process.stdout.fileno(), 777), b""))
    got = finished(process)
    return Ended(got.status, out + got.out, got.err)


def stopped(program):
    """A run that is stopped and goes on, while it reads and while it writes."""
    process = started(program, [PIPE, PIPE, PIPE])

    def stop():
        for number in signal.SIGSTOP, signal.SIGCONT:
            process.send_signal(number)
            time.sleep(0.05)

    for data in WIDE[:1000], WIDE[1000:]:
        with contextlib.suppress(BrokenPipeError):
            os.write(process.stdin.fileno(), data)
        stop()
    process.stdin.close()
    process.stdin = None
    time.sleep(0.5)
    stop()
    return finished(process)


def piece_cases(program):
    """Sinks that take a part, and those that take it all, slowly."""
    front = Ended(WRITE_FAULT, b"a front", b"")
    yield "a reader that goes after some bytes", front, fitted(left_early(program))
    yield "a full pipe that does not wait", front, fitted(not_taking(program))
    yield "a file that may have 100 bytes", front, fitted(limited(program, 100), 100)
    whole = Ended(DONE, WIDE_LISTING, b"")
    yield "a pipe that is read slowly", whole, taken_slowly(program)
    yield "a run that is stopped and goes on", whole, stopped(program)
    yield "all three ends are closed", FAILED_READ, finished(started(program, [CLOSED] * 3))
    yield "all three ends are closed, and wrong words", FAILED_WRITE, finished(started(program, [CLOSED] * 3, []))


def check_devices(arguments):
    """The subcommand `devices`."""
    tally = Tally("devices")
    for found in read_cases, write_cases, piece_cases:
        for name, wanted, got in found(arguments.program):
            tally.check(name, wanted, got)
    return tally.end()


# Stack


def within_stack(program, words, data, kilobytes):
    """How a run ends that has so much stack."""

    def before():
        resource.setrlimit(resource.RLIMIT_STACK, (kilobytes * 1024, resource.getrlimit(resource.RLIMIT_STACK)[1]))

    return ended(program, data, words, before=before)


def least_stack(program, words, data, wanted, most, step):
    """The least stack that a run takes, to `step` kilobytes. It is enough to have the most."""
    least = 64
    while most - least > step:
        middle = (least + most) // 2
        if within_stack(program, words, data, middle).status == wanted:
            most = middle
        else:
            least = middle
    return most


def around_constant():
    """What stands before and behind the only constant of a small code, in the spelling of code files."""
    return codefile.constant(dataclasses.replace(code_files.ONE, constants=("hole",)))[1:].split(codefile.constant("hole"))


def deep_file(depth, begins, ends):
    """A code file in which something nests so deep, the outermost code counting one, that begins and ends with these bytes."""
    before, behind = around_constant()
    return codefile.MAGIC + before + begins * (depth - 1) + codefile.constant(None) + ends * (depth - 1) + behind


# Scripts by which a run gets deep into a tree: each question is answered by a value, or every other one by yes.
DEEP_SCRIPTS = {"values": ["g1"] * 3000, "values and yes": ["g1", "t"] * 1500}


def deep_inputs(depth):
    """What nests deep: a title, the words, the input, and how the run ends."""
    done = Ended(DONE, None, b"")
    for deep in cases.deep_trees():
        data = cases.text_of(deep.rows(depth))
        compiled = done if deep.line is None else refused(deep.line)
        yield deep.title, WORDS, data, compiled
        yield deep.title + ", packed", PACK, data, compiled
        yield deep.title + ", reported", NAMES, data, compiled if deep.by_scopes else done
        for answers, script in DEEP_SCRIPTS.items() if deep.line is None else ():
            yield "%s, run over %s" % (deep.title, answers), ["step", *WORDS, ",".join(script)], data, done
    before, behind = around_constant()
    yield "tuples of a code file", UNPACK, deep_file(codefile.DEEPEST - 1, b"\x06" + codefile.number(1), b""), done
    yield "codes of a code file", UNPACK, deep_file(codefile.DEEPEST - 1, b"\x08" + before, behind), done


def check_stack(arguments):
    """The subcommand `stack`."""
    tally, greatest = Tally("stack"), (0, "none")
    for title, words, data, wanted in deep_inputs(arguments.depth):
        if arguments.kind not in (None, title):
            continue
        got = within_stack(arguments.program, words, data, arguments.limit)
        if not tally.check(title, wanted, got, data) or arguments.quick:
            continue
        least = least_stack(arguments.program, words, data, wanted.status, arguments.limit, arguments.step)
        greatest = max(greatest, (least, title))
        print("%6d KB  %s" % (least, title), flush=True)
    return tally.end("" if arguments.quick else "; the most is %d KB, for %s" % greatest)


# Allocations

# It stands before the allocator of the C library. Of the calls that come after it began, counted from 1, it refuses those
# from the first number to the last, and tells of each by a byte on a file.
REFUSER = r"""
#include <errno.h>
#include <stddef.h>
#include <stdlib.h>
#include <unistd.h>

extern void *__libc_malloc(size_t);
extern void *__libc_calloc(size_t, size_t);
extern void *__libc_realloc(void *, size_t);

static unsigned long calls, first, last;
static int told = -1;

static unsigned long number(const char *name) {
    const char *text = getenv(name);
    return text ? strtoul(text, 0, 10) : 0;
}

__attribute__((constructor)) static void begin(void) {
    first = number("REFUSE_FIRST");
    last = number("REFUSE_LAST");
    told = (int)number("REFUSE_TOLD");
    calls = 0;
}

static int is_refused(void) {
    calls++;
    if (told < 0 || calls < first || last < calls) {
        return 0;
    }
    if (write(told, "x", 1) != 1) {
        abort();
    }
    errno = ENOMEM;
    return 1;
}

void *malloc(size_t size) { return is_refused() ? NULL : __libc_malloc(size); }
void *calloc(size_t count, size_t size) { return is_refused() ? NULL : __libc_calloc(count, size); }
void *realloc(void *at, size_t size) { return is_refused() ? NULL : __libc_realloc(at, size); }
"""

# A module as people write them.
MODULE = '''\
import os.path as p
class Shape(Base):
    """A shape."""
    def __init__(self, n, *, unit='m'):
        super().__init__()
        self.n = n
    @staticmethod
    def make(n): return Shape(n)
def total(items):
    try:
        return sum(i.n for i in items if i)
    except (TypeError, ValueError) as e:
        print(f'bad {e!r}')
        raise
    finally:
        p.flush()
'''


def twice(data):
    """Rows of which the last names one of the others twice."""
    rows = json.loads(data)
    rows[-1][1].append(rows[-1][1][-1])
    return cases.text_of(rows)


# Answers to a run of the module, which asks for more.
ANSWERS = "g1,g1,g1,g1,g1,d,g1,g1,d,g1,g1,g1,d"


def runs_to_refuse(source):
    """Runs that end in each way."""
    data = rows_of_python.rows_text(source).encode("utf-8")
    late = rows_of_python.rows_text(source + b"break\n").encode("utf-8")
    yield "listing", WORDS, data, Ended(DONE, None, None)
    yield "code file", PACK, data, Ended(DONE, None, None)
    yield "listing of a code file", UNPACK, code_files.FILES["one"], Ended(DONE, None, None)
    yield "report on names", NAMES, data, Ended(DONE, None, None)
    yield "both runs", ["step", *WORDS, ANSWERS], data, Ended(DONE, None, None)
    yield "refused tree", WORDS, late, Ended(REFUSED, None, None)
    yield "wrong rows", WORDS, twice(data), Ended(INPUT, None, None)
    yield "wrong words", ["exec", "3", "m.py"], b"", Ended(USAGE, None, None)
    yield "sample", SAMPLE, b"", Ended(DONE, SUMMARY, b"")


class Refuser:
    """Runs a program whose allocations are refused, by a library that is made in a folder."""

    def __init__(self, program, folder):
        self.program, self.library = program, pathlib.Path(folder) / "refuser.so"
        source = pathlib.Path(folder) / "refuser.c"
        source.write_text(REFUSER)
        subprocess.run([os.environ.get("CC", "cc"), "-O1", "-shared", "-fPIC", "-o", str(self.library), str(source)], check=True)

    def run(self, words, data, first, last):
        """How a run ends whose allocations from the first to the last are refused, and how many were."""
        with tempfile.TemporaryFile() as told:
            numbers = {"REFUSE_FIRST": first, "REFUSE_LAST": last, "REFUSE_TOLD": told.fileno()}
            env = {"LD_PRELOAD": str(self.library), **{name: str(it) for name, it in numbers.items()}}
            words = [str(self.program), *words]
            process = subprocess.Popen(words, stdin=PIPE, stdout=PIPE, stderr=PIPE, env=env, pass_fds=[told.fileno()])
            got = finished(process, data)
            return got, os.fstat(told.fileno()).st_size


def refuse_in_turn(refuser, name, words, data, plain, arguments, tally):
    """Refuses each allocation of a run. How many were, and how often the run ended with 6."""
    count, without = 0, 0
    number = arguments.first
    while arguments.last is None or number <= arguments.last:
        got, refusals = refuser.run(words, data, number, 2**62 if arguments.after else number)
        if refusals == 0:
            tally.check("%s, with memory" % name, plain, got, data)
            break
        count += refusals
        wanted = Ended(MEMORY, b"", b"") if got.status == MEMORY else plain
        tally.check("%s, allocation %d" % (name, number), wanted, got, data)
        without += got.status == MEMORY
        number += 1
    return count, without


def refuse_each(arguments, title, runs):
    """Refuses each allocation of runs in turn: what they are, their words, their input, and how they end with memory."""
    tally, refusals, without = Tally(title), 0, 0
    with tempfile.TemporaryDirectory() as folder:
        refuser = Refuser(arguments.program, folder)
        for name, words, data, wanted in runs:
            plain = ended(arguments.program, data, words)
            tally.check(name, wanted, plain, data)
            counts = refuse_in_turn(refuser, name, words, data, plain, arguments, tally)
            print("%s: %d refused, %d runs ended with 6" % (name, *counts), flush=True)
            refusals, without = refusals + counts[0], without + counts[1]
    return tally.end("; %d allocations refused, %d runs ended with 6" % (refusals, without))


def source_of(arguments):
    """The module that is compiled."""
    return arguments.source.read_bytes() if arguments.source else MODULE.encode("utf-8")


def check_allocations(arguments):
    """The subcommand `allocations`."""
    if arguments.unproved:
        return check_unproved(arguments)
    return refuse_each(arguments, "allocations", runs_to_refuse(source_of(arguments)))


# The calls that are given the rows of a module.
CALLS_OF_ROWS = ["read_rows", "scan_program", "compile_top", "listing", "verify", "write_code", "run_script", "report", "report_lines", "report_text"]


def calls_to_refuse(program, source):
    """Calls of the library that do not refuse what they are given."""
    data = rows_of_python.rows_text(source).encode("utf-8")
    wanted = Ended(DONE, None, b"")
    for name in CALLS_OF_ROWS:
        yield name, [name], data, wanted
    yield "finalize_code", ["finalize_code"], b"", wanted
    yield "read_code", ["read_code"], ended(program, data, ["write_code"]).out, wanted


def check_calls(arguments):
    """The subcommand `calls`."""
    return refuse_each(arguments, "calls", calls_to_refuse(arguments.program, source_of(arguments)))


# The lines that `rt try` writes of itself.
OF_TRY = (b"allocations: ", b"interpreter: ", b"checked: ", b"run=", b"rt: ")


def check_unproved(arguments):
    """Refuses allocations of the run that is stored in the crate, by `rt try`, which builds it with checks each time."""
    tally, refusals = Tally("allocations"), 0
    words = (CRATE / "args").read_text().split()
    for number in range(arguments.first, (arguments.last or arguments.first) + 1):
        with (CRATE / "stdin").open("rb") as source:
            call = ["rt", "try", "--fail-alloc", str(number), "--", *words]
            said = subprocess.run(call, cwd=str(CRATE), stdin=source, stdout=PIPE, stderr=subprocess.STDOUT).stdout
        lines = said.splitlines(True)
        statuses = [int(it.split(b"=")[1].split()[0]) for it in lines if it.startswith(b"checked: ended status=")]
        written = b"".join(it for it in lines if not it.startswith(OF_TRY))
        got = Ended(statuses[0] if statuses else None, written, b"")
        wanted = Ended(MEMORY, b"", b"") if got.status == MEMORY else Ended(DONE, None, b"")
        tally.check("allocation %d" % number, wanted, got)
        refusals += got.status == MEMORY
    return tally.end("; %d runs ended with 6" % refusals)


def positive(text):
    """A whole number from 1 up."""
    if not text.isdecimal() or int(text) < 1:
        raise argparse.ArgumentTypeError("a whole number from 1 up is wanted, and this is %r" % text)
    return int(text)


def parser_of_words():
    """The parser of the words of a call."""
    parser = argparse.ArgumentParser(prog="hostile.py", description=__doc__.split("\n")[0])
    kinds = parser.add_subparsers(dest="subcommand", metavar="SUBCOMMAND", required=True)

    def add(name, function, about, program=CRATE / "out" / "pyc"):
        it = kinds.add_parser(name, help=about, description=about)
        it.add_argument("--program", type=pathlib.Path, default=program, help="the program (%(default)s)")
        it.set_defaults(function=function)
        return it

    def add_refusing(*given):
        it = add(*given)
        it.add_argument("--first", type=positive, default=1, metavar="N", help="the first allocation that is refused, counted from 1 (1)")
        it.add_argument("--last", type=positive, metavar="N", help="the last one (all that there are)")
        it.add_argument("--after", action="store_true", help="with each, refuse all that come after it, too")
        it.add_argument("--source", type=pathlib.Path, metavar="FILE.py", help="the module that is compiled (one of 16 lines)")
        return it

    memory = add_refusing("allocations", check_allocations, "refuse each allocation of a run in turn")
    memory.add_argument("--unproved", action="store_true", help="run the stored input by `rt try`, which builds with checks for each, from --first to --last")
    add_refusing("calls", check_calls, "refuse each allocation of each call of the library alone, in turn", SINGLE_CALLS / "out" / "alloc_calls")
    add("rows", check_rows, "inputs that are no rows, and trees that are refused")
    files = add("files", check_files, "code files that are made of others by chance, through `unpack`")
    files.add_argument("--count", type=positive, default=2000, metavar="N", help="how many (%(default)s)")
    files.add_argument("--seed", type=int, default=1, metavar="N", help="what they are drawn from (%(default)s)")
    files.add_argument("--source", type=pathlib.Path, metavar="FILE.py", help="the module whose code file is one of those that are changed (one of 16 lines)")
    add("devices", check_devices, "sources and sinks that fail, or are slow")
    stack = add("stack", check_stack, "the deepest trees, and the least stack that each takes")
    stack.add_argument("--depth", type=positive, default=cases.DEEPEST, metavar="N", help="how deep they nest, as 1022 or 1023; rows has them at 1024 (%(default)s)")
    stack.add_argument("--limit", type=positive, default=8192, metavar="KB", help="the usual stack, in kilobytes (%(default)s)")
    stack.add_argument("--step", type=positive, default=32, metavar="KB", help="how exact the least stack is, in kilobytes (%(default)s)")
    stack.add_argument("--kind", metavar="TITLE", help="only the tree of this title")
    stack.add_argument("--quick", action="store_true", help="only see that each ends as is wanted, with the usual stack")
    add("words", check_words, "words that are not a mode, a level and a path")
    return parser


def main():
    arguments = parser_of_words().parse_args()
    sys.stdout.reconfigure(encoding="utf-8", errors="backslashreplace")
    if getattr(arguments, "unproved", False):
        if shutil.which("rt") is None:
            sys.exit("hostile.py: there is no rt on the path")
    elif not os.access(str(arguments.program), os.X_OK):
        sys.exit("hostile.py: there is no program %s: sh pyc.sh --prove builds pyc, and rt ci both" % arguments.program)
    arguments.program = arguments.program.resolve()
    return arguments.function(arguments)


if __name__ == "__main__":
    sys.exit(main())
