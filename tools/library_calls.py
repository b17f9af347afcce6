"""What the calls of the library for C have to answer over files of code and the names of rows.

`static_library.py` tries them. What is wanted comes from the examples, from the model in tools/model, from the reader of
files in `pyc.codefile`, from the verdicts on codes in crates/code_vectors, and from the runs of the suite in conformance/.
"""
import ctypes
import dataclasses
import pathlib
import re
import sys

TOOLS = pathlib.Path(__file__).resolve().parent
VECTORS = TOOLS.parent / "crates" / "code_vectors"

sys.path[:0] = [str(TOOLS), str(TOOLS.parent / "bindings"), str(TOOLS / "model"), str(TOOLS.parent / "python")]
import code_files
import conform
import example
import names
import rows_reader
from pyc import codefile
from pyc.opcodes import NAMES

DONE, REFUSED, USAGE, INPUT, NO_ROOM = 0, 1, 2, 3, 5
# a question about the verdict on a file, with the flaws of which one is told where there are more, and a verdict
ASKED = re.compile(r"(?:verify|flaw-among (?P<flaws>\S+)) (?P<file>[0-9a-f]+)")
VERDICT = re.compile(r"Yes|No\(.*\)|one of them")
FLAW = re.compile(r"No\(Flaw \{ path: \[\], unit: (?P<unit>\d+), kind: (?P<kind>\w+) \}\)")
SOUND = code_files.ONE
FILES_END = 2 ** 26
# the rows of `a`
ROWS = b'[["Name",1,1,"a"],["Expr",1,1,0],["Module",[1]]]'


def around(code, *places):
    """A sound code, with another among its constants, at a place in each of the codes within one another."""
    for place in reversed(places):
        code = dataclasses.replace(SOUND, constants=(1, *(0,) * (place - 1), code) if place else (code,))
    return code


def report_on(rows):
    """The report on the names of rows, as the model makes it."""
    return "".join(line + "\n" for line in names.report(rows_reader.read_rows(rows))).encode("utf-8")


def flaws_of(asked, verdict):
    """The flaws that a verdict says, or of which it is one, each a kind and a unit; None where it is of a nested code."""
    if asked:
        return {(kind, int(unit)) for kind, unit in (flaw.split(":") for flaw in asked.split(","))}
    if verdict == "Yes":
        return set()
    flaw = FLAW.fullmatch(verdict)
    return {(flaw["kind"], int(flaw["unit"]))} if flaw else None


def table():
    """Each code on which there is a verdict, and its flaws, none where it may be run; but not those that nest."""
    asked, said = ((VECTORS / name).read_text(encoding="utf-8").splitlines() for name in ("stdin", "stdout"))
    questions = [line for line in asked if line.startswith(("verify ", "flaw-among "))]
    verdicts = [line for line in said if VERDICT.fullmatch(line)]
    assert len(questions) == len(verdicts)
    for line, verdict in zip(questions, verdicts):
        found = ASKED.fullmatch(line)
        flaws = flaws_of(found["flaws"], verdict) if found else None
        if flaws is not None:
            yield codefile.read(bytes.fromhex(found["file"])), flaws


def changed(data):
    """Files that differ from one in a byte, or end early or late, and where the first bad field begins."""
    for name, file in (("another first byte", b"Q" + data[1:]), ("cut short", data[:-1]), ("a byte more", data + b"\0"), ("no bytes", b"")):
        yield name, file, int(code_files.answer(file).split(" ")[1])
    name, byte = SOUND.instructions[0]
    at = data.index(bytes([NAMES.index(name), byte]), len(codefile.MAGIC))
    file = data[:at] + bytes([len(NAMES)]) + data[at + 1:]
    yield "no such instruction", file, int(code_files.answer(file).split(" ")[1])


def by_files(compiler):
    """What is answered otherwise to files that are none."""
    for name, file, at in changed(SOUND.to_bytes()):
        wanted = (INPUT, b"input: bad code file at %d\n" % at)
        got = compiler.unpack_file(file)
        if got != wanted:
            yield "unpack of a file, %s: %d %r" % (name, *got)
        verdict = compiler.verify_file(file)
        if verdict != (INPUT, "NoFlaw", 0, [], at):
            yield "verdict on a file, %s: %r" % (name, verdict)


def by_flaws(compiler):
    """What is answered otherwise to codes of the table, by themselves and within others."""
    places = [(), (2,), (0, 3), (0,) * 100]
    for number, (code, flaws) in enumerate(table()):
        path = places[number % len(places)]
        file = around(code, *path).to_bytes()
        verdict = compiler.verify_file(file)
        known = (verdict.kind, verdict.unit) in flaws if flaws else verdict[1:3] == ("NoFlaw", 0)
        if not known or verdict.status != (REFUSED if flaws else DONE) or verdict.path != (list(path) if flaws else []) or verdict.offset:
            yield "verdict on code %d of the table: %r, and not one of %r" % (number, verdict, flaws)
        status, text = compiler.unpack_file(file)
        if (status == DONE) == bool(flaws) or flaws and (status, text) != (INPUT, b"input: code does not verify\n"):
            yield "unpack of code %d of the table: %d %r" % (number, status, text)


def by_examples(compiler, examples):
    """What is answered otherwise to the rows and codes of examples, each a path, rows and a listing."""
    for path, rows, listing in examples:
        code = compiler.compile_rows(rows, path, output=example.FILE)[1]
        if compiler.unpack_file(code) != (DONE, listing):
            yield "%s: another listing of its file, by the library" % path
        if compiler.verify_file(code) != (DONE, "NoFlaw", 0, [], 0):
            yield "%s: may not be run, by the library" % path
        if compiler.names_of_rows(rows, path) != (DONE, report_on(rows)):
            yield "%s: another report on its names, by the library" % path


def by_runs(compiler):
    """What is told otherwise of the runs of the suite for machines."""
    for path in sorted(conform.FOLDER.glob("cases/*.txt")):
        for case in conform.cases_of(path):
            places = [int(it) for it in conform.places_of(case.code)]
            wanted = (DONE, "".join(line + "\n" for line in case.lines).encode("utf-8"))
            got = compiler.trace_file(bytes.fromhex(case.code.digits), case.script, places)
            if got != wanted:
                yield "trace of %s:%d: %d %r" % (case.file, case.row, *got)


def into(shared, name, *slices, room):
    """The status, the count and the text of a call into so much room."""
    call, size = getattr(ctypes.CDLL(str(shared)), name), ctypes.c_size_t
    words, types = [], []
    for data in slices:
        words += [data, len(data)]
        types += [ctypes.c_char_p, size]
    call.restype, call.argtypes = ctypes.c_uint32, [*types, ctypes.c_void_p, size, ctypes.POINTER(size)]
    text, count = ctypes.create_string_buffer(b"x" * room), size(7)
    status = call(*words, ctypes.addressof(text), room, ctypes.byref(count))
    return status, count.value, text.raw[:room]


def by_rooms(shared, compiler):
    """What is answered otherwise by the calls into the caller's memory."""
    file = SOUND.to_bytes()
    listing, report = compiler.unpack_file(file)[1], report_on(ROWS)
    size = len(listing)
    usage = (USAGE, b"usage: pyc MODE LEVEL PATH\n")
    long = b"input: too long\n"
    cases = [
        ("unpack with its room", into(shared, "pyc_unpack_into", file, room=size), (DONE, size, listing)),
        ("unpack without room", into(shared, "pyc_unpack_into", file, room=size - 1), (NO_ROOM, 0, b"x" * (size - 1))),
        ("unpack of a file that is too long", into(shared, "pyc_unpack_into", bytes(FILES_END), room=len(long)), (INPUT, len(long), long)),
        ("names with more than its room", into(shared, "pyc_names_into", b"m.py", ROWS, room=len(report) + 2), (DONE, len(report), report + b"xx")),
        ("names without rows", into(shared, "pyc_names_into", b"m.py", b"[]", room=16), (INPUT, 16, b"input: not rows\n")),
        ("names without room", into(shared, "pyc_names_into", b"m.py", b"[]", room=15), (NO_ROOM, 0, b"x" * 15)),
        ("names at a path that is not UTF-8", compiler.text_of(compiler.names, b"\xff", 1, ROWS, len(ROWS)), usage),
        ("trace of a file that is too long", compiler.trace_file(bytes(FILES_END)), (INPUT, long)),
        ("trace of bytes that are no file", compiler.trace_file(file[:-1]), (INPUT, b"input: bad code file at %d\n" % (len(file) - 1))),
        ("trace at a place where no code is", compiler.trace_file(file, "g1", [0]), (INPUT, b"input: no code at this path\n")),
        ("trace over no script", compiler.trace_file(file, "g0"), (USAGE, b"")),
        ("a verdict on 2^26 bytes", tuple(compiler.verify_file(bytes(FILES_END))), (INPUT, "NoFlaw", 0, [], 0)),
    ]
    for name, got, wanted in cases:
        if got != wanted:
            yield "%s: %r, and not %r" % (name, got, wanted)


def wrong(shared, examples):
    """What the library at a path answers otherwise than is wanted."""
    compiler = example.Compiler(shared)
    yield from by_examples(compiler, examples)
    yield from by_files(compiler)
    yield from by_flaws(compiler)
    yield from by_runs(compiler)
    yield from by_rooms(shared, compiler)
