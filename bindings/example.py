#!/usr/bin/env python3
"""Shows each call of the library for C: compiles a Python file, reports on its names, or looks at a file of code.

usage: example.py LIBRARY FILE.py [CODE]
       example.py LIBRARY --names FILE.py
       example.py LIBRARY --unpack CODE
       example.py LIBRARY --verify CODE
       example.py LIBRARY --trace CODE [SCRIPT [PLACE..]]

LIBRARY is libpyc.so, which tools/static_library.py --to FOLDER makes. The first writes the listing of the code, or with CODE
the file that holds it there; --names the report on the names; --unpack the listing of the code that a file holds; --verify
says what is wrong with that code, and nothing where it verifies; --trace writes the lines of a run over a script, of the
code at these places among constants. The status is that of the program (README.md), and of --verify 1 for a flaw.
"""
import collections
import ctypes
import pathlib
import sys

sys.path.insert(0, str(pathlib.Path(__file__).resolve().parent.parent / "python"))
from pyc import rows as rows_of_python

LISTING, FILE = 0, 1
MODES = {"exec": 0, "eval": 1, "single": 2, "block": 3}
DONE, REFUSED, ARGUMENT = 0, 1, 7


# The enum pyc_flaw_kind of pyc.h.
KINDS = ["NoFlaw", "TooDeep", "TooManyUnits", "PlaceOutside", "OperandOutside", "HeightOutside", "UnevenHeights", "BlockMismatch"]

# A verdict: the status, the kind of the flaw with its unit and its path, and where bytes are no file.
Verdict = collections.namedtuple("Verdict", "status kind unit path offset")


class Flaw(ctypes.Structure):
    """The struct pyc_flaw of pyc.h."""

    _fields_ = [
        ("kind", ctypes.c_uint32), ("unit", ctypes.c_uint32), ("path", ctypes.POINTER(ctypes.c_uint32)),
        ("path_length", ctypes.c_size_t), ("offset", ctypes.c_uint64),
    ]


class Compiler:
    """The library at a path."""

    def __init__(self, path):
        library = ctypes.CDLL(str(pathlib.Path(path).resolve()))
        word, slice_of = ctypes.c_uint32, [ctypes.c_char_p, ctypes.c_size_t]
        text_of = [ctypes.POINTER(ctypes.c_void_p), ctypes.POINTER(ctypes.c_size_t)]
        self.call = self._typed(library.pyc_compile, word, [word, word, word, *slice_of, *slice_of, *text_of])
        self.unpack = self._typed(library.pyc_unpack, word, [*slice_of, *text_of])
        self.names = self._typed(library.pyc_names, word, [*slice_of, *slice_of, *text_of])
        places = [ctypes.POINTER(ctypes.c_uint32), ctypes.c_size_t]
        self.trace = self._typed(library.pyc_trace, word, [*slice_of, *places, *slice_of, *text_of])
        self.verify = self._typed(library.pyc_verify, word, [*slice_of, ctypes.POINTER(Flaw)])
        self.flaw_text = self._typed(library.pyc_flaw_text, ctypes.c_char_p, [word])
        self.free = self._typed(library.pyc_free, None, [ctypes.c_void_p])

    @staticmethod
    def _typed(call, result, arguments):
        call.restype, call.argtypes = result, arguments
        return call

    def compile_rows(self, rows, path="m.py", mode="exec", level=0, output=LISTING):
        """The status and the bytes: the listing or the file of the code, or the line that says why there is none."""
        named = path.encode("utf-8")
        return self.text_of(self.call, output, MODES[mode], level, named, len(named), rows, len(rows))

    def unpack_file(self, code):
        """The status and the bytes: the listing of the code that a file holds, or the line that says why there is none."""
        return self.text_of(self.unpack, code, len(code))

    def names_of_rows(self, rows, path="m.py"):
        """The status and the bytes: the report on the names of a tree, or the line that says why there is none."""
        named = path.encode("utf-8")
        return self.text_of(self.names, named, len(named), rows, len(rows))

    def trace_file(self, code, script="", places=()):
        """The status and the bytes: the lines of a run over a script, of the code of a file at these places among constants,
        or the line that says why there are none."""
        answers = script.encode("utf-8")
        numbers = (ctypes.c_uint32 * len(places))(*places)
        return self.text_of(self.trace, answers, len(answers), numbers, len(places), code, len(code))

    def verify_file(self, code):
        """Whether the code that a file holds verifies: status 0, or the flaw by status 1, or 3 where it is no file."""
        flaw = Flaw()
        status = self._done(self.verify(code, len(code), ctypes.byref(flaw)))
        try:
            return Verdict(status, KINDS[flaw.kind], flaw.unit, flaw.path[:flaw.path_length] if flaw.path else [], flaw.offset)
        finally:
            self.free(flaw.path)

    def text_of(self, call, *arguments):
        """The status and the bytes that a call gives which takes memory for a text."""
        text, count = ctypes.c_void_p(), ctypes.c_size_t()
        status = self._done(call(*arguments, ctypes.byref(text), ctypes.byref(count)))
        try:
            return status, ctypes.string_at(text, count.value) if text else b""
        finally:
            self.free(text)

    @staticmethod
    def _done(status):
        if status == ARGUMENT:
            raise ValueError("the library refuses an argument")
        return status


def written(source, status, text):
    """Writes what a call gave, and gives its status."""
    if status != DONE:
        print("%s: %s" % (source, text.decode("utf-8").rstrip("\n")), file=sys.stderr)
    else:
        sys.stdout.buffer.write(text)
    return status


def verified(compiler, source, code):
    """Writes what is wrong with a file of code, and gives the status."""
    verdict = compiler.verify_file(code)
    if verdict.status == REFUSED:
        place = " ".join(map(str, ["code", *verdict.path]))
        text = compiler.flaw_text(KINDS.index(verdict.kind)).decode("utf-8")
        print("%s: %s: unit %d: %s" % (source, place, verdict.unit, text), file=sys.stderr)
    elif verdict.status != DONE:
        print("%s: no file of code: bad at byte %d" % (source, verdict.offset), file=sys.stderr)
    return verdict.status


def done(compiler, option, source, data, others):
    """Does with the bytes of a file what an option asks for, and gives the status."""
    if option == "--verify":
        return verified(compiler, source, data)
    if option == "--trace":
        return written(source, *compiler.trace_file(data, *others[:1], places=list(map(int, others[1:]))))
    if option == "--unpack":
        return written(source, *compiler.unpack_file(data))
    rows = rows_of_python.rows_text(data).encode("utf-8")
    if option == "--names":
        return written(source, *compiler.names_of_rows(rows, source))
    status, text = compiler.compile_rows(rows, source, output=FILE if others else LISTING)
    if status == DONE and others:
        pathlib.Path(others[0]).write_bytes(text)
        return status
    return written(source, status, text)


# How many words each option takes behind the file; no option is that of the first form.
OPTIONS = {None: 1, "--names": 0, "--unpack": 0, "--verify": 0, "--trace": sys.maxsize}


def main():
    words = sys.argv[1:]
    option = words.pop(1) if len(words) > 2 and words[1] in OPTIONS else None
    if "--help" in words or not 2 <= len(words) <= 2 + OPTIONS[option]:
        print(__doc__.strip(), file=sys.stdout if "--help" in words else sys.stderr)
        return 0 if "--help" in words else 2
    library, source = words[:2]
    try:
        compiler = Compiler(library)
    except OSError as error:
        print(error, file=sys.stderr)
        return 127
    try:
        return done(compiler, option, source, pathlib.Path(source).read_bytes(), words[2:])
    except OSError as error:
        print("%s: %s" % (source, error.strerror), file=sys.stderr)
        return 4
    except rows_of_python.Fault as fault:
        print(fault.line(source), file=sys.stderr)
        return REFUSED


if __name__ == "__main__":
    sys.exit(main())
