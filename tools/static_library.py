#!/usr/bin/env python3
"""Builds the library for C and its examples, and tries them.

usage: static_library.py [--after-ci] [--to FOLDER] [--timeout SECONDS]

libpyc_c.a is built from crates/pyc_c, once that and all below it is proved. With it and bindings/pyc.c the C compiler (`cc`)
makes libpyc.so and the program `example`; --to puts these into a folder, with pyc.h and pyc.pc for pkg-config. By both, the
rows in examples/ have to give the listings that stand there, and files of code that `pyc.codefile` reads, and, where
crates/pyc/out/pyc is built, those that it packs. What is refused is tried too, and arguments that the library refuses, by
bindings/test_pyc.c also. tools/library_calls.py has what is wanted of files of code, of their runs and of reports on names.

What is not proved yet is proved first, which may take an hour. With --after-ci nothing is but crates/pyc_c: it stands on what
`rt ci`, called just before, has left in crates/*/out.

The status is 1 where something differs or is not built. With --after-ci it is 0 where there is no `cc`, no `rt`, or no library
that `rt ci` left; one line says so, and nothing is built.
"""
import argparse
import ast
import ctypes
import dataclasses
import pathlib
import shutil
import subprocess
import sys
import tempfile

ROOT = pathlib.Path(__file__).resolve().parent.parent
CRATE = ROOT / "crates" / "pyc_c"
BINDINGS = ROOT / "bindings"
PROGRAM = ROOT / "crates" / "pyc" / "out" / "pyc"

# Rows, and the status and the text that they come to.
REFUSED = [
    (b'[["Break",1,1],["Module",[0]]]', 1, b"1:1 'break' outside loop\n"),
    (b"[]", 3, b"input: not rows\n"),
    (b'[["Pass",1,1],["Module",[0,0]]]', 3, b"input: row 1: named twice\n"),
]

DONE, ARGUMENT = 0, 7

sys.path.insert(0, str(BINDINGS))
sys.dont_write_bytecode = True
sys.path.insert(0, str(ROOT / "python"))
import build
import example
import library_calls
from pyc import codefile

# The number of the shared library's interface: a program that was linked with another number does not start with it.
INTERFACE = 0
SONAME = "libpyc.so.%d" % INTERFACE


class Failed(Exception):
    """What could not be built."""


def run(words, folder, seconds=None):
    """Runs a command, which is to end with 0; what it writes is told where it does not."""
    pipes = {"stdin": subprocess.DEVNULL, "stdout": subprocess.PIPE, "stderr": subprocess.STDOUT}
    try:
        ended = subprocess.run(list(map(str, words)), cwd=folder, timeout=seconds, **pipes)
    except subprocess.TimeoutExpired:
        raise Failed("%s took more than %d seconds" % (words[0], seconds)) from None
    if ended.returncode:
        text = ended.stdout.decode("utf-8", "replace")
        raise Failed("%s ended with %d:\n%s" % (" ".join(map(str, words)), ended.returncode, text))


def crates():
    """The crates of crates.txt, and what each uses."""
    return build.read_crates((ROOT / "crates.txt").read_text(encoding="utf-8"))


def library_of(name):
    """Where the proved library of a crate lies."""
    return ROOT / "crates" / name / "out" / "rlib" / (name + ".rlib")


def lower_crates():
    """The crates below the library for C, lower ones first."""
    return build.below(CRATE.name, crates())[:-1]


def proved_first(kit, folder, seconds):
    """libpyc_c.a, once all below it is proved."""
    if subprocess.run([sys.executable, "-B", str(ROOT / "tools" / "build.py"), CRATE.name]).returncode:
        raise Failed("not all crates below %s are proved" % CRATE.name)
    run([kit / "bin" / "rt", "lib"], CRATE, seconds)
    return shutil.copy(CRATE / "out" / "libpyc_c.a", folder)


def after_ci(kit, folder, seconds):
    """libpyc_c.a, over the libraries that `rt ci` left: `rt lib` would prove them all once more."""
    made = folder / "libpyc_c.a"
    words = [kit / "bin" / "rattle", "build", "--crate-name", CRATE.name, "src/lib.rt", "--crate-type", "staticlib", "--links", CRATE.name + "="]
    words += ["--extern", "std=%s" % (kit / "rlibs" / "std.rlib"), "-L", "dependency=%s" % (kit / "rlibs")]
    for name in crates()[CRATE.name]:
        words += ["--extern", "%s=%s" % (name, library_of(name))]
    for name in lower_crates():
        words += ["-L", "dependency=%s" % library_of(name).parent]
    words += ["--antt-project", kit / "rattle" / "logic" / "antt-project.json", "--logic-built", kit / "logic_built"]
    words += ["--jobs", "2", "--toolchain", kit / "toolchain", "--backend", "llvm", "-o", made]
    run(words, CRATE, seconds)
    return made


def linked(archive, kit, folder):
    """The shared library, the example and the tests in C, in a folder."""
    plain = ["cc", "-std=c99", "-O2", "-Wall", "-Wextra", "-I", BINDINGS, BINDINGS / "pyc.c"]
    ends = [archive, kit / "c" / "liblibc_c.a"]
    shared, programs = folder / SONAME, [folder / "example", folder / "test_pyc"]
    run([*plain, "-shared", "-fPIC", "-Wl,-soname," + SONAME, "-o", shared, *ends], folder)
    for program in programs:
        run([*plain, BINDINGS / (program.name + ".c"), "-o", program, *ends], folder)
    return (shared, *programs)


def is_file(data):
    """Whether these bytes are a file of code."""
    try:
        return codefile.write(codefile.read(data)) == data
    except codefile.BadCode:
        return False


def examples():
    """The path, the rows and the listing of each example."""
    for rows in sorted((ROOT / "examples").glob("*.json")):
        listing = rows.with_suffix(".txt")
        if listing.exists():
            yield rows.stem + ".py", rows.read_bytes(), listing.read_bytes()


def by_library(shared):
    """What the library gives otherwise than is wanted."""
    compiler = example.Compiler(shared)
    for path, rows, listing in examples():
        if compiler.compile_rows(rows, path) != (DONE, listing):
            yield "%s: another listing, by the library" % path
        status, code = compiler.compile_rows(rows, path, output=example.FILE)
        if status != DONE or not is_file(code):
            yield "%s: no file of code, by the library" % path
        if PROGRAM.exists() and code != subprocess.run([str(PROGRAM), "pack", "exec", "0", path], input=rows, stdout=subprocess.PIPE).stdout:
            yield "%s: another file than the program packs, by the library" % path
    for rows, *wanted in REFUSED:
        for output in (example.LISTING, example.FILE):
            got = compiler.compile_rows(rows, output=output)
            if got != tuple(wanted):
                yield "%r, by the library: %d %r" % (rows, *got)
    yield from library_calls.wrong(shared, examples())
    yield from by_arguments(shared)


def by_arguments(shared):
    """What a call into the caller's memory answers otherwise than is wanted, and whether it writes where it does not."""
    library = ctypes.CDLL(str(shared))
    call, word, count_of = library.pyc_compile_into, ctypes.c_uint32, ctypes.POINTER(ctypes.c_size_t)
    call.restype = word
    call.argtypes = [*[word] * 3, *[ctypes.c_void_p, ctypes.c_size_t] * 3, count_of]
    rows, named, no_text = b'[["Pass",1,1],["Module",[0]]]', b"m.py", b"\xff"
    text, count = ctypes.create_string_buffer(b"x" * 1024), ctypes.c_size_t(3)
    there, at, huge = ctypes.byref(count), ctypes.addressof(text), ctypes.c_size_t(-1).value
    within, askew = ctypes.cast(at, count_of), ctypes.cast(at + 1, count_of)
    plain = (0, 0, 0, named, 4, rows, len(rows), at, 1024, there)
    needed = len(example.Compiler(shared).compile_rows(rows)[1])
    cases = [("a null count", ARGUMENT, {9: None}), ("null rows", ARGUMENT, {5: None}), ("a null path", ARGUMENT, {3: None})]
    cases += [("a null text", ARGUMENT, {7: None}), ("a length that is too large", ARGUMENT, {6: huge}), ("rows in the text", ARGUMENT, {5: at, 6: 100})]
    cases += [("a path in the text", ARGUMENT, {3: at + 1000}), ("a count in the text", ARGUMENT, {9: within}), ("a count askew", ARGUMENT, {7: None, 8: 0, 9: askew})]
    cases += [("no such output", 2, {0: 2}), ("names as an output", 2, {0: 3}), ("no such mode", 2, {1: 4}), ("no such level", 2, {2: 3}), ("a path that is not UTF-8", 2, {3: no_text, 4: 1})]
    cases += [("no room", 5, {8: needed - 1}), ("no room, at null", 5, {7: None, 8: 0}), ("no rows, at null", 3, {5: None, 6: 0}), ("room to the last byte", DONE, {8: needed})]
    for name, wanted, others in cases:
        ctypes.memset(at, ord("x"), 1024)
        got = call(*(others.get(place, it) for place, it in enumerate(plain)))
        if got != wanted:
            yield "%s: %d, and not %d" % (name, got, wanted)
        kept = 0 if got in (ARGUMENT, 5) else count.value
        if text.raw[kept:1024] != b"x" * (1024 - kept):
            yield "%s: written behind the text" % name


def ended(words, folder):
    """How a command ended: its status, and what it wrote on each stream."""
    it = subprocess.run(list(map(str, words)), cwd=folder, stdout=subprocess.PIPE, stderr=subprocess.PIPE)
    return it.returncode, it.stdout, it.stderr


def by_program(program, folder):
    """What the example in C gives otherwise than is wanted."""
    wanted = [(path, rows, DONE, listing) for path, rows, listing in examples()]
    for path, rows, status, text in [*wanted, *(("m.py", *case) for case in REFUSED)]:
        (folder / "rows").write_bytes(rows)
        got = ended([program, "rows", path], folder)
        if got != ((status, b"", text) if status else (status, text, b"")):
            yield "%s, by the example in C: %r" % (path, got)


def code_cases(folder):
    """Writes the file of an example, of a code with a flaw, and one that is cut short. Words of an example, and what is wanted."""
    path, rows, listing = next(iter(examples()))
    (folder / "rows").write_bytes(rows)
    wrong = dataclasses.replace(library_calls.SOUND, instructions=(("ReturnConst", 1),))
    flawed = library_calls.around(wrong, 2).to_bytes()
    (folder / "flawed").write_bytes(flawed)
    (folder / "cut").write_bytes(flawed[:-1])
    at = len(flawed) - 1
    flaw = b"code 2: unit 0: the operand is outside its range\n"
    return [
        ("u", "code", (DONE, listing, b"")), ("v", "code", (DONE, b"", b"")),
        ("u", "flawed", (3, b"", b"input: code does not verify\n")), ("v", "flawed", (1, b"", flaw)),
        ("v", "cut", (3, b"", b"no file of code: bad at byte %d\n" % at)),
        ("n", "rows", (DONE, library_calls.report_on(rows), b"")), ("t", "flawed", (DONE, b"returned 1\n", b"")),
        ("t", "cut", (3, b"", b"input: bad code file at %d\n" % at)),
    ], path


def by_codes(program, shared, folder):
    """What both examples give otherwise over files of code and names, of which the one in C packs the first."""
    cases, path = code_cases(folder)
    (folder / "code").write_bytes(ended([program, "-c", "rows", path], folder)[1])
    words = {"u": "--unpack", "v": "--verify", "t": "--trace"}
    for choice, name, wanted in cases:
        got = ended([program, "-" + choice, name], folder)
        if got != wanted:
            yield "example -%s %s: %r, and not %r" % (choice, name, got, wanted)
        if choice not in words:
            continue
        got = ended([sys.executable, "-B", BINDINGS / "example.py", shared, words[choice], name], folder)
        lines = wanted[2] and ("%s: " % name).encode() + wanted[2]
        if got != (wanted[0], wanted[1], lines):
            yield "example.py %s %s: %r" % (words[choice], name, got)


def by_tests(tests, folder):
    """What the tests in C find, over the files that by_codes left."""
    status, _, lines = ended([tests, "code", "rows"], folder)
    if status:
        yield "test_pyc ended with %d\n%s" % (status, lines.decode("utf-8", "replace"))


def is_read(path):
    """Whether this Python reads the source of an example, which may be of a newer one."""
    try:
        ast.parse((ROOT / "examples" / path).read_bytes())
    except SyntaxError:
        return False
    return True


def by_script(shared, folder):
    """What the example in Python gives otherwise than is wanted, of the sources that this Python reads."""
    for path, _, listing in filter(lambda it: is_read(it[0]), examples()):
        words = [sys.executable, "-B", BINDINGS / "example.py", shared, path]
        ended = subprocess.run(list(map(str, words)), cwd=ROOT / "examples", stdout=subprocess.PIPE)
        if (ended.returncode, ended.stdout) != (DONE, listing):
            yield "%s, by the example in Python: %d" % (path, ended.returncode)


def missing(is_after_ci):
    """What is not there that has to be, or None."""
    for name in ("rt", "cc"):
        if shutil.which(name) is None:
            return "there is no %s" % name
    if is_after_ci:
        lower = next((name for name in lower_crates() if not (library_of(name) / "format").exists()), None)
        return lower and "rt ci has left no library of %s" % lower
    return None


def handed_over(folder, files):
    """Puts what was built into a folder, with what a compiler wants of it."""
    folder.mkdir(parents=True, exist_ok=True)
    for file in files:
        shutil.copy(file, folder)
    link = folder / "libpyc.so"
    if link.is_symlink() or link.exists():
        link.unlink()
    link.symlink_to(SONAME)
    shutil.copy(BINDINGS / "pyc.h", folder)
    text = (BINDINGS / "pyc.pc.in").read_text(encoding="utf-8")
    text = text.replace("@PREFIX@", str(folder.resolve())).replace("@VERSION@", "%d" % INTERFACE)
    (folder / "pyc.pc").write_text(text, encoding="utf-8")


def tried(words, folder):
    """Builds all of it in a folder, and tries it. What differs."""
    kit = pathlib.Path(shutil.which("rt")).resolve().parent.parent
    archive = (after_ci if words.after_ci else proved_first)(kit, folder, words.timeout)
    shared, program, tests = linked(archive, kit, folder)
    wrong = [*by_library(shared), *by_program(program, folder), *by_script(shared, folder)]
    wrong += [*by_codes(program, shared, folder), *by_tests(tests, folder)]
    if words.to is not None:
        handed_over(words.to, (archive, shared, program))
    return wrong


def main():
    parser = argparse.ArgumentParser(prog="static_library.py", description=__doc__.split("\n")[0])
    parser.add_argument("--after-ci", action="store_true", help="build over what rt ci has just left, and prove nothing else")
    parser.add_argument("--to", metavar="FOLDER", type=pathlib.Path, help="put libpyc.so, libpyc_c.a, pyc.h, pyc.pc and the example in C into this folder")
    parser.add_argument("--timeout", metavar="SECONDS", type=int, default=1800, help="how long the proof of crates/pyc_c may take (1800)")
    words = parser.parse_args()
    why = missing(words.after_ci)
    if why:
        print("static_library.py: %s, so the library for C is left out" % why)
        return 0 if words.after_ci else 1
    with tempfile.TemporaryDirectory() as name:
        try:
            wrong = tried(words, pathlib.Path(name).resolve())
        except Failed as failed:
            wrong = [str(failed)]
    for line in wrong:
        print("static_library.py: %s" % line, file=sys.stderr)
    return 1 if wrong else 0


if __name__ == "__main__":
    sys.exit(main())
