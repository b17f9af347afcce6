#!/usr/bin/env python3
"""Tests of `pyc run` and of its machine: programs beside Python itself, words, refusals, files of code, and codes that are
kept. They go by the program where it is built, else by the model. Python 3.11 or later."""
from __future__ import annotations

import contextlib
import os
import pathlib
import re
import signal
import subprocess
import sys
import tempfile
import textwrap
import unittest

HERE = pathlib.Path(__file__).resolve().parent
ROOT = HERE.parent.parent
PYC = HERE.parent / "pyc" / "__main__.py"
PROGRAM = ROOT / "crates" / "pyc" / "out" / "pyc"
PROGRAMS = sorted((HERE / "machine" / "programs").glob("*.py"))
BENCHES = sorted((HERE / "machine" / "benches").glob("*.py"))
BY = [] if PROGRAM.exists() else ["--model"]

# This one has type parameters.
NEWER = {"params.py"}

# A line of marks below a line of a source in a traceback. The machine knows no ends of places, and has none.
MARKS = re.compile(r"^[ ~^]+\n", re.M)


def ended(words, folder=None, data=b"", **environment):
    """The status, the output and the errors of a call of Python."""
    environment = {**os.environ, "PYTHONDONTWRITEBYTECODE": "1", **environment}
    it = subprocess.run([sys.executable, *map(str, words)], input=data, capture_output=True, cwd=folder, env=environment)
    return it.returncode, it.stdout.decode("utf-8"), it.stderr.decode("utf-8")


class Case(unittest.TestCase):
    def setUp(self):
        folder = tempfile.TemporaryDirectory()
        self.addCleanup(folder.cleanup)
        self.folder = pathlib.Path(folder.name).resolve()

    def write(self, name, text):
        """A file with this text."""
        path = self.folder / name
        path.parent.mkdir(exist_ok=True)
        path.write_text(text, encoding="utf-8")
        return path

    def run_pyc(self, *words, data=b"", **environment):
        """How `pyc run` ends."""
        environment = {"XDG_CACHE_HOME": str(self.folder / "cache"), **environment}
        return ended([PYC, "run", *BY, *words], self.folder, data, **environment)

    def check_same(self, *words, options=(), data=b""):
        """A program ends, writes and tells as it does by Python, but for marks in a traceback."""
        wanted = ended(words, self.folder, data)
        found = self.run_pyc(*options, *words, data=data)
        self.assertEqual(found, (wanted[0], MARKS.sub("", wanted[1]), MARKS.sub("", wanted[2])))
        return found


class Programs(Case):
    def check_programs(self, programs, *words):
        for program in programs:
            if program.name not in NEWER or sys.version_info >= (3, 12):
                with self.subTest(program.name):
                    self.assertEqual(self.run_pyc(*words, program)[:2], ended([program])[:2])

    def test_as_python_does(self):
        self.check_programs(PROGRAMS)

    def test_by_the_model(self):
        self.check_programs(PROGRAMS[:3], "--model")

    def test_benches(self):
        self.check_programs(BENCHES)

    def test_with_looks_at_the_stack(self):
        program = HERE / "machine" / "programs" / "control.py"
        self.assertEqual(self.run_pyc(program, PYC_CHECK_STACK="1")[:2], ended([program])[:2])


class Tracebacks(Case):
    def test_chain(self):
        self.write("leaf.py", "def falls(x):\n    return x.no_name\n")
        text = """\
import leaf
class Owner:
    def method(self, count):
        try:
            leaf.falls(count)
        except AttributeError as error:
            raise KeyError(count) from error
    @property
    def value(self):
        return self.method(3)
def numbers():
    yield 1
    yield Owner().value
def handled():
    try:
        return list(numbers())
    except KeyError:
        list(map(lambda it: 1 // it, [0]))
def again():
    try:
        handled()
    finally:
        print("finally")
class Manager:
    def __enter__(self): pass
    def __exit__(self, *words): print(words[0], words[2].tb_lineno)
with Manager():
    again()
"""
        status, _, told = self.check_same(self.write("m.py", text), options=["--import", "leaf"])
        self.assertEqual((status, told.count("Traceback"), told.count("File")), (1, 3, 10))

    def test_what_a_program_tells(self):
        text = """\
import sys, traceback
def fails():
    raise ValueError(1)
def catches():
    try:
        fails()
    except ValueError as error:
        traceback.print_exc(file=sys.stdout)
        print(sys.exc_info()[2] is error.__traceback__, error.__traceback__.tb_next.tb_lineno)
        raise
try:
    catches()
except ValueError:
    traceback.print_exc()
a, b = 1
"""
        self.check_same(self.write("m.py", text))

    def test_errors_of_instructions(self):
        """No function of the machine stands in a traceback, where an instruction raises and where it calls."""
        texts = ("from os import no_such", "with 5: pass", "a, *b = 5", "a, b = 1, 2, 3", "{**1}", "print(**1)", "del x")
        texts += ("try: 1 // 0\nexcept 5: pass", "raise 5", "import no_such_module", "class A: no_such", "f'{1:no}'")
        texts += ("[*5]", "[1][2]", "1 < ''", "-''", "not_there.x = 1", "del not_there[0]", "print(1, **{1: 2})")
        texts += ("class A:\n    def __enter__(self): 1 // 0\n    def __exit__(self, *words): pass\nwith A(): pass",)
        texts += ("class A:\n    def __iter__(self): 1 // 0\nfor x in A(): pass", "class A:\n    def __iadd__(self, x): 1 // 0\na = A()\na += 1")
        program = "import traceback\n"
        for text in texts:
            program += "try:\n%s\nexcept Exception:\n    traceback.print_exc()\n" % textwrap.indent(text, "    ")
        told = self.check_same(self.write("m.py", program + texts[0]))[2]
        # One for each text, one more for the chain of one of them, and that of the end.
        self.assertEqual(told.count("Traceback"), len(texts) + 2)

    def test_hook(self):
        self.check_same(self.write("m.py", "import sys\nsys.excepthook = lambda *found: print(found[:2], found[2].tb_lineno)\n1 // 0\n"))


class Process(Case):
    def test_main_module(self):
        text = """\
import sys, threading, signal
print(sorted(globals()), __name__, __file__, __cached__, __annotations__, __package__, __spec__, __doc__)
print(threading.current_thread() is threading.main_thread(), threading.active_count(), sys.getrecursionlimit())
print(sys.argv, sys.path[0], sys.modules["__main__"].__dict__ is globals(), "pyc" in sys.modules, type(__loader__).__name__)
print(signal.signal(signal.SIGTERM, print))
"""
        self.write("m.py", text)
        self.check_same("m.py", "-c", "--model")

    def test_depth(self):
        text = "import sys\ndef f(n): return n and 1 + f(n - 1)\ntry: f(2000)\nexcept RecursionError: print('too deep')\n"
        self.check_same(self.write("m.py", text + "sys.setrecursionlimit(50000)\nprint(f(40000))\n"))

    def test_ends(self):
        for text in ("import sys\nprint(1)\nsys.stdout.close()","import sys\nsys.exit(3)", "import sys\nsys.exit('told')", "raise SystemExit", "import os\nos._exit(4)", ""):
            with self.subTest(text):
                self.check_same(self.write("m.py", text))

    @unittest.skipUnless(hasattr(signal, "alarm"), "there are no signals here")
    def test_signals(self):
        text = """\
import os, signal, time
seen = []
# Where this runs in the background, ^C is ignored from the start.
signal.signal(signal.SIGINT, signal.default_int_handler)
signal.signal(signal.SIGALRM, lambda number, frame: seen.append(frame.f_code.co_name))
signal.alarm(1)
while not seen:
    time.sleep(1)
try:
    os.kill(os.getpid(), signal.SIGINT)
    time.sleep(60)
except KeyboardInterrupt:
    print("interrupted", seen)
finally:
    print("finally")
os.kill(os.getpid(), signal.SIGINT)
time.sleep(60)
"""
        status, out, told = self.run_pyc(self.write("m.py", text))
        self.assertEqual((status, out), (130, "interrupted ['<module>']\nfinally\n"))
        self.assertTrue(told.endswith("KeyboardInterrupt\n"), told)


    @unittest.skipUnless(hasattr(signal, "setitimer"), "there are no timers here")
    def test_signals_at_any_time(self):
        """What a signal raises comes to the handlers of the function that runs, also while these are entered and left."""
        text = """\
import signal
class Ticked(Exception): pass
def tick(number, frame): raise Ticked
def caught(turns):
    found = {}
    for turn in range(turns):
        try:
            signal.setitimer(signal.ITIMER_REAL, (turn % 7 + 1) / 4000)
            while True:
                try:
                    found[turn]
                except KeyError:
                    pass
                finally:
                    turns = turns
        except Ticked as error:
            last = type(error)
    return turn, last
signal.signal(signal.SIGALRM, tick)
print(caught(40))
"""
        self.check_same(self.write("m.py", text))


class Words(Case):
    def test_kinds(self):
        self.write("part/__init__.py", "")
        self.write("part/__main__.py", "import sys\nprint(__name__, __package__, __spec__.name, sys.argv[1:])\n")
        self.write("part/leaf.py", "print(__name__, __package__, __file__)\nprint(__import__('sys').path[0])\n")
        self.check_same("-c", "import sys\nprint(sys.argv, sys.path[0], __name__, '__file__' in globals())", "-x", "y")
        self.check_same("-", "-x", data=b"import sys\nprint(sys.argv, sys.path[0], __name__)\n1 // 0\n")
        self.check_same("-m", "part", "-x")
        self.check_same("-m", "part.leaf")

    def test_wrong(self):
        for words in ([], ["-c"], ["-O", "3", "m.py"], ["-c", "1", "-m"], ["--no-such", "m.py"]):
            status, out, told = self.run_pyc(*words)
            if words[:2] != ["-c", "1"]:
                self.assertEqual((status, out, told[:5]), (2, "", "pyc: "), words)
        self.assertEqual(self.run_pyc("no_such.py"), (4, "", "no_such.py: No such file or directory\n"))
        status, out, told = self.run_pyc("-m", "no_such_module")
        self.assertEqual((status, out), (1, ""))
        self.assertIn("no_such_module", told)

    def test_levels(self):
        file = self.write("m.py", "'told'\nassert 0\nprint(__debug__, __doc__)\n")
        self.assertEqual(self.run_pyc("-O", "1", file), (0, "False told\n", ""))
        self.assertEqual(self.run_pyc("-O2", file), (0, "False None\n", ""))

    def test_refused(self):
        self.write("m.py", "x = 1\nbreak\n")
        status, out, told = self.run_pyc("m.py")
        self.assertEqual((status, out), (1, ""))
        self.assertEqual(told.split("\n")[:3], ["m.py:2:1: 'break' outside loop", "break", "^"])
        self.write("m.py", "x = 1.5\n")
        status, out, told = self.run_pyc("m.py")
        self.assertEqual((status, out), (1, ""))
        self.assertTrue(told.startswith("m.py:1:5: "), told)
        self.assertIn("--literals", told)

    def test_literals(self):
        text = """\
import math
print(1.5 + 2j, f'{1.5:.2f}', 1e999, -1e999, 1e999j, 1e999 - 1e999, math.copysign(1, -0.0), -0.0, 0.1 + 0.2, 5e-324, 1e22)
print(0x1_0000_0000_0000_0000_0000_0000_0000_0000, -2 ** 200, ascii('a\\ud800'), 1_0.0_1, complex('nan'))
"""
        self.check_same(self.write("m.py", text), options=["--literals"])

    def test_modules_and_texts(self):
        self.write("leaf.py", "def f(x):\n    return [x, __name__]\n")
        self.write("other.py", "async def f(): pass\nvalue = 3\n")
        text = "import leaf, other\nprint(leaf.f(1), other.value, eval('leaf.f(2)'))\n"
        text += "def f(x):\n    exec('y = x + 1; print(y)')\n    return eval('[locals() for _ in (1,)]')\nprint(f(3))\n"
        text += "code = compile('x = 5', 'text', 'exec')\nnames = {}\nexec(code, names)\nprint(names['x'])\n"
        file = self.write("m.py", text)
        status, out, told = self.run_pyc("--texts", "--import", "leaf", "--import", "other", file)
        self.assertEqual((status, out), (0, "[1, 'leaf'] 3 [2, 'leaf']\n4\n[{'.0': <tuple_iterator>}]\n5\n".replace("<tuple_iterator>", out.split("'.0': ")[1].split("}")[0])))
        self.assertEqual(told.count("\n"), 1)
        self.assertIn("Python runs the module other: ", told)


@unittest.skipUnless(PROGRAM.exists(), "the program is not built")
class Codes(Case):
    def packed(self, text, name="m.py"):
        """The file of code of a source."""
        sys.path.insert(0, str(HERE.parent))
        from pyc import rows

        it = subprocess.run([PROGRAM, "pack", "exec", "0", name], input=rows.rows_text(text.encode(), "exec").encode(), capture_output=True)
        self.assertEqual(it.returncode, 0, it.stderr)
        return it.stdout

    def test_file_of_code(self):
        file = self.folder / "m.code"
        file.write_bytes(self.packed("import sys\nprint(sys.argv[1:], __file__)\ndef f(): 1 // 0\nf()\n"))
        status, out, told = self.run_pyc(file, "-x")
        self.assertEqual((status, out), (1, "['-x'] %s\n" % file))
        self.assertIn('File "m.py", line 3, in f\n', told)

    def test_what_does_not_verify(self):
        data = self.packed("print(1)\n")
        file = self.folder / "m.code"
        for bad in (data[:100], data + b"\0", data[:49] + b"\0" + data[50:]):
            file.write_bytes(bad)
            status, out, told = self.run_pyc(file)
            self.assertEqual((status, out), (3, ""), told)
            self.assertIn("m.code: ", told)

    def test_what_verifies_and_does_not_fit(self):
        """A code may verify and have more parameters than names: it is refused, and breaks nothing."""
        import dataclasses

        sys.path.insert(0, str(HERE.parent))
        from pyc import codefile

        code = codefile.read(self.packed("def f(a, b=1):\n    def g(): return a\n    return g\nprint(f(3)())\n"))
        at = next(n for n, it in enumerate(code.constants) if isinstance(it, type(code)))
        file = self.folder / "m.code"
        for change in ({"arg_count": 7}, {"cell2arg": (99,)}, {"cell2arg": (0, 1, 1)}, {"flags": 0}, {"posonlyarg_count": 3}):
            inner = dataclasses.replace(code.constants[at], **change)
            constants = code.constants[:at] + (inner,) + code.constants[at + 1 :]
            file.write_bytes(codefile.write(dataclasses.replace(code, constants=constants)))
            status, out, told = self.run_pyc(file)
            self.assertEqual((status, out), (3, ""), change)
            self.assertIn("the code verifies, and cannot be run: ", told)
        for change in ({"locations": ()}, {"cellvars": ("b",)}):
            inner = dataclasses.replace(code.constants[at], **change)
            constants = code.constants[:at] + (inner,) + code.constants[at + 1 :]
            file.write_bytes(codefile.write(dataclasses.replace(code, constants=constants)))
            self.assertEqual(self.run_pyc(file), (0, "3\n", ""), change)


class Kept(Case):
    def files(self):
        """The files that are kept."""
        return sorted((self.folder / "cache").glob("pyc/codes/*"))

    def test_kept_and_taken(self):
        leaf = self.write("leaf.py", "value = 1\n")
        file = self.write("m.py", "import leaf\nprint(leaf.value)\n")
        words = ("--import", "leaf", file)
        self.assertEqual(self.run_pyc("--no-cache", *words), (0, "1\n", ""))
        self.assertEqual(self.files(), [])
        self.assertEqual(self.run_pyc(*words), (0, "1\n", ""))
        kept = self.files()
        self.assertEqual(len(kept), 2)
        self.assertEqual(self.run_pyc(*words), (0, "1\n", ""))
        self.assertEqual(self.files(), kept)
        leaf.write_text("value = 2\n")
        self.assertEqual(self.run_pyc(*words), (0, "2\n", ""))
        self.assertEqual(self.run_pyc("-O1", *words), (0, "2\n", ""))
        self.assertEqual(len(self.files()), 5)

    def test_bad_files(self):
        file = self.write("m.py", "print(1)\n")
        self.run_pyc(file)
        (kept,) = self.files()
        whole = kept.read_bytes()
        for bad in (b"", whole[:20], whole[:-1], whole[:40] + b"x" + whole[41:]):
            kept.write_bytes(bad)
            self.assertEqual(self.run_pyc(file), (0, "1\n", ""))
            self.assertEqual(kept.read_bytes(), whole)

    @unittest.skipUnless(hasattr(os, "getuid"), "there are no owners of files here")
    def test_files_that_others_may_write(self):
        file = self.write("m.py", "print(1)\n")
        self.run_pyc(file)
        (kept,) = self.files()
        kept.chmod(0o666)
        self.assertEqual(self.run_pyc(file), (0, "1\n", ""))
        self.assertEqual(self.files()[0].stat().st_mode & 0o777, 0o600)

    def test_folder_that_cannot_be_written(self):
        file = self.write("m.py", "print(1)\n")
        self.write("cache", "no folder")
        self.assertEqual(self.run_pyc(file), (0, "1\n", ""))

    def test_several_at_once(self):
        file = self.write("m.py", "print([it for it in range(3)])\n")
        environment = {**os.environ, "XDG_CACHE_HOME": str(self.folder / "cache")}
        with contextlib.ExitStack() as stack:
            runs = [subprocess.Popen([sys.executable, PYC, "run", *BY, file], stdout=subprocess.PIPE, env=environment) for _ in range(4)]
            for it in runs:
                stack.enter_context(it)
                self.assertEqual((it.communicate()[0], it.returncode), (b"[0, 1, 2]\n", 0))
        self.assertEqual(len(self.files()), 1)

    def test_room(self):
        sys.path.insert(0, str(HERE.parent))
        from pyc.machine.kept import MOST, Kept

        kept = Kept(None, "")
        kept.folder = str(self.folder / "cache")
        os.mkdir(kept.folder)
        for number in range(MOST):
            path = os.path.join(kept.folder, str(number))
            open(path, "w").close()
            os.utime(path, (number, number))
        kept.write(kept.path(b"1", "m.py", "eval"), compile("1", "m.py", "eval"))
        left = os.listdir(kept.folder)
        self.assertEqual(len(left), MOST - MOST // 4 + 1)
        self.assertNotIn("0", left)
        self.assertIn(str(MOST - 1), left)


class Parts(unittest.TestCase):
    @classmethod
    def setUpClass(cls):
        sys.path[:0] = [str(HERE.parent), str(ROOT / "tools" / "model")]

    def test_each_instruction_is_told(self):
        from pyc import opcodes
        from pyc.machine import instructions

        self.assertEqual(set(instructions.TABLE), set(opcodes.NAMES) - {"ExtendedArg"})
        for name, function in instructions.TABLE.items():
            self.assertTrue(function.__doc__, name)

    def test_values(self):
        """What the five compile modes answer."""
        from pyc.machine import bodies, translation

        for source, mode, wanted in (("1 + 2", "eval", 3), ("x = 1\nx + 1", "block", 2), ("x = 1", "exec", None), ("5", "block", 5)):
            self.assertEqual(bodies.execute(translation.linked(translation.translated(self.code(source, mode))), {}), wanted)

    def code(self, source, mode="exec"):
        """The code of a source, by the model."""
        import compile_rows
        from pyc import listing, rows

        status, text, said, *_ = compile_rows.run([mode, "0", "m.py"], rows.rows_text(source.encode(), mode).encode())
        self.assertEqual(status, 0, said)
        return listing.read_listing(text)

    def test_lines(self):
        """Each line of a code is told as it was given, whatever the steps between lines are."""
        from pyc.machine import lines

        text = "".join("x = %d\n" % it for it in range(200))
        rows = [1 + it * it * 7919 % 100003 for it in range(200)]
        code = compile(text, "m.py", "exec")
        told = code.replace(co_firstlineno=50, co_linetable=lines.table(code, rows, 50))
        wanted = [(start, end, rows[max(line, 1) - 1]) for start, end, line in code.co_lines()]
        spread = lambda spans: {at: line for start, end, line in spans for at in range(start, end, 2)}
        self.assertEqual(spread(told.co_lines()), spread(wanted))

    def test_warnings_stay(self):
        """What is odd in the texts of functions is warned of nowhere, and what a program asked of warnings stays."""
        import warnings
        from pyc.machine import translation

        with warnings.catch_warnings(record=True) as found:
            warnings.simplefilter("error")
            filters = list(warnings.filters)
            translation.translated(self.code("x = 1\nwhile x: x = 0\n"))
            self.assertEqual((found, warnings.filters), ([], filters))

    def test_listings(self):
        import emit
        import listing
        import py2rows
        from pyc.listing import read_listing

        for source in ("a", "def f(a, *b, c=(1, b'\\x00'), **d):\n return lambda: (a, 'x\\'y', ...)", "class A:\n def f(self): return super().f()"):
            code = emit.compile_top(py2rows.tree_of(source))
            self.assertEqual(read_listing(listing.listing(code)), plain(code))


def plain(it):
    """A code of the model, or one of its constants, as the package has it."""
    from pyc.code_object import Code

    if not isinstance(it, tuple):
        constants = tuple(map(plain, it.constants))
        return Code(**dict(vars(it), constants=constants))
    kind, *value = it
    if kind in ("tuple", "code"):
        return tuple(map(plain, value[0])) if kind == "tuple" else plain(value[0])
    return value[0] if value else {"none": None, "true": True, "false": False, "ellipsis": ...}[kind]


if __name__ == "__main__":
    if sys.version_info < (3, 11):
        print("skipped: the machine wants Python 3.11 or later, and this is %d.%d" % sys.version_info[:2])
        sys.exit()
    unittest.main()
