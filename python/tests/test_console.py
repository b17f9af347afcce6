#!/usr/bin/env python3
"""Tests of the command `console`: entries at a terminal beside Python's own prompt, and its commands. Python 3.11 or later."""
from __future__ import annotations

import os
import pathlib
import re
import select
import subprocess
import sys
import tempfile
import time
import unittest
from typing import List, Sequence, Tuple

sys.path.insert(0, str(pathlib.Path(__file__).resolve().parent.parent))

from pyc.program import PROGRAM

try:
    import pty
except ImportError:
    pty = None

MAIN = pathlib.Path(__file__).resolve().parent.parent / "pyc" / "__main__.py"
CAN_RUN = sys.version_info >= (3, 11) and os.path.exists(PROGRAM)

# Entries, of which each is one line or several. An empty line ends those that need it.
ENTRIES = [
    "1 + 1",
    "_ * 3",
    "None",
    "x = 1.5; x * 2; 'both'",
    "2j ** 2, 1e308 * 10, 2**200",
    "'text', b'bytes', f'{x:.3f} {x!r:>5}'",
    "for i in (1, 2): i\n",
    "for i in range(2):\n    i\n    if i:\n        'one'\n    else:\n        'none'\n    None\n",
    "while i < 3:\n    i\n    i += 1\nelse:\n    'end'\n",
    "def f(a, b=2, *c, **d):\n    a\n    return a, b, c, d\n",
    "f(1), f(1, 3, 4, e=5)",
    "class A:\n    'shown nowhere'\n    y = 1\n    def m(self): return self.y + x\n",
    "A().m()",
    "A.__module__, f.__name__, A.m.__qualname__, __name__",
    "[i * 2 for i in range(3)], {i for i in (1,)}, {i: i for i in (1,)}",
    "list(i for i in range(3) if i)",
    "(lambda q: q + 1)(1)",
    "g = (i for i in (1, 2)); next(g); next(g)",
    "next(g)",
    "1 / 0",
    "def deep(n):\n    return deep(n - 1) if n else 1 // n\n",
    "deep(3)",
    "try:\n    {}['k']\nexcept KeyError:\n    nix\n",
    "raise ValueError('cause') from KeyError(1)",
    "try:\n    1\n    1 / 0\nexcept ZeroDivisionError as e:\n    type(e)\nelse:\n    'not'\nfinally:\n    'last'\n",
    "with open('/dev/null') as file:\n    file.name\n    file.read()\n",
    "file.closed",
    "x = (1,\n     2)",
    "x",
    "'''a\nb'''",
    "1 + \\\n2",
    "x =",
    "  indented",
    "nothing",
    "x.nothing",
    "del x",
    "x",
    "import os.path as way, sys; way.basename('/a/b')",
    "sys.argv",
    "y: int = 3",
    "y, __annotations__['y']",
    "a, *b = 'abc'; b",
    "(n := 7), n",
    "# a comment",
    "",
    "class Bad:\n    def __repr__(self): return 1 / 0\n",
    "Bad()",
    "print('printed'); print('error', file=sys.stderr)",
    "@staticmethod\ndef s(): return 's'\n",
    "s()",
    "global z; z = 1",
    "z if z else 0",
    "with open('/dev/null') as a, open('/dev/null') as b:\n    for it in (a, b):\n        while True:\n            it.name\n            break\n        it.closed\n",
    "'\u00e4\u00f6' + chr(0x1d4e7)",
    "exec('w = 1'); w; eval('w + 1')",
    "def v(p):\n    q = 2\n    return locals(), sorted(vars()), dir(), eval('p + q')\n",
    "v(1)",
    "class B(A):\n    def m(self):\n        yield from (super().m(), __class__.__name__)\n",
    "list(B().m())",
    "locals() is globals(), __import__('__main__').__dict__ is globals()",
    "assert w == 2, 'no'",
    "1 2",
    "sorted(it for it in dir() if not it.startswith('__'))",
]

# What Python 3.13 and later tell of these names a file that they have for each entry.
OLDER = ["return 1", "z is 1"]


class Terminal:
    """A process at a terminal of its own."""

    def __init__(self, words: Sequence[str], folder: str) -> None:
        gone = ("PYTHONSTARTUP", "PYTHONINSPECT", "PYTHONPATH")
        given = {key: value for key, value in os.environ.items() if key not in gone}
        given.update(TERM="dumb", HOME=folder, PYC_HISTORY=os.path.join(folder, "history"), PYTHON_BASIC_REPL="1", PYTHON_COLORS="0", PYTHONUTF8="1")
        self.number, self.end = pty.fork()
        if self.number == 0:
            os.chdir(folder)
            os.execve(words[0], list(words), given)
        self.seen = ""

    def read(self, *ends: bytes, seconds: float = 60.0) -> str:
        """What is written up to the next prompt, with it, or up to one of these ends."""
        got = b""
        last = time.monotonic() + seconds
        while not got.endswith(ends or (b">>> ", b"... ")):
            ready = select.select([self.end], [], [], max(0.0, last - time.monotonic()))[0]
            try:
                more = os.read(self.end, 65536) if ready else b""
            except OSError:
                more = b""
            if not more:
                break
            got += more
        return got.decode("utf-8", "replace").replace("\r\n", "\n")

    def write(self, text: str) -> None:
        """Types a text."""
        os.write(self.end, text.encode("utf-8"))

    def enter(self, entry: str) -> str:
        """Types the lines of an entry, and gives what was written up to the prompt after it."""
        found = ""
        for line in entry.split("\n"):
            self.write(line + "\n")
            found += self.read()
        return found

    def close(self) -> int:
        """The status with which it ends after ^D."""
        self.write("\x04")
        self.read(b"\x00", seconds=10.0)
        _, status = os.waitpid(self.number, 0)
        os.close(self.end)
        return os.waitstatus_to_exitcode(status)


# A frame of a traceback, with the line of the source below it where there is one.
FRAME = re.compile(r'^(  File )"<(?:entry \d+|stdin|string|python-input-\d+)>"(, line \d+, in .*\n)(?:    .*\n)*', re.M)


def without_differences(text: str) -> str:
    """What is written, without what docs/CONSOLE.md lists: the names of entries, and the lines of the source below frames."""
    return FRAME.sub(r"\1\2", text)


@unittest.skipUnless(CAN_RUN, "the program is not built, or Python is older than 3.11")
class Console(unittest.TestCase):
    def setUp(self) -> None:
        folder = tempfile.TemporaryDirectory()
        self.addCleanup(folder.cleanup)
        self.folder = folder.name

    def call(self, *words: str, given: str = "") -> Tuple[int, str, str]:
        """The status, the output and the errors of a call."""
        ended = subprocess.run(
            [sys.executable, "-B", str(MAIN), "console", *words], cwd=self.folder, input=given.encode("utf-8"), stdout=subprocess.PIPE, stderr=subprocess.PIPE
        )
        return ended.returncode, ended.stdout.decode("utf-8"), ended.stderr.decode("utf-8")

    def terminal(self, *words: str) -> Terminal:
        """The console at a terminal, after its banner."""
        made = Terminal([sys.executable, "-B", str(MAIN), "console", *words], self.folder)
        made.seen = made.read()
        return made

    @unittest.skipUnless(pty, "there are no terminals")
    def test_beside_python(self) -> None:
        ours = self.terminal("-q")
        python = Terminal([sys.executable, "-B", "-q", "-i"], self.folder)
        self.assertEqual(ours.seen, python.read())
        for entry in ENTRIES + OLDER * (sys.version_info < (3, 13)):
            with self.subTest(entry):
                self.assertEqual(without_differences(ours.enter(entry)), without_differences(python.enter(entry)))
        self.assertEqual((ours.close(), python.close()), (0, 0))

    @unittest.skipUnless(pty, "there are no terminals")
    def test_interrupts(self) -> None:
        it = self.terminal()
        self.assertIn(":help tells more", it.seen)
        it.write("x = 'half")
        it.read(b"half")
        it.write("\x03")
        self.assertTrue(it.read().endswith("KeyboardInterrupt\n>>> "))
        self.assertTrue(it.enter("def f(").endswith("... "))
        it.write("\x03")
        self.assertTrue(it.read().endswith("KeyboardInterrupt\n>>> "))
        it.write("try:\n    print('begun')\n    while True: pass\nexcept KeyboardInterrupt: print('caught')\nfinally: print('last')\n\n")
        it.read(b"\nbegun\r\n")
        it.write("\x03")
        self.assertIn("caught\nlast\n", it.read(b"last\r\n>>> "))
        it.enter("def f():\n    print('begun')\n    while True: pass\n")
        it.write("f()\n")
        it.read(b"\nbegun\r\n")
        it.write("\x03")
        self.assertTrue(it.read(b">>> ").endswith("KeyboardInterrupt\n>>> "))
        self.assertIn("2\n", it.enter("1 + 1"))
        self.assertEqual(it.close(), 0)
        with open(os.path.join(self.folder, "history"), encoding="utf-8") as history:
            self.assertIn("1 + 1", history.read())

    def test_commands(self) -> None:
        given = "def f(a):\n    return a, 1.5\n\nclass A:\n    def m(self): return nix\n\nlen(f(2))\n:code f\n:code A.m\n:code A.m.__name__\n:code b\n:names\n:code\n:stop\n:quit\n"
        status, out, told = self.call("-q", given=given)
        self.assertEqual((status, out), (0, "2\n"))
        parts = told.replace("... ", "").split(">>> ")[4:]
        self.assertEqual(
            parts[0],
            "code 'f' from '<entry 1>' line 1 flags 33 args 0 1 0 depth 3\nconstants: None, '1.5'\nnames: '__literal__'\nvarnames: 'a'\n0 2:12 LoadFast 0 'a'\n"
            "1 2:15 LoadGlobal 0 '__literal__'\n2 2:15 LoadConst 1 '1.5'\n3 2:15 CallFunctionPositional 1\n4 2:15 BuildTuple 2\n5 2:15 ReturnValue\n",
        )
        self.assertTrue(parts[1].startswith("code 'm' from '<entry 2>' line 2 "))
        self.assertEqual(parts[2:5], ["'A.m.__name__' is no function and no class\n", "there is no name 'b'\n", "<entry 2>:2:25: N101 name 'nix' is bound nowhere [unbound]\n"])
        self.assertTrue(parts[5].startswith("code '<module>' from '<entry 3>' line 1 "))
        self.assertTrue(parts[6].startswith("there is no command :stop\n"))

    def test_what_is_refused(self) -> None:
        status, out, told = self.call("-q", given="x = 1; async def f(): pass\nasync def f(): pass\n\nmatch 1:\n    case 1: 1\n\n1 + 1\n")
        self.assertEqual((status, out), (0, "2\n"))
        self.assertIn("<entry 1>:1:1: RustPython does not implement this feature yet\nasync def f(): pass\n^\n", told)
        self.assertIn("<entry 2>:2:10: rows have no word for a pattern of match but _\n    case 1: 1\n         ^\n", told)

    def test_traceback(self) -> None:
        _, _, told = self.call("-q", given="def f(n):\n    return 1 // n\n\nf(0)\n")
        wanted = 'Traceback (most recent call last):\n  File "<entry 2>", line 1, in <module>\n    f(0)\n  File "<entry 1>", line 2, in f\n    return 1 // n\nZeroDivisionError: '
        self.assertIn(wanted, told)

    def test_texts_and_files(self) -> None:
        self.assertEqual(self.call("-c", "import sys; print(sys.argv, __name__)", "a", "b"), (0, "['-c', 'a', 'b'] __main__\n", ""))
        self.assertEqual(self.call("-c", "import sys; sys.exit(3)")[0], 3)
        status, out, told = self.call("-c", "1 // 0")
        self.assertEqual((status, out), (1, ""))
        self.assertTrue(told.endswith("ZeroDivisionError: integer division or modulo by zero\n"))
        self.assertEqual(self.call("-c", "break")[:2], (1, ""))
        file = pathlib.Path(self.folder) / "m.py"
        file.write_text("import sys, beside\nx = 2\nprint(sys.argv, beside.y, __file__ == sys.argv[0] or __file__)\ndef f(): return x * 1.5\n")
        (pathlib.Path(self.folder) / "beside.py").write_text("y = 1\n")
        status, out, told = self.call("-q", "-i", str(file), "a", given="f()\n:code f\nf.no\n")
        self.assertEqual((status, out), (0, "['%s', 'a'] 1 True\n3.0\n" % file))
        self.assertIn("code 'f' from '%s' line 4 " % file, told)
        self.assertEqual(self.call("-i", str(file), "-c", "print(f())")[1].splitlines()[1:], ["3.0"])
        self.assertEqual(self.call("-i", "none.py"), (4, "", "none.py: No such file or directory\n"))
        self.assertEqual(self.call("--nothing")[0], 2)
        self.assertEqual(self.call("-q", given="import sys\nsys.exit(5)\n1\n")[:2], (5, ""))

    def test_levels(self) -> None:
        self.assertEqual(self.call("-O1", "-q", given="assert 0\n__debug__\n")[:2], (0, "False\n"))


if __name__ == "__main__":
    unittest.main()
