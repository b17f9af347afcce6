#!/usr/bin/env python3
"""Tests of the command `lint`: sources with the lines that are wanted, by hand; a sample of the library; words and files."""
from __future__ import annotations

import json
import os
import pathlib
import subprocess
import sys
import tempfile
import unittest
from typing import List, Tuple

sys.path[:0] = [str(pathlib.Path(__file__).resolve().parent.parent), str(pathlib.Path(__file__).resolve().parent)]

import lint_library
from pyc import linting
from pyc.findings import findings_of
from pyc.program import PROGRAM

MAIN = pathlib.Path(__file__).resolve().parent.parent / "pyc" / "__main__.py"

# A source, and what is told of it by default: lines without the name of the file.
SOURCES: List[Tuple[str, List[str]]] = [
    ("print(len('x'), __name__, __file__, exit)\n", []),
    ("print(lenght)\n", ["1:7: N101 name 'lenght' is bound nowhere [unbound]"]),
    ("def f():\n    return b + a + b\n", ["2:12: N101 name 'b' is bound nowhere [unbound]", "2:16: N101 name 'a' is bound nowhere [unbound]"]),
    ("del x\nx = 1\n", []),
    ("def f():\n    global x\n    x = 1\n\nprint(x)\n", []),
    ("def f():\n    global x\n    return x\n", ["3:12: N101 name 'x' is bound nowhere [unbound]"]),
    ("def f():\n    tmp = 1\n    tmp = 2\n", ["2:5: N102 name 'tmp' is never read in 'f' [unused]"]),
    ("def f():\n    for _ in (1, 2):\n        pass\n", []),
    ("def f(given):\n    pass\n", []),
    ("def f():\n    def inner():\n        pass\n", ["2:9: N102 name 'inner' is never read in 'f' [unused]"]),
    ("def f():\n    class Inner:\n        pass\n", ["2:11: N102 name 'Inner' is never read in 'f' [unused]"]),
    ("def f():\n    @str\n    def \\\n  inner():\n        pass\n", ["4:3: N102 name 'inner' is never read in 'f' [unused]"]),
    (
        "def f():\n    import os.path, a.b as c, d\n",
        ["2:12: N102 name 'os' is never read in 'f' [unused]", "2:28: N102 name 'c' is never read in 'f' [unused]", "2:31: N102 name 'd' is never read in 'f' [unused]"],
    ),
    (
        "def f():\n    from m import (  # from\n        a as b,\n        c)\n    return c\n",
        ["3:14: N102 name 'b' is never read in 'f' [unused]"],
    ),
    ("def f():\n    try: pass\n    except (OSError) as error: pass\n", ["3:25: N102 name 'error' is never read in 'f' [unused]"]),
    ("def f():\n    with open('x') as file: pass\n", ["2:23: N102 name 'file' is never read in 'f' [unused]"]),
    ("def f():\n    if (n := 1): pass\n", ["2:9: N102 name 'n' is never read in 'f' [unused]"]),
    ("x = 1\ndef f(x): return x\n", ["2:7: N103 name 'x' in 'f' hides that of the module [shadowed]"]),
    ("x = 1\ndef f(a, *, x=2, **b): return x\n", ["2:13: N103 name 'x' in 'f' hides that of the module [shadowed]"]),
    ("def f(i):\n    return [i for i in (1,)], i\n", ["2:19: N103 name 'i' in 'f.genexpr' hides that of 'f' [shadowed]"]),
    ("class A:\n    x = 1\n    def f(self):\n        x = 2\n        return x\n", []),
    ("def f(x):\n    return lambda: x\n", []),
    ("class A:\n    def f(self): return __x\n", ["2:25: N101 name '__x' is bound nowhere [unbound]"]),
    ("class A:\n    def f(self): return super().f()\n    __doc__ = 'a'\n", []),
    ("def f(self): return super(str, self).f()\n", []),
    ("__doc__ = 1\nclass A: pass\n", []),
    ("def f():\n    return [[x for x in y] for y in ()]\n", []),
    ("from m import *\nprint(a)\n", ["2:7: N105 name 'a' is bound nowhere, unless the 'import *' of row 1 binds it [unbound]"]),
    ("from m import *\nclass A:\n    from n import *\n", ["3:19: N103 name '*' in 'A' hides that of the module [shadowed]"]),
    ("f'{a} b {c!r:>{d}}' 'e' f'''\n{ {g} } {{h}} {(h)}'''\n", [
        "1:4: N101 name 'a' is bound nowhere [unbound]",
        "1:10: N101 name 'c' is bound nowhere [unbound]",
        "1:16: N101 name 'd' is bound nowhere [unbound]",
        "2:4: N101 name 'g' is bound nowhere [unbound]",
        "2:17: N101 name 'h' is bound nowhere [unbound]",
    ]),
    ("'\u00e4\u00f6', \U0001d4e7, \u00fc\n", ["1:7: N101 name 'X' is bound nowhere [unbound]", "1:10: N101 name '\u00fc' is bound nowhere [unbound]"]),
    ("x = 1.5\ny = lenght\n", ["1:5: R104 rows have no word for a float [rows]", "2:5: N101 name 'lenght' is bound nowhere [unbound]"]),
    ("x = y\nbreak\n", ["1:5: N101 name 'y' is bound nowhere [unbound]", "2:1: R403 'break' outside loop [refused]"]),
    ("async def f():\n    return x\n", ["1:1: R301 an async function: pyc compiles no async code [refused]", "2:12: N101 name 'x' is bound nowhere [unbound]"]),
    ("def f(x):\n    global x\n", ["2:5: R501 name 'x' is parameter and global [refused]"]),
    ("x = = 1\n", ["1:5: R101 SyntaxError: invalid syntax [syntax]"]),
    ("x = a  # noqa\ny = b  # NOQA: N101 as it comes from elsewhere\nz = c  # noqa: N102, F821\nw = '# noqa', d\n", [
        "3:5: N101 name 'c' is bound nowhere [unbound]",
        "4:15: N101 name 'd' is bound nowhere [unbound]",
    ]),
]

# Scopes of one path: the report has a line of the same text for each, and they have their own places.
TWICE = """\
def f():
    a = 1
def f():
    print(a)
def f():
    b = 1
    def g(): return b, c
def f(c):
    def g(): return b, c
def f():
    a = 1
"""
OF_TWICE = [
    ("unused top/f a", 2),
    ("unbound top/f a", 4),
    ("unused top/f g", 7),
    ("captured top/f/g b from top/f", 7),
    ("unbound top/f/g c", 7),
    ("unused top/f g", 9),
    ("captured top/f/g c from top/f", 9),
    ("unbound top/f/g b", 9),
    ("unused top/f a", 11),
]


def told(text: str, **said: List[str]) -> List[str]:
    """What is told of a source, without the name of its file."""
    found = findings_of(text.encode("utf-8"), PROGRAM)
    return [linting.as_text("", it)[1:] for it in linting.chosen(found, linting.choice_of(said, False, str), "m.py")]


@unittest.skipUnless(os.path.exists(PROGRAM), "the program is not built")
class Findings(unittest.TestCase):
    def test_sources(self) -> None:
        for text, wanted in SOURCES:
            with self.subTest(text):
                self.assertEqual(told(text), wanted)

    def test_scopes_of_one_path(self) -> None:
        found = findings_of(TWICE.encode("utf-8"), PROGRAM).findings
        got = [(it.line(), it.row) for it in found if it.name in ("a", "b", "c", "g")]
        self.assertEqual(sorted(got), sorted(OF_TWICE))

    def test_choice(self) -> None:
        text = "x = 1\ndef f(x):\n    a = b\n    return lambda: x\n"
        lines = {it.split()[1]: it for it in told(text, select=["N"])}
        self.assertEqual(sorted(lines), ["N101", "N102", "N103", "N104"])
        self.assertEqual(lines["N104"], "4:20: N104 name 'x' in 'f.lambda' comes from 'f' [captured]")
        for said, codes in (
            ({"select": ["unused"]}, ["N102"]),
            ({"select": ["N101", "captured"]}, ["N101", "N104"]),
            ({"ignore": ["N102", "shadowed"]}, ["N101"]),
            ({"select": ["N"], "ignore": ["unbound"]}, ["N102", "N103", "N104"]),
            ({"builtins": ["+b", "+c"]}, ["N102", "N103"]),
            ({"select": ["R"]}, []),
        ):
            self.assertEqual(sorted(it.split()[1] for it in told(text, **said)), codes)
        self.assertEqual(told("print(a, b)\n", builtins=["none", "+a"]), ["1:1: N101 name 'print' is bound nowhere [unbound]", "1:10: N101 name 'b' is bound nowhere [unbound]"])

    def test_choice_of_refusals(self) -> None:
        text = "x = 1.5\nbreak\n"
        for said, codes in (
            ({}, ["R104", "R403"]),
            ({"select": ["R1"]}, ["R104"]),
            ({"select": ["refused"]}, ["R403"]),
            ({"ignore": ["rows"]}, ["R403"]),
            ({"ignore": ["R403"]}, ["R104"]),
            ({"ignore": ["R"]}, []),
        ):
            self.assertEqual([it.split()[1] for it in told(text, **said)], codes)

    def test_too_deep(self) -> None:
        found = told("x = 1\ny = " + "-" * 1100 + "x\n") if sys.version_info >= (3, 12) else told("x = 1\ny = x" + " + 1" * 1100 + "\n")
        self.assertEqual([it.split(" ", 1)[1] for it in found], ["R201 too deep [refused]"])
        self.assertTrue(found[0].startswith("2:"))

    def test_deep(self) -> None:
        self.assertEqual(told("x = " + "a + " * 990 + "1\n"), ["1:5: N101 name 'a' is bound nowhere [unbound]"])

    def test_library(self) -> None:
        for file in lint_library.library_files(60):
            with self.subTest(str(file)):
                self.assertEqual(lint_library.faults_of(file), [])


@unittest.skipUnless(os.path.exists(PROGRAM), "the program is not built")
class Words(unittest.TestCase):
    def setUp(self) -> None:
        folder = tempfile.TemporaryDirectory()
        self.addCleanup(folder.cleanup)
        self.folder = pathlib.Path(folder.name)

    def write(self, name: str, text: str) -> None:
        """A file of this text in the folder."""
        file = self.folder / name
        file.parent.mkdir(parents=True, exist_ok=True)
        file.write_text(text, encoding="utf-8")

    def lint(self, *words: str, given: str = "") -> Tuple[int, str, str]:
        """The status, the output and the errors of a call in the folder."""
        ended = subprocess.run(
            [sys.executable, "-B", str(MAIN), "lint", *words], cwd=self.folder, input=given.encode("utf-8"), stdout=subprocess.PIPE, stderr=subprocess.PIPE
        )
        return ended.returncode, ended.stdout.decode("utf-8"), ended.stderr.decode("utf-8")

    def test_statuses(self) -> None:
        self.write("good.py", "x = 1\n")
        self.write("bad.py", "x = y\n")
        self.assertEqual(self.lint("good.py"), (0, "", "0 findings in 1 file\n"))
        line = "bad.py:1:5: N101 name 'y' is bound nowhere [unbound]\n"
        self.assertEqual(self.lint("good.py", "bad.py", "good.py"), (1, line, "1 finding in 2 files\n"))
        self.assertEqual(self.lint("-q", "--ignore=N101", "bad.py"), (0, "", ""))
        self.assertEqual(self.lint("-q", "-", given="x = y\n"), (1, line.replace("bad.py", "<stdin>"), ""))
        self.assertEqual(self.lint("-q", "bad.py", "none.py"), (4, line, "none.py: No such file or directory\n"))
        for words, said in (
            ((), "no file is named"),
            (("--select=X", "bad.py"), "--select names a code or a kind, and 'X' is none"),
            (("--builtins=1", "bad.py"), "--builtins names built-ins, as +NAME, or none; '1' is no name"),
            (("--format=xml", "bad.py"), "--format is followed by"),
        ):
            status, out, errors = self.lint(*words)
            self.assertEqual((status, out), (2, ""))
            self.assertIn(said, errors)

    @unittest.skipUnless(os.path.exists("/dev/full"), "there is no /dev/full")
    def test_a_write_that_fails(self) -> None:
        self.write("bad.py", "x = y\n")
        with open("/dev/full", "wb") as full:
            ended = subprocess.run([sys.executable, "-B", str(MAIN), "lint", "bad.py", "bad.py"], cwd=self.folder, stdout=full, stderr=subprocess.PIPE)
        self.assertEqual((ended.returncode, ended.stderr), (5, b"standard output: No space left on device\n"))

    def test_what_is_not_read(self) -> None:
        (self.folder / "bytes.py").write_bytes(b"\xff = 1\n")
        (self.folder / "latin.py").write_bytes(b"# coding: latin-1\nx = '\xe4', y\n")
        (self.folder / "marked.py").write_bytes(b"\xef\xbb\xbfx = 1\r\ny = z\r\n")
        (self.folder / "empty.py").write_bytes(b"")
        status, out, errors = self.lint(".")
        lines = ["./bytes.py:1:1: R102 the source is not utf-8 [syntax]"]
        lines += ["./latin.py:2:10: N101 name 'y' is bound nowhere [unbound]", "./marked.py:2:5: N101 name 'z' is bound nowhere [unbound]"]
        self.assertEqual((status, out.splitlines(), errors), (1, lines, "3 findings in 4 files (1 refused)\n"))

    def test_folders(self) -> None:
        for name in ("b.py", "a/d.py", "a/c.py", ".hidden/e.py", "a/.f.py", "a/g.txt"):
            self.write(name, "x = y\n")
        status, out, errors = self.lint(".", "a")
        self.assertEqual([it.split(":")[0] for it in out.splitlines()], ["./b.py", "./a/c.py", "./a/d.py", "a/c.py", "a/d.py"])
        self.assertEqual((status, errors), (1, "5 findings in 5 files\n"))

    def test_formats(self) -> None:
        self.write("m,1.py", "x = __y\nclass A:\n    def f(self):\n        a = __b\n")
        wanted = [
            {"file": "m,1.py", "row": 1, "column": 5, "code": "N101", "kind": "unbound", "scope": "top", "name": "__y", "other": None, "text": "name '__y' is bound nowhere"},
            {"file": "m,1.py", "row": 4, "column": 9, "code": "N102", "kind": "unused", "scope": "top/A/f", "name": "a", "other": None, "text": "name 'a' is never read in 'A.f'"},
            {"file": "m,1.py", "row": 4, "column": 13, "code": "N101", "kind": "unbound", "scope": "top/A/f", "name": "_A__b", "other": None, "text": "name '__b' is bound nowhere"},
        ]
        status, out, _ = self.lint("--format", "json", "m,1.py")
        self.assertEqual((status, [json.loads(it) for it in out.splitlines()]), (1, wanted))
        _, out, _ = self.lint("--format", "github", "m,1.py")
        self.assertEqual(
            out.splitlines(),
            [
                "::error file=m%2C1.py,line=1,col=5,title=pyc N101::name '__y' is bound nowhere [unbound]",
                "::warning file=m%2C1.py,line=4,col=9,title=pyc N102::name 'a' is never read in 'A.f' [unused]",
                "::error file=m%2C1.py,line=4,col=13,title=pyc N101::name '__b' is bound nowhere [unbound]",
            ],
        )

    def test_all(self) -> None:
        self.write("m.py", "def f():\n    _ = super().f()\n    print(a)  # noqa\n")
        _, out, _ = self.lint("--all", "--builtins=none", "--select=N", "-q", "m.py")
        self.assertEqual(
            out.splitlines(),
            [
                "m.py: N101 name '__class__', which nobody wrote, is bound nowhere [unbound]",
                "m.py:2:5: N102 name '_' is never read in 'f' [unused]",
                "m.py:2:9: N101 name 'super' is bound nowhere [unbound]",
                "m.py:3:5: N101 name 'print' is bound nowhere [unbound]",
                "m.py:3:11: N101 name 'a' is bound nowhere [unbound]",
            ],
        )

    def test_config(self) -> None:
        self.write("a/m.py", "def f():\n    a = b, c\n")
        self.write("pyproject.toml", '[tool.other]\nx = 1\n[tool.pyc]\nselect = ["N"]\nignore = ["unused"]\nbuiltins = ["+b"]\n')
        if sys.version_info < (3, 11):
            status, out, errors = self.lint("a")
            self.assertEqual((status, out), (2, ""))
            self.assertIn("[tool.pyc], which Python 3.11 and later read", errors)
            self.assertEqual(self.lint("--no-config", "-q", "a")[0], 1)
            return
        line = "a/m.py:2:12: N101 name 'c' is bound nowhere [unbound]\n"
        self.assertEqual(self.lint("-q", "a"), (1, line, ""))
        self.assertEqual(self.lint("-q", "--select=N101", "--builtins=+c", "a")[1], line.replace("2:12", "2:9").replace("'c'", "'b'"))
        self.assertEqual(len(self.lint("-q", "--no-config", "a")[1].splitlines()), 3)
        for text, said in (
            ('[tool.pyc]\nselekt = ["N"]\n', "and no 'selekt'"),
            ('[tool.pyc]\nselect = "N"\n', "'select' of [tool.pyc] is a list of texts"),
            ('[tool.pyc]\nselect = ["X"]\n', "pyproject.toml: select names a code or a kind, and 'X' is none"),
            ("[tool.pyc\n", "pyproject.toml: "),
        ):
            self.write("pyproject.toml", text)
            status, out, errors = self.lint("a")
            self.assertEqual((status, out), (2, ""))
            self.assertIn(said, errors)


if __name__ == "__main__":
    unittest.main()
