#!/usr/bin/env python3
"""Tests of how refusals are told: each kind with its example, lines that are cut around the mark, what is not shown, colours,
and JSON. What the program would say of an example comes from the model of tools/model."""
import json
import os
import pathlib
import pty
import subprocess
import sys
import tempfile
import unittest

ROOT = pathlib.Path(__file__).resolve().parent.parent.parent
sys.path[:0] = [str(ROOT / "python"), str(ROOT / "tools" / "model")]
import compile_rows
from pyc import explanations, program, refusals, rows, sources
from pyc.errors import Refused

STARTER = str(ROOT / "python" / "pyc" / "__main__.py")
# Examples that take too long, or too much memory, for each run of this.
LARGE = 10**6

# A text of each kind, as the program or the rows tell it, and the kinds of nodes at its place.
TEXTS = [
    ("R101", "SyntaxError: invalid syntax"),
    ("R101", "IndentationError: unexpected indent"),
    ("R102", "the source is not utf-8"),
    ("R102", "unknown encoding: x"),
    ("R102", "source code string cannot contain null bytes"),
    ("R103", "it nests too deep for the parser of this Python"),
    ("R104", "rows have no word for a float"),
    ("R105", "rows have no word for a complex number"),
    ("R106", "rows have no word for an integer past 128 bits"),
    ("R107", "rows have no word for a surrogate"),
    ("R108", "rows have no word for a pattern of match but _"),
    ("R108", "rows have no word for a guard of match"),
    ("R109", "rows have no word for the default of a type parameter"),
    ("R110", "rows have no word for the kind TemplateStr"),
    ("R111", "the tree is not whole: no lineno"),
    ("R201", "too deep"),
    ("R202", "tree is too large: nodes"),
    ("R203", "too long"),
    ("R301", refusals.NOT_YET, "FunctionDef", "AsyncFunctionDef"),
    ("R302", refusals.NOT_YET, "AsyncFor"),
    ("R303", refusals.NOT_YET, "AsyncWith"),
    ("R304", refusals.NOT_YET, "TryStar"),
    ("R305", refusals.NOT_YET, "SetComp", "Expr"),
    ("R306", refusals.NOT_YET, "AnnAssign"),
    ("R306", refusals.NOT_YET),
    ("R307", "'await' outside async function"),
    ("R308", "match expression is not implemented yet"),
    ("R309", "type parameters are not supported yet"),
    ("R401", "'return' outside function"),
    ("R402", "'yield' outside function"),
    ("R402", "'yield from' outside function"),
    ("R403", "'break' outside loop"),
    ("R403", "'continue' outside loop"),
    ("R404", "import * only allowed at module level"),
    ("R405", "from __future__ imports must occur at the beginning of the file"),
    ("R406", "future feature x is not defined"),
    ("R407", "cannot use starred expression here"),
    ("R408", "iterable unpacking cannot be used in comprehension"),
    ("R409", "starred assignment target must be in a list or tuple"),
    ("R410", "two starred expressions in assignment"),
    ("R411", "too many expressions in star-unpacking assignment"),
    ("R412", "cannot assign to __debug__"),
    ("R412", "cannot delete __debug__"),
    ("R413", "cannot assign to literal"),
    ("R413", "cannot delete function call"),
    ("R501", "name 'x' is parameter and nonlocal"),
    ("R502", "name 'x' is used prior to global declaration"),
    ("R502", "annotated name 'x' can't be nonlocal"),
    ("R502", "name 'x' is assigned to before global declaration"),
    ("R503", "cannot define nonlocal 'x' at top level."),
    ("R503", "no binding for nonlocal 'x' found"),
    ("R503", "nonlocal x defined at place without an enclosing scope"),
    ("R504", "assignment expression cannot be used in a comprehension iterable expression"),
    ("R505", "assignment expression cannot rebind comprehension iteration variable x"),
    ("R506", "assignment expression within a comprehension cannot be used in a class body"),
    ("R507", "duplicate type parameter 'T'"),
    ("R508", "named expression cannot be used in type parameters"),
    ("R508", "yield expression cannot be used in type parameters"),
    ("R509", "class name 'x' cannot be used in type parameters"),
    ("R601", "malformed tree: WrongMode"),
    ("R602", "malformed tree: StrayDot"),
    ("R603", "empty items on With"),
    ("R603", "empty body on With"),
    ("R701", "input: row 3: named twice"),
    ("R999", "a text that nobody knows"),
]


def refused(kind):
    """The refusal of the example of a kind, as the model refuses it."""
    data, lines = kind.example.encode("utf-8"), None
    if not kind.is_rows:
        try:
            made = sources.rows_of("m.py", data, kind.mode)
        except Refused as fault:
            return fault.refusal
        data, lines = made, rows.lines_of(data)
    status, _, said, _ = compile_rows.run([kind.mode, "0", "m.py"], data)
    return refusals.of_program("m.py", said, data, lines, not kind.is_rows) if status else None


class Kinds(unittest.TestCase):
    def test_texts(self):
        for code, text, *nodes in TEXTS:
            it = refusals.refusal("m.py", (1, 1), text, ["a"], nodes)
            self.assertEqual((it.code, it.text), (code, text))
            found = refusals.as_object(it)
            self.assertEqual((found["code"], found["row"], found["status"]), (code, 1, 1))
            self.assertEqual(json.loads(json.dumps(found)), found)
            self.assertEqual(refusals.told(it), "m.py:1:1: %s\na\n^\nnote: %s (--explain %s)\n" % (text, it.note, code))
        self.assertEqual({it[0] for it in TEXTS}, {it.code for it in explanations.KINDS} | {"R999"})

    def test_each_kind_has_an_example_that_gives_it(self):
        for kind in explanations.KINDS:
            self.assertTrue(kind.more and kind.note, kind.code)
            explained = explanations.explained(kind.code.lower())
            self.assertTrue(explained.startswith("%s: %s\n\n" % (kind.code, kind.note)), explained)
            self.assertLess(max(map(len, explained.splitlines())), 101)
            if kind.code == "R111":
                continue
            self.assertIn("\n    ", explained)
            if sys.version_info >= kind.since and len(kind.example) < LARGE:
                it = refused(kind)
                self.assertIsNotNone(it, kind.code)
                self.assertEqual(it.code, kind.code, it.text)

    def test_the_line_decides_where_no_rows_are_at_hand(self):
        for line, column, code in (("  async def f(): pass", 3, "R301"), ("async  for a in b:", 1, "R302"), ("async with a:", 1, "R303"), ("try:", 1, "R304"), ("[a async for a in b]", 1, "R305"), ("a: f'{b}'", 1, "R306")):
            self.assertEqual(refusals.refusal("m.py", (1, column), refusals.NOT_YET, [line]).code, code)

    def test_too_deep_has_a_place(self):
        deep = "if a: pass\n" + "elif a: pass\n" * 2000
        for source, row in (("\na = " + "-" * 1100 + "b\n", 2), (deep, None)):
            kind = explanations.KINDS[0]._replace(example=source, mode="exec")
            it = refused(kind)
            self.assertEqual((it.text, it.code, it.status), ("too deep", "R201", 1))
            self.assertIsNotNone(it.place)
            self.assertTrue(row is None or it.place[0] == row)
            self.assertIsNotNone(it.line)


class Lines(unittest.TestCase):
    def cut(self, line, column, width=40):
        """The two lines that show a place."""
        shown, blanks = refusals.cut_line(line, column, width)
        self.assertLessEqual(refusals.width_of(shown), width)
        self.assertEqual(blanks.strip(), "")
        self.assertTrue(shown.isprintable(), shown)
        return shown, len(blanks)

    def test_a_short_line_is_whole(self):
        self.assertEqual(self.cut("a = 1.5", 5), ("a = 1.5", 4))
        self.assertEqual(self.cut("a", 2), ("a", 1))
        self.assertEqual(self.cut("a" * 40, 40), ("a" * 40, 39))
        self.assertEqual(self.cut("\ta + 1.5", 6), ("    a + 1.5", 8))
        self.assertEqual(self.cut("\u65e5\u672c = 1.5", 6), ("\u65e5\u672c = 1.5", 7))
        self.assertEqual(self.cut("e\u0301 + 1.5", 6), ("e\u0301 + 1.5", 4))

    def test_a_long_line_is_cut_around_the_mark(self):
        line = "".join("%07d," % it for it in range(0, 20000))
        for column in (1, 5, 39, 41, 100, 4001, len(line)):
            shown, blanks = self.cut(line, column)
            self.assertEqual(shown[blanks], line[column - 1])
            self.assertEqual(shown.startswith("..."), column > 30)
            self.assertEqual(shown.endswith("..."), column < len(line) - 10)
        wide = "\u65e5" * 1000
        for column in (1, 50, 1000):
            shown, blanks = self.cut(wide, column)
            self.assertTrue(shown[3 if column > 20 else 0] == "\u65e5", shown)
        self.cut("\x1b" * 1000, 500)
        self.cut("\u0301" * 1000, 500)
        self.cut("a" * 150000, 150000)

    def test_what_is_not_shown_is_spelled_out(self):
        self.assertEqual(self.cut("a\x1b[31m\x07 = 1.5", 12)[0], "a\\x1b[31m\\x07 = 1.5")
        self.assertEqual(refusals.shown("\u202e\x00\x7f\U000e0001"), "\\u202e\\x00\\x7f\\U000e0001")
        it = refusals.refusal("a\x1b.py", (1, 1), "no\x07", ["\x1b[31m = 1"])
        self.assertEqual({byte for byte in refusals.told(it).encode() if byte < 32}, {10})

    def test_a_long_line_is_told_in_few_bytes(self):
        for line in ("x = 1.5 + " + "a" * 150000, "a" * 150000 + " + 1.5", "\t\x1b\u65e5" * 50000):
            it = refusals.refusal("m.py", (1, len(line) // 2), "rows have no word for a float", [line])
            told = refusals.told(it)
            self.assertLess(len(told.encode()), 500)
            self.assertEqual({byte for byte in told.encode() if byte < 32}, {10})

    def test_colours(self):
        it = refusals.refusal("m.py", (1, 5), "rows have no word for a float", ["a = 1.5"])
        plain, coloured = refusals.told(it), refusals.told(it, is_coloured=True)
        self.assertNotIn("\x1b", plain)
        for colour in (refusals.BOLD, refusals.RED, refusals.GREEN, refusals.CYAN, refusals.PLAIN):
            coloured = coloured.replace(colour, "")
        self.assertEqual(coloured, plain)


class Terminals(unittest.TestCase):
    def told_on_terminal(self, **environment):
        """What a call writes on standard error that is a terminal."""
        with tempfile.TemporaryDirectory() as folder:
            (pathlib.Path(folder) / "m.py").write_text("a = 1.5\n")
            ours, its = pty.openpty()
            env = {key: value for key, value in os.environ.items() if key not in ("NO_COLOR", "TERM")}
            words = [sys.executable, "-I", "-S", STARTER, "rows", "m.py"]
            child = subprocess.Popen(words, cwd=folder, env=dict(env, **environment), stdout=subprocess.DEVNULL, stderr=its)
            os.close(its)
            found = b""
            while True:
                try:
                    data = os.read(ours, 4096)
                except OSError:
                    break
                if not data:
                    break
                found += data
            os.close(ours)
            self.assertEqual(child.wait(), 1)
            return found.decode()

    def test_colours_on_a_terminal_alone(self):
        self.assertIn("\x1b[31m", self.told_on_terminal(TERM="xterm"))
        self.assertNotIn("\x1b", self.told_on_terminal(TERM="xterm", NO_COLOR="1"))
        self.assertNotIn("\x1b", self.told_on_terminal(TERM="dumb"))


@unittest.skipUnless(os.access(program.PROGRAM, os.X_OK), "the program is not built")
class ByTheProgram(unittest.TestCase):
    def test_the_program_refuses_the_examples_so(self):
        for kind in explanations.KINDS:
            if kind.code == "R111" or sys.version_info < kind.since or len(kind.example) >= LARGE:
                continue
            data = kind.example.encode()
            try:
                made = data if kind.is_rows else sources.rows_of("m.py", data, kind.mode)
                status, _, said = program.call(program.PROGRAM, [kind.mode, "0", "m.py"], made, subprocess.PIPE)
                program.check(status, said, "m.py", made, None, not kind.is_rows)
            except Refused as fault:
                self.assertEqual((fault.code, fault.status), (kind.code, 3 if kind.code == "R701" else 1))
                continue
            self.fail(kind.code)


if __name__ == "__main__":
    unittest.main()
