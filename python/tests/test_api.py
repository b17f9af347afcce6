#!/usr/bin/env python3
"""Tests of what the package gives to programs: `compile`, `names`, `run`, codes as files and as JSON. Those that call the
program are skipped where it is not built."""
import ast
import json
import os
import pathlib
import sys
import unittest

ROOT = pathlib.Path(__file__).resolve().parent.parent.parent
sys.path[:0] = [str(ROOT / "python"), str(ROOT / "tools")]
import code_files
import pyc
from pyc import codefile, codejson, opcodes, program
from pyc.listing import read_listing

IS_BUILT = os.access(program.PROGRAM, os.X_OK)
ONE = code_files.ONE


class Public(unittest.TestCase):
    def test_names_of_the_package(self):
        for name in pyc.__all__:
            self.assertIsNotNone(getattr(pyc, name).__doc__, name)
            self.assertIn(name, dir(pyc))
        with self.assertRaisesRegex(AttributeError, "no attribute 'nothing'"):
            pyc.nothing

    def test_the_numbers_of_instructions_are_those_of_the_format(self):
        rows = [line.split("|") for line in (ROOT / "crates/py_codefile/README.md").read_text(encoding="utf-8").splitlines() if "`, `" in line]
        found = {int(row[1]): row[2].replace("`", "").replace(",", " ").split() for row in rows if len(row) > 2 and row[1].strip().isdigit()}
        self.assertEqual([name for first in sorted(found) for name in found[first]], list(opcodes.NAMES))
        self.assertEqual([first for first in sorted(found)], list(range(0, 100, 10)))


class Files(unittest.TestCase):
    def test_a_file_comes_back(self):
        for data in code_files.FILES.values():
            self.assertEqual(codefile.write(codefile.read(data)), data)
        # The example of crates/py_codefile/README.md.
        text = "5059434f44450001 0001 00000000 00000000 00000000 00000004 6d2e7079 00000001 00000008 3c6d6f64756c653e 00000000"
        text += "00000001 1a00 00000001 00000001 00000001 00000001 05 00000000000000000000000000000001"
        text += "00000000 00000000 00000000 00000000 00"
        self.assertEqual(ONE.to_bytes(), bytes.fromhex(text.replace(" ", "")))

    def test_codes_and_tuples_nest_as_deep_as_a_file_holds(self):
        code, constant = ONE, ()
        for _ in range(codefile.DEEPEST - 2):
            code = pyc.Code(**dict(vars(ONE), constants=(code,)))
        for _ in range(codefile.DEEPEST - 3):
            constant = (constant,)
        for it in (code, pyc.Code(**dict(vars(ONE), constants=(constant,)))):
            data = it.to_bytes()
            self.assertEqual(pyc.Code.from_bytes(data).to_bytes(), data)
        deeper = pyc.Code(**dict(vars(ONE), constants=((constant,),))).to_bytes()
        with self.assertRaises(pyc.BadCode) as raised:
            pyc.Code.from_bytes(deeper)
        self.assertEqual(raised.exception.cause, "TooDeep")

    def test_constants_of_one_value_are_kept_apart(self):
        codes = [pyc.Code(**dict(vars(ONE), constants=(it,))) for it in (1, True, 0, False, "", b"", (), None, ...)]
        for at, code in enumerate(codes):
            self.assertEqual([other == code for other in codes], [other == at for other in range(len(codes))])
            self.assertIs(type(pyc.Code.from_bytes(code.to_bytes()).constants[0]), type(code.constants[0]))
        self.assertEqual(len({hash(it) for it in (codes[0], codes[1])}), 1)

    def test_what_no_file_holds_is_refused(self):
        for constant in (1.5, 2**127, "\ud800", [1], {}):
            with self.assertRaises(ValueError):
                pyc.Code(**dict(vars(ONE), constants=(constant,))).to_bytes()
        for fields in ({"flags": 2**16}, {"instructions": (("Nothing", 0),)}, {"instructions": (("Nop", 256),)}):
            with self.assertRaises(ValueError):
                pyc.Code(**dict(vars(ONE), **fields)).to_bytes()

    def test_bad_bytes_are_told_with_their_offset(self):
        data = ONE.to_bytes()
        for at, cause in ((0, "Magic"), (54, "BadOpcode"), (72, "BadTag")):
            with self.assertRaises(pyc.BadCode) as raised:
                pyc.Code.from_bytes(data[:at] + b"\xff" + data[at + 1 :])
            self.assertEqual((raised.exception.cause, raised.exception.offset), (cause, at))
        for bad, cause in ((data[:-1], "Truncated"), (data + b"\0", "Trailing"), (b"", "Truncated")):
            with self.assertRaises(pyc.BadCode) as raised:
                pyc.Code.from_bytes(bad)
            self.assertEqual(raised.exception.cause, cause)

    def test_json_comes_back(self):
        for data in code_files.FILES.values():
            code = pyc.Code.from_bytes(data)
            self.assertEqual(pyc.Code.from_json(code.to_json()).to_bytes(), data)
        for constant in (2**53, -(2**53), 2**53 - 1, -(2**127), "\n\u20ac\U0001f600", b"\x00\xff", ((), (None, ...))):
            code = pyc.Code(**dict(vars(ONE), constants=(constant,)))
            self.assertEqual(pyc.Code.from_json(code.to_json()), code)
        found = json.loads(code_files.ONE.to_json())
        self.assertEqual((found["units"], found["constants"], found["path"]), ([["ReturnConst", 0, 1, 1]], [1], "m.py"))

    def test_wrong_json_is_refused(self):
        found = codejson.as_object(ONE)
        for wrong in ({}, dict(found, units=[[]]), dict(found, constants=[{"float": 1}]), dict(found, constants=[{"int": "1", "code": 2}])):
            with self.assertRaises(ValueError):
                pyc.Code.from_json(json.dumps(wrong))


@unittest.skipUnless(IS_BUILT, "the program is not built")
class Calls(unittest.TestCase):
    def test_a_source_its_bytes_and_its_tree_have_one_code(self):
        text = "def f(a, *, b=1):\n    return lambda: (a, b, 'x')\nprint(f(1)[0:2])\n"
        code = pyc.compile(text, "m.py")
        self.assertEqual(pyc.compile(text.encode(), "m.py"), code)
        self.assertEqual(pyc.compile(ast.parse(text), "m.py"), code)
        self.assertNotEqual(pyc.compile(text, "n.py"), code)
        self.assertEqual((code.obj_name, code.source_path, code.codes[0].obj_name), ("<module>", "m.py", "f"))
        self.assertEqual(code.codes[0].varnames, ("a", "b"))
        self.assertEqual(next(iter(pyc.compile("f(a + 1)").units)), pyc.Unit(0, "LoadNameAny", 0, 1, 1))
        self.assertEqual(repr(code), "<Code '<module>' from 'm.py' line 1>")
        self.assertEqual(pyc.compile("a", mode="eval", level=2).constants, ())

    def test_the_listing_is_that_of_the_examples(self):
        for source in sorted((ROOT / "examples").glob("*.py")):
            if source.stem != "type_parameters" or sys.version_info >= (3, 12):
                code = pyc.compile(source.read_bytes(), source.name)
                self.assertEqual(code.listing(), source.with_suffix(".txt").read_text(encoding="utf-8"))
                self.assertEqual(read_listing(code.listing()), code)

    def test_library_files_come_back_through_bytes_and_json(self):
        count = 0
        for file in sorted(pathlib.Path(os.__file__).parent.glob("*.py"))[::4]:
            try:
                code = pyc.compile(file.read_bytes(), file.name)
            except pyc.Refused:
                continue
            data = code.to_bytes()
            self.assertEqual(pyc.Code.from_bytes(data).to_bytes(), data, file)
            self.assertEqual(pyc.Code.from_json(code.to_json()).to_bytes(), data, file)
            count += 1
        self.assertGreater(count, 10)

    def test_refusals_have_a_place(self):
        for source, place, code in (("a = 1.5", (1, 5), "R104"), (b"# coding: x", (1, 1), "R102"), ("\nbreak", (2, 1), "R403"), (b"\xff", (1, 1), "R102")):
            with self.assertRaises(pyc.Refused) as raised:
                pyc.compile(source, "m.py")
            it = raised.exception
            self.assertEqual(((it.row, it.column), it.code, it.path, it.status), (place, code, "m.py", 1))
            self.assertTrue(str(it).startswith("m.py:%d:%d: " % place), it)
        with self.assertRaises(pyc.Refused) as raised:
            pyc.compile("a = (", "m.py")
        self.assertEqual((raised.exception.row, raised.exception.code), (1, "R101"))
        with self.assertRaises(pyc.Refused) as raised:
            pyc.compile("def f(): nonlocal a", "m.py")
        self.assertEqual((raised.exception.row, raised.exception.code), (None, "R503"))
        with self.assertRaises(pyc.Refused) as raised:
            pyc.compile("a = " + "-" * 1100 + "b", "m.py")
        self.assertEqual((raised.exception.text, raised.exception.row, raised.exception.status), ("too deep", 1, 1))

    def test_trees_that_are_not_whole(self):
        name = ast.Name("a", ast.Load())
        with self.assertRaises(pyc.Refused) as raised:
            pyc.compile(ast.Expression(name), mode="eval")
        self.assertEqual(raised.exception.code, "R111")
        code = pyc.compile(ast.fix_missing_locations(ast.Expression(name)), mode="eval")
        self.assertEqual(code.names, ("a",))
        with self.assertRaises(pyc.Refused) as raised:
            pyc.compile(ast.fix_missing_locations(ast.Expression(ast.Name(5, ast.Load()))), mode="eval")
        self.assertEqual((raised.exception.code, raised.exception.status), ("R701", 3))
        loop = ast.fix_missing_locations(ast.Module([ast.Assign([], ast.Constant(1), lineno=1, col_offset=0)], []))
        with self.assertRaises(pyc.Refused) as raised:
            pyc.compile(loop)
        self.assertEqual(raised.exception.code, "R602")

    def test_wrong_arguments(self):
        for words in ({"mode": "x"}, {"level": 3}, {"path": "a\0b"}, {"path": "\udcff"}):
            with self.assertRaises(ValueError):
                pyc.compile("a", **words)

    def test_names(self):
        source = "def f(x):\n    y = 1\n    return lambda: (x, z)\n"
        wanted = {("unused", "top/f", "y", None), ("captured", "top/f/lambda", "x", "top/f"), ("unbound", "top/f/lambda", "z", None)}
        self.assertEqual(set(map(tuple, pyc.names(source))), wanted)
        self.assertEqual(set(pyc.names(ast.parse(source))), set(pyc.names(source)))

    @unittest.skipIf(sys.version_info < (3, 11), "codes run by Python 3.11 or later")
    def test_a_code_runs(self):
        names = {}
        self.assertIsNone(pyc.run(pyc.compile("def f(n): return n * [1]\na = f(3)"), names))
        self.assertEqual(names["a"], [1, 1, 1])
        self.assertEqual(pyc.run(pyc.compile("b + 1", mode="eval"), {"b": 2}), 3)
        with self.assertRaises(ZeroDivisionError):
            pyc.run(pyc.compile("1 // 0"))

    def test_a_code_that_does_not_verify_has_no_listing(self):
        with self.assertRaisesRegex(ValueError, "does not verify"):
            pyc.Code(**dict(vars(ONE), instructions=(("Pop", 0),))).listing()


class WithoutProgram(unittest.TestCase):
    def test_it_is_told(self):
        kept, program.PROGRAM = program.PROGRAM, "/no/such/program"
        try:
            with self.assertRaisesRegex(pyc.NoProgram, "/no/such/program is not there"):
                pyc.compile("a")
        finally:
            program.PROGRAM = kept


if __name__ == "__main__":
    unittest.main()
