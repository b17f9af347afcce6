#!/usr/bin/env python3
"""Tests of what speed.py computes and of the inputs that it makes, with a small program in the place of pyc."""
import ast
import json
import os
import pathlib
import subprocess
import sys
import tempfile
import unittest

TOOLS = pathlib.Path(__file__).resolve().parent
sys.path[:0] = [str(TOOLS), str(TOOLS.parent / "python")]

import made_inputs
import speed
from pyc import rows

# It stands for the program: it writes as many bytes as it gets, and refuses 2,000 parameters.
PROGRAM = """#!/bin/sh
input=$(cat)
case $input in
    *p001999*) exit 1 ;;
esac
echo "$input"
"""


class Arithmetic(unittest.TestCase):
    def test_powers(self):
        for power in (0, 0.5, 1, 1.5, 2):
            points = [(size, 3e-7 * size**power) for size in (1000, 2000, 4000, 9000)]
            self.assertAlmostEqual(speed.growth(points), power)
            self.assertEqual(speed.power(points), "%.2f" % power)
        self.assertAlmostEqual(speed.growth([(1, 1), (10, 10), (100, 10000)]), 2)
        for few in ([], [(1000, 0.1)], [(1000, 0.1), (1000, 0.2)]):
            self.assertIsNone(speed.growth(few))
            self.assertEqual(speed.power(few), "-")

    def test_tables(self):
        self.assertEqual(speed.table_line(["a", "b"]), "| a | b |")
        self.assertEqual(speed.table_head(["a", "b"]), "| a | b |\n|---|---|")
        self.assertEqual(speed.source_line("m.py", 4200, 31000, 0.3, 0.1, 0.5), "| m.py | 4 | 31 | 0.300 | 0.100 | 0.400 | 0.25 | 0.500 |")

    def test_instructions(self):
        self.assertEqual(speed.summary_of("events: Ir\nfn=(1) main\nsummary: 1194000001\n\ntotals: 1194000001\n"), 1194000001)
        self.assertEqual(speed.summary_of("events: Ir\ntotals: 7\n"), 7)
        self.assertIsNone(speed.summary_of("events: Ir\n"))
        self.assertEqual(speed.instruction_line("m.py", 250000, 152500000), "| m.py | 250 | 152.5 | 610 |")

    def test_lines_of_two_builds(self):
        line = speed.beside_line(1000, 230000, [(0.01, 18 * 10**6), (0.015, 20 * 10**6)], [71400000, 69300000], 0.0761)
        self.assertEqual(line, "| 1000 | 0.23 | 0.010 | 0.015 | 1.50 | 18 | 20 | 71.4 | 69.3 | 0.076 |")
        line = speed.beside_line(10, 2000, [(0.01, 10**6), (0.01, 10**6)], [None, None], 1)
        self.assertEqual(line, "| 10 | 0.00 | 0.010 | 0.010 | 1.00 | 1 | 1 |  |  | 1.000 |")
        self.assertEqual(len(speed.BESIDE_HEADS), line.count("|") - 1)

    def test_lines_of_growth(self):
        points = [(n, 100 * n, speed.Run(0, n * n / 1e8, 16 * 10**6, 1000 * n)) for n in (100, 1000, 2000)]
        # The shortest time is that of starting a process, and is left out.
        line = "| it | 100, 1000, 2000 | 10, 100, 200 | 0.000, 0.010, 0.040 | 16, 16, 16 | 100, 1000, 2000 | 1.00 | 2.00 | 1.00 |"
        self.assertEqual(speed.growth_line("it", points), line)
        self.assertEqual(speed.growth_line("it", points[:1], (1000, "over 20")), "| it | 100, 1000 | 10 | 0.000, over 20 | 16 | 100 | - | - | - |")
        self.assertEqual(speed.growth_line("it", [], (100, "status 1")), "| it | 100 |  | status 1 |  |  | - | - | - |")
        ends = [speed.how_ended(it, 20) for it in (128 + 24, 128 + 9, 6, 1, 139)]
        self.assertEqual(ends, ["over 20", "over 20", "no memory", "status 1", "status 139"])


class Inputs(unittest.TestCase):
    def test_series(self):
        for name, (paragraph, count) in made_inputs.SERIES.items():
            text = made_inputs.source_of(name, 3 * count)
            tree = ast.parse(text)
            # An elif is an If in the tree, and none in the text.
            found = sum(isinstance(it, ast.stmt) for it in ast.walk(tree)) - text.count("elif")
            self.assertEqual(found, 3 * count, name)
            self.assertTrue(all(size % count == 0 for size in speed.SIZES))
            rows.rows_text(text.encode())
        self.assertIn("class Box_2(Base, kind=make_2):", made_inputs.source_of("scopes", 60))

    def test_rows(self):
        for name, made in made_inputs.GROWING.items():
            for n in (1, 3):
                found = json.loads(made.make(n))
                named = [number for row in found for number in self.numbers(row)]
                self.assertEqual(sorted(named), list(range(len(found) - 1)), name)
                self.assertTrue(all(it < at for at, row in enumerate(found) for it in self.numbers(row)), name)
                self.assertEqual(found[-1][0], "Module")

    def numbers(self, row):
        """The rows that a row names: the numbers behind its word, and behind its place where it has one."""
        parts = row[3:] if row[1:3] == [1, 1] or row[0] == "Lambda" else row[1:]
        # The numbers that name no row are texts; false is none.
        flat = [it for part in parts for it in (part if isinstance(part, list) else [part])]
        return [it for it in flat if type(it) is int]

    def test_collisions(self):
        names = made_inputs.colliding(2000)
        self.assertEqual(len(set(names)), 2000)
        self.assertTrue(all(it.isidentifier() and len(it) == 32 for it in names))
        self.assertEqual({made_inputs.hash_of(it) for it in names}, {0})
        self.assertEqual(len({made_inputs.hash_of("n%031d" % it) for it in range(2000)}), 2000)


class Runs(unittest.TestCase):
    def setUp(self):
        folder = tempfile.TemporaryDirectory()
        self.addCleanup(folder.cleanup)
        self.folder = pathlib.Path(folder.name)
        self.program = self.folder / "program"
        self.program.write_text(PROGRAM)
        self.program.chmod(0o755)

    def call(self, *words):
        """The status, the lines and the errors of a call."""
        pipes = {"stdout": subprocess.PIPE, "stderr": subprocess.PIPE, "universal_newlines": True}
        ended = subprocess.run([sys.executable, "-B", str(TOOLS / "speed.py"), *map(str, words)], **pipes)
        return ended.returncode, ended.stdout.splitlines(), ended.stderr

    def test_help(self):
        status, lines, told = self.call("--program", self.folder / "none", "--help")
        self.assertEqual((status, told), (0, ""))
        self.assertTrue(lines[0].startswith("usage: speed.py "))

    def test_limit(self):
        run = speed.timed(["sh", "-c", "while :; do :; done"], os.devnull, bounds=(1, 4000))
        self.assertEqual(speed.how_ended(run.status, 1), "over 1")

    def test_growth(self):
        status, lines, told = self.call("--program", self.program, "--runs", 1, "--sizes", 2, "--growth", "parameters", "f-strings")
        self.assertEqual((status, told), (0, ""))
        table = [it.strip("| ").split(" | ") for it in lines if it.startswith("|")]
        self.assertEqual([it[0] for it in table[2:]], ["n parameters of one function", "f-strings, n within one another"])
        self.assertEqual((table[2][1], table[2][3][6:]), ("1000, 2000", " status 1"))
        self.assertEqual((table[3][1], table[3][2]), ("62, 125", table[3][5]))

    def test_sources(self):
        source = self.folder / "m.py"
        source.write_text(made_inputs.source_of("plain", 20))
        wrong = self.folder / "wrong.py"
        wrong.write_text("a = 1.5\n")
        status, lines, told = self.call("--program", self.program, "--runs", 1, "--source", source, wrong)
        self.assertEqual((status, told), (0, ""))
        table = [it.strip("| ").split(" | ") for it in lines if it.startswith("|")]
        self.assertEqual([it[0] for it in table[2:]], [str(source), "%s does not compile" % wrong, "together"])
        self.assertEqual({len(table[0]), len(table[2]), len(table[4])}, {8})
        status, lines, told = self.call("--program", self.program, "--runs", 1, "--most", 20, "--beside", self.program)
        self.assertEqual((status, told, len([it for it in lines if it.startswith("|")])), (0, "", 3))
        missing = self.folder / "none.py"
        self.assertEqual(self.call("--program", self.program, "--source", missing), (1, [], "speed.py: there is no file %s\n" % missing))


if __name__ == "__main__":
    unittest.main()
