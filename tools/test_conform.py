#!/usr/bin/env python3
"""Tests of the suite of conformance/: what conform.py says of a machine that is right, of wrong ones and of such as end
too early; and, where the programs are built, that pyc verifies the codes and tells the same lines, and that pyc_trace passes."""
import itertools
import pathlib
import subprocess
import sys
import tempfile
import unittest

TOOLS = pathlib.Path(__file__).resolve().parent
TOP = TOOLS.parent
PROGRAM = TOP / "crates" / "pyc" / "out" / "pyc"
TRACER = TOP / "crates" / "pyc_trace" / "out" / "pyc_trace"
MACHINE = TOP / "conformance" / "machine.py"
CASES = TOP / "conformance" / "cases"
sys.path.insert(0, str(TOOLS))

import conform


def conformed(*words):
    """The status, the output and the errors of conform.py."""
    it = subprocess.run([sys.executable, "-B", str(TOOLS / "conform.py"), *map(str, words)], stdout=subprocess.PIPE, stderr=subprocess.PIPE)
    return it.returncode, it.stdout.decode("utf-8"), it.stderr.decode("utf-8")


def python(*words):
    """The words that start this Python."""
    return ("--", sys.executable, "-B", *words)


def file_of(name):
    return "--cases", CASES / (name + ".txt")


# Faults of a machine: what stands in machine.py, what is put in its place, and the first case that tells.
FAULTS = {
    "a continue cuts the stack": ('                self.blocks.append(block)\n', '                self.blocks.append(block)\n                del self.stack[block.height:]\n', "blocks", "a continue does not cut the stack"),
    "a break does not pop its loop": ('            if (block.kind, kind) == ("Loop", "break"):\n', '            if (block.kind, kind) == ("Loop", "break"):\n                self.blocks.append(block)\n', "blocks", "a break cuts the stack"),
    "a true exit drops every reason": ('dropped and block.reason[0] == "raise"', "dropped", "blocks", "a return through an exit"),
    "the slot stays full": ('        if block.kind.endswith("Handler"):\n            self.slot = block.kept\n        dropped', "        dropped", "blocks", "the slot is empty behind a handler"),
    "values are unpacked the other way": ('[::-1 if row["first_on_top"] else 1]', "", "alone", "UnpackSequence 2"),
    "the first of five bytes counts": ("% 2**32", "% 2**64", "units", "4 prefixes, the first is lost"),
    "flag 1 is told": ("str(operand - operand % 2)", "str(operand)", "alone", "MakeFunction 1"),
    "an inner function is not found": ("code.constants[int(place)]", "code", "flows", "in try with finally, in try with finally"),
    "the depth is no limit": ("self.want(len(self.stack) <= self.depth)", "pass", "faults", "a stack of 3 where the depth is 0"),
}


class Machines(unittest.TestCase):
    def setUp(self):
        folder = tempfile.TemporaryDirectory()
        self.addCleanup(folder.cleanup)
        self.folder = pathlib.Path(folder.name)

    def write(self, name, text):
        (self.folder / name).write_text(text, encoding="utf-8")
        return self.folder / name

    def faulty(self, old, new):
        """A machine with a fault."""
        text = MACHINE.read_text(encoding="utf-8")
        self.assertEqual(text.count(old), 1, old)
        text = text.replace('pathlib.Path(__file__).resolve().parent.parent / "python"', repr(str(TOP / "python")))
        return self.write("machine.py", text.replace(old, new))

    def test_right(self):
        count = sum(len(conform.cases_of(path)) for path in CASES.glob("*.txt"))
        self.assertGreaterEqual(count, 1500)
        self.assertEqual(conformed(*python(MACHINE)), (0, "%d of %d cases pass\n" % (count, count), ""))

    def test_documents(self):
        """The README shows how many cases there are, and what is said of a machine that unpacks the other way."""
        readme = (TOP / "conformance" / "README.md").read_text(encoding="utf-8")
        count = sum(len(conform.cases_of(path)) for path in CASES.glob("*.txt"))
        self.assertIn("    $ python3 tools/conform.py python3 conformance/machine.py\n    %d of %d cases pass\n" % (count, count), readme)
        _, out, _ = conformed(*python(self.faulty(*FAULTS["values are unpacked the other way"][:2])))
        self.assertIn("".join("    %s\n" % line for line in out.split("\n")[:-1]), readme)

    def test_drawn(self):
        """The cases of step_vectors have the lines that stand there."""
        vectors = TOP / "crates" / "step_vectors"
        asked = (vectors / "stdin").read_text(encoding="ascii").splitlines()
        wanted = dict(zip(asked, (vectors / "stdout").read_text(encoding="utf-8").split("\n\n")))
        found = {("%s %s" % (it.code.digits, it.script)).rstrip(): "\n".join(it.lines) for it in conform.cases_of(CASES / "drawn.txt")}
        self.assertEqual(found, wanted)

    def test_each(self):
        lines = []
        for case in [*conform.cases_of(CASES / "endless.txt")[:3], *conform.cases_of(CASES / "flows.txt")[:3]]:
            lines += ["name " + case.code.name, "code " + case.code.digits, "begin " + case.code.places, "run " + case.script, *case.lines, ""]
        suite = self.write("suite.txt", "\n".join(lines))
        self.assertEqual(conformed("--each", "--cases", suite, *python(MACHINE)), (0, "6 of 6 cases pass\n", ""))

    def test_faults(self):
        for name, (old, new, file, case) in FAULTS.items():
            with self.subTest(name):
                status, out, told = conformed(*file_of(file), *python(self.faulty(old, new)))
                first, last = out.split("\n")[0], out.split("\n")[-2]
                self.assertEqual((status, told), (1, ""))
                self.assertEqual(first.split(": ", 1)[1], case)
                self.assertRegex(last, r"^\d+ of \d+ cases pass$")

    def test_what_is_shown(self):
        suite = self.write("suite.txt", "name two\n# a comment\ncode 00\nbegin 1,0\nrun g1\nload 'a'\nreturned 1\n\nrun\nstopped\n\n")
        machine = self.write("machine.py", "import sys\nprint(sys.stdin.read().count('run') * 'load \\'a\\'\\nreturned 2\\n\\n')")
        status, out, told = conformed("--list", "--cases", suite, *python(machine))
        wanted = "suite.txt:5: two\nsuite.txt:9: two\nsuite.txt:5: two\n    a comment\nbegin 1,0\nscript g1\n    load 'a'\nwanted:\n    returned 1\ngot:\n    returned 2\n0 of 2 cases pass\n"
        self.assertEqual((status, out, told), (1, wanted, ""))

    def test_without(self):
        left = [it for it in conform.cases_of(CASES / "faults.txt") if conform.outcome(it.lines) not in ("wrong", "leaked")]
        status, out, _ = conformed("--without", "wrong", "--without", "leaked", *file_of("faults"), *python(MACHINE))
        self.assertEqual((status, out), (0, "%d of %d cases pass\n" % (len(left), len(left))))

    def test_machines_that_end_early(self):
        suite = self.write("suite.txt", "name two\ncode 00\nbegin\nrun g1\nload 'a'\nreturned 1\n\nrun\nstopped\n\n")
        for text, why in (("import sys; sys.exit('no more')", "it ended with 1: no more"), ("print('returned 1')", "there are no lines for it"), ("", "there are no lines for it")):
            status, out, _ = conformed("--cases", suite, *python(self.write("machine.py", text)))
            self.assertEqual((status, out.split("\n")[-2]), (1, "0 of 2 cases pass"))
            self.assertIn("\n%s\n" % why, out)
        status, out, _ = conformed("--each", "--cases", suite, *python(self.write("machine.py", "raise SystemExit('no more')")))
        self.assertEqual((status, out.split("\n")[-3:-1]), (1, ["it ended with 1: no more", "0 of 2 cases pass"]))
        for way in ((), ("--each",)):
            status, out, _ = conformed("--seconds", "0.5", *way, "--cases", suite, *python(self.write("machine.py", "import time; time.sleep(60)")))
            self.assertEqual((status, out.split("\n")[-3:-1]), (1, ["it took more than 0.5 seconds", "0 of 2 cases pass"]))

    def test_wrong_words(self):
        bad = self.write("bad.txt", "name a\nrun g1\nreturned 1\n")
        for words, why in (
            ((), "there is no command"), (("--without", "lost", "x"), "invalid choice"), (("/no/such/machine",), "No such file"),
            (("--cases", "/no/such/file", "x"), "No such file"), (("--cases", bad, "x"), "bad.txt:2: a run without"),
            (("--cases", self.write("worse.txt", "nome a\n"), "x"), "worse.txt:1: no such line: nome"),
        ):
            status, out, told = conformed(*words)
            self.assertEqual((status, out), (2, ""))
            self.assertIn(why, told)


@unittest.skipUnless(TRACER.exists(), "pyc_trace is not built")
class Tracer(unittest.TestCase):
    def test_passes(self):
        """Each case, in a process of its own: codes that verify or not, from the outermost code or from one within it."""
        count = sum(len(conform.cases_of(path)) for path in CASES.glob("*.txt"))
        self.assertEqual(conformed("--each", "--", TRACER), (0, "%d of %d cases pass\n" % (count, count), ""))


def programs():
    """Each code of a file of programs that is the outermost one, with its name."""
    for code, cases in itertools.groupby(conform.cases_of(CASES / "programs.txt"), key=lambda it: it.code):
        if not code.places:
            yield code, list(cases)


@unittest.skipUnless(PROGRAM.exists(), "the program is not built")
class Program(unittest.TestCase):
    def answered(self, words, data):
        it = subprocess.run([str(PROGRAM), *words], input=data, stdout=subprocess.PIPE, stderr=subprocess.PIPE)
        return it.returncode, it.stdout.decode("utf-8"), it.stderr.decode("utf-8")

    def test_verifies(self):
        """What the program unpacks is what no run shows to be wrong."""
        for path in sorted(CASES.glob("*.txt")):
            for code, cases in itertools.groupby(conform.cases_of(path), key=lambda it: it.code):
                ends = {conform.outcome(it.lines) for it in cases}
                status, _, told = self.answered(["unpack"], bytes.fromhex(code.digits))
                with self.subTest(file=path.name, code=code.name):
                    self.assertIn((status, told), ((0, ""), (3, "input: code does not verify\n")))
                    if "wrong" in ends:
                        self.assertEqual(status, 3)
                    elif path.stem not in ("faults", "drawn"):
                        self.assertEqual(status, 0)

    @unittest.skipIf(sys.version_info < (3, 9), "tools/model reads no subscripts by a Python before 3.9")
    def test_tells_the_same(self):
        """The runs of whole programs, as `step` tells them."""
        sys.path.insert(0, str(TOOLS / "model"))
        import step_trees
        from names_table import dumped
        from tree import rows_of

        trees = [dumped(rows_of(tree)).encode("utf-8") for tree, _ in step_trees.trees()]
        for code, cases in programs():
            number, mode, level = code.name.split(" ")[1:4]
            for case in cases[:4]:
                status, out, told = self.answered(["step", mode, level, "m.py", case.script], trees[int(number)])
                with self.subTest(code=code.name, script=case.script):
                    self.assertEqual((status, told), (0, ""))
                    self.assertEqual(out.split("tree\n")[0], "\n".join(["code", *case.lines]) + "\n")


if __name__ == "__main__":
    unittest.main()
