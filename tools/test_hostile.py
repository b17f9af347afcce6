#!/usr/bin/env python3
"""Tests of hostile.py: what it wants of its inputs is what the model answers, and it finds what programs do wrong that stand
in the place of pyc."""
import argparse
import collections
import contextlib
import io
import pathlib
import shutil
import subprocess
import sys
import tempfile
import unittest
from unittest import mock

TOOLS = pathlib.Path(__file__).resolve().parent
sys.path[:0] = [str(TOOLS), str(TOOLS / "model")]
import code_files
import hostile
import hostile_cases as cases
import names_table
import compile_rows as model
import read_back
import step_trees

# It ends as the model would over the inputs that it is asked about, by its reads and writes.
DEVICES = """#!%s -BSE
import os, sys
sys.path.insert(0, %r)
import answers_of_test as answers

def write(number, data):
    while data:
        try:
            data = data[os.write(number, data):]
        except OSError:
            os._exit(5)

data = []
size = 0
while sys.argv[1:] == ["exec", "0", "m.py"] and size < 2**26:
    try:
        data.append(os.read(0, 1 << 20))
    except OSError:
        os._exit(4)
    size += len(data[-1])
    if not data[-1]:
        break
status, out, err = answers.answer(sys.argv[1:], b"".join(data))
write(1, out)
write(2, err)
os._exit(status)
"""

# It packs into a file of its own, and reads files as tools/code_files.py does, but for the offset of what is bad.
UNPACKS = """#!%s -BSE
import sys
sys.path.insert(0, %r)
import code_files
data = sys.stdin.buffer.read()
if sys.argv[1] == "pack":
    sys.stdout.buffer.write(code_files.FILES["one"])
    sys.exit(0)
said = code_files.answer(data)
if said != "Ok":
    sys.stderr.write("input: bad code file at %%d\\n" %% (int(said.split()[1]) + %d))
    sys.exit(3)
"""

# It asks three times for memory, and says what it is told to say where there is none.
ALLOCATES = r"""
#include <stdio.h>
#include <stdlib.h>
#include <unistd.h>
int main(void) {
    char *volatile at[3];
    for (int i = 0; i < 3; i++) {
        at[i] = i < 2 ? malloc(100000) : realloc(at[1], 200000);
        if (!at[i]) {
            if (%s && write(1, "early", 5) != 5) { return 9; }
            return %d;
        }
    }
    return write(1, "done", 4) == 4 ? 0 : 5;
}
"""

# It dies with less than a megabyte of stack.
STACK = """#!/bin/sh
if [ "$(ulimit -s)" -lt 1000 ]; then kill -SEGV $$; fi
cat >/dev/null
"""


class Hostile(unittest.TestCase):
    def setUp(self):
        folder = tempfile.TemporaryDirectory()
        self.addCleanup(folder.cleanup)
        self.folder = pathlib.Path(folder.name).resolve()

    def program(self, text):
        """A file that can be run."""
        file = self.folder / "program"
        file.write_text(text)
        file.chmod(0o755)
        return file

    def called(self, *words):
        """The status and the output of a call."""
        arguments = hostile.parser_of_words().parse_args(list(map(str, words)))
        with contextlib.redirect_stdout(io.StringIO()) as out:
            status = arguments.function(arguments)
        return status, out.getvalue()

    def test_inputs_are_wanted_as_the_model_answers(self):
        for name, words, data, wanted in hostile.rows_cases():
            # The model compiles alone; each command that compiles refuses rows alike, and `names` what is no rows.
            if len(data) < 100000 and words != hostile.UNPACK and (words[0] != "names" or wanted.status == hostile.INPUT):
                status, out, err, _ = model.run(words if len(words) == 3 else hostile.WORDS, data)
                self.assertEqual((status, err.encode("utf-8")), (wanted.status, wanted.err), name)
                if len(words) == 3:
                    self.assertEqual(out.encode("utf-8"), wanted.out, name)

    def test_inputs_come_by_each_command(self):
        runs = collections.defaultdict(set)
        with mock.patch.multiple(hostile, deeper_cases=list, large_cases=list):
            for _, words, data, _ in hostile.rows_cases():
                runs[len(data), data[:300]].add(words[0])
        readers = {words[0] for words in hostile.READERS}
        for data, _ in cases.INPUTS:
            self.assertLessEqual(readers | {"unpack"}, runs[len(data), data[:300]], data[:300])
        for tree, _ in cases.refused_trees():
            data = cases.text_of(cases.rows_of(tree))
            self.assertLessEqual(readers, runs[len(data), data[:300]], data[:300])
        for data in hostile.NOTHING, b" " * (2**26 - 1), b" " * 2**26:
            self.assertEqual(readers | {"unpack", "sample"}, runs[len(data), data[:300]], data[:300])

    def test_names_are_refused_for_their_scopes_alone(self):
        for tree, line in cases.refused_trees():
            wanted = hostile.named(cases.text_of(cases.rows_of(tree)))
            self.assertEqual(wanted.err, b"" if wanted.status == hostile.DONE else line.encode("utf-8") + b"\n")
        self.assertEqual(hostile.named(cases.text_of(cases.rows_of(cases.module(("Break", 3, 5))))), hostile.Ended(0, b"", b""))

    def test_an_empty_program_is_packed_and_run_as_the_model_does(self):
        self.assertEqual(hostile.codefile.read(hostile.NOTHING_FILE).constants, (None,))
        tree = names_table.read_rows(hostile.NOTHING)
        lines = step_trees.both_lines(tree, "exec", 0, step_trees.script_of("g1"))
        self.assertEqual(hostile.NOTHING_RUNS.decode("utf-8"), "".join(it + "\n" for it in lines))

    def test_words_are_wanted_as_the_model_answers(self):
        for words, data, wanted in hostile.words_cases():
            if all(isinstance(it, str) for it in words) and words[:1] not in (["-h"], ["--help"]):
                status, out, err, _ = model.run(words, data)
                self.assertEqual((status, err.encode("utf-8")), (wanted.status, wanted.err), words)
                self.assertIn(wanted.out, (None, out.encode("utf-8")))

    def test_listings_are_those_of_the_model(self):
        for data, listing in (hostile.CALL, hostile.CALL_LISTING), (hostile.NOTHING, hostile.NOTHING_LISTING), hostile.wide(7):
            self.assertEqual(model.run(hostile.WORDS, data)[:2], (0, listing.decode("utf-8")))
        self.assertGreater(len(hostile.WIDE_LISTING), 2 * 65536)
        self.assertEqual(model.run(hostile.SAMPLE, b"")[:2], (0, hostile.SUMMARY.decode("utf-8")))

    def test_allocations_are_refused_to_each_command(self):
        runs = list(hostile.runs_to_refuse(hostile.MODULE.encode("utf-8")))
        self.assertEqual(len(runs), len({name for name, *_ in runs}))
        commands = {words[0] for _, words, _, wanted in runs if wanted.status == hostile.DONE}
        self.assertEqual(commands, {"exec", "pack", "unpack", "step", "names", "sample"})

    def test_each_text_of_a_fault_is_there(self):
        lines = " ".join(line for _, line in cases.refused_trees())
        told = (TOOLS / "model" / "scopes.py").read_text(), (TOOLS / "model" / "emit.py").read_text()
        for text in ("empty items on With", "empty body on With", "too many expressions", "two starred", "__future__", "cannot delete"):
            self.assertIn(text, told[0] + told[1])
            self.assertIn(text, lines)

    def test_deep_trees_nest_as_they_say(self):
        for number, deep in enumerate(DEEP):
            for depth in (30, 31) if number % 10 else (30, 31, cases.DEEPEST):
                self.assertEqual(read_back.nests(deep.rows(depth)), depth, deep.title)
            data = cases.text_of(deep.rows(24))
            status, _, err, _ = model.run(hostile.WORDS, data)
            self.assertEqual((status, err), (0, "") if deep.line is None else (1, deep.line + "\n"), deep.title)
            reported = hostile.named(data)
            self.assertEqual((reported.status, reported.err), (1, err.encode("utf-8")) if deep.by_scopes else (0, b""), deep.title)

    def test_each_way_to_nest_is_tried_one_deeper(self):
        titles = {name for name, _, _ in hostile.deeper_cases()}
        self.assertLessEqual({deep.title + ", one too deep" for deep in DEEP}, titles)
        self.assertEqual(len(DEEP), len({deep.title for deep in DEEP}))

    def test_a_name_is_handed_on_through_each_function(self):
        (deep,) = (it for it in DEEP if it.title == "FunctionDef, a name handed on")
        rows = deep.rows(24)
        # A statement, its name and the module nest beside the functions.
        self.assertEqual(sum(row[0] == "FunctionDef" for row in rows), 21)
        listing = model.run(hostile.WORDS, cases.text_of(rows))[1]
        self.assertEqual([listing.count(it) for it in ("LoadClosure 0 'v'", "LoadDeref 0 'v'", "free: 'v'")], [20, 1, 20])

    def test_what_differs_is_told(self):
        with contextlib.redirect_stdout(io.StringIO()) as out:
            tally = hostile.Tally("rows")
            self.assertTrue(tally.check("one", hostile.Ended(0, None, b""), hostile.Ended(0, b"x", b"")))
            self.assertFalse(tally.check("two", hostile.Ended(3, b"", b"a"), hostile.Ended(-11, b"", b"a"), b"rows"))
            self.assertFalse(tally.check("three", hostile.Ended(4, b"", b""), hostile.Ended(None, b"", b"")))
            self.assertEqual(tally.end(), 1)
        self.assertIn("rows: two\n  input   b'rows'\n  wanted  status 3, out b'', err b'a'\n  got     signal SIGSEGV, out b'', err b'a'\n", out.getvalue())
        self.assertIn("no end in", out.getvalue())
        self.assertTrue(out.getvalue().endswith("rows: 3 runs, 2 differ\n"))

    def test_rows(self):
        program = self.program("#!/bin/sh\ncat >/dev/null; echo 'input: not JSON' >&2; exit 3\n")
        with mock.patch.multiple(hostile, long_cases=list, deeper_cases=list, large_cases=list), mock.patch.object(cases, "refused_trees", list):
            status, out = self.called("rows", "--program", program)
        # each by four commands, and by `unpack`
        right = 4 * sum(text == "not JSON" for _, text in cases.INPUTS)
        runs = 5 * len(cases.INPUTS) + 12
        self.assertEqual((status, out.splitlines()[-1]), (1, "rows: %d runs, %d differ" % (runs, runs - right)))

    def test_words(self):
        program = self.program("#!/bin/sh\necho 'usage: pyc MODE LEVEL PATH' >&2; exit 2\n")
        status, out = self.called("words", "--program", program)
        runs = len(list(hostile.words_cases()))
        self.assertEqual((status, out.splitlines()[-1]), (1, "words: %d runs, %d differ" % (runs, runs - len(hostile.WRONG_WORDS))))

    def test_devices(self):
        known = {data: tuple(wanted) for _, words, data, wanted in hostile.TEXTS if words == hostile.WORDS}
        known[hostile.WIDE] = (0, hostile.WIDE_LISTING, b"")
        known[b""] = (3, b"", b"input: not JSON\n")
        table = "KNOWN = %r\nLONG = (3, b'', b'input: too long\\n')\nUSAGE = (2, b'', %r)\n" % (known, hostile.USAGE_LINE)
        answer = "def answer(words, data):\n    return KNOWN.get(data, LONG) if words == %r else USAGE\n" % (hostile.WORDS,)
        (self.folder / "answers_of_test.py").write_text(table + answer)
        status, out = self.called("devices", "--program", self.program(DEVICES % (sys.executable, str(self.folder))))
        # Python itself takes no folder for its standard input.
        self.assertEqual([it for it in out.splitlines() if it.startswith("devices")][:-1], ["devices: standard input is a folder"], out)
        self.assertTrue(out.endswith(", 1 differ\n"), out)

    def test_devices_that_are_not_looked_at(self):
        with mock.patch.object(hostile, "SECONDS", 2):
            status, out = self.called("devices", "--program", self.program("#!/bin/sh\nhead -c 1000 >/dev/null 2>&1; exit 0\n"))
        self.assertEqual(status, 1)
        for text in ("standard input is closed", "a listing: standard output is full", "a reader that goes after some bytes", "a source that ends late"):
            self.assertIn("devices: %s\n" % text, out)

    def test_files(self):
        for first_bad, status in (0, 0), (1, 1):
            program = self.program(UNPACKS % (sys.executable, str(TOOLS), first_bad))
            self.assertEqual(self.called("files", "--program", program, "--count", 20)[0], status)

    def test_stack(self):
        program = self.program(STACK)
        with mock.patch.object(cases, "deep_trees", lambda: [it for it in DEEP if it.title in ("Set", "Await")]):
            status, out = self.called("stack", "--program", program, "--depth", 20, "--step", 8)
        # It refuses nothing, so the tree that is to be refused differs, compiled and packed.
        self.assertEqual(status, 1)
        for title in "Set", "Set, packed", "Set, reported", "Set, run over values", "Set, run over values and yes", "Await, reported":
            self.assertRegex(out, r"(?m)^  100\d KB  %s$" % title)
        for title in "Await", "Await, packed":
            self.assertIn("stack: %s\n" % title, out)
        self.assertRegex(out, r"stack: 10 runs, 2 differ; the most is 100\d KB, for [^\n]*\n$")

    def compiled(self, early, status):
        """A program that asks for memory."""
        (self.folder / "asks.c").write_text(ALLOCATES % (early, status))
        subprocess.run(["cc", "-o", str(self.folder / "asks"), str(self.folder / "asks.c")], check=True)
        return self.folder / "asks"

    @unittest.skipUnless(shutil.which("cc"), "there is no C compiler")
    def test_allocations(self):
        runs = lambda source: [("listing", hostile.WORDS, b"", hostile.Ended(0, None, None))]
        with mock.patch.object(hostile, "runs_to_refuse", runs):
            for early, ending, differ, without in (0, 6, 0, 3), (1, 6, 3, 3), (0, 1, 3, 0):
                status, out = self.called("allocations", "--program", self.compiled(early, ending))
                last = "allocations: 5 runs, %d differ; 3 allocations refused, %d runs ended with 6" % (differ, without)
                self.assertEqual((status, out.splitlines()[-1]), (int(differ > 0), last))
            status, out = self.called("allocations", "--program", self.compiled(0, 6), "--first", 2, "--last", 2, "--after")
            self.assertEqual((status, out.splitlines()[-1]), (0, "allocations: 2 runs, 0 differ; 1 allocations refused, 1 runs ended with 6"))

    @unittest.skipUnless(shutil.which("cc"), "there is no C compiler")
    def test_allocations_of_single_calls(self):
        calls = lambda program, source: [("one", ["one"], b"", hostile.Ended(0, None, b""))]
        with mock.patch.object(hostile, "calls_to_refuse", calls):
            status, out = self.called("calls", "--program", self.compiled(0, 6))
        self.assertEqual((status, out.splitlines()[-1]), (0, "calls: 5 runs, 0 differ; 3 allocations refused, 3 runs ended with 6"))

    def test_allocations_of_a_program_without_proof(self):
        said = "echo allocations: 9; if [ $3 = 2 ]; then echo early; fi; echo checked: ended status=6 x; echo run=1\n"
        self.program("#!/bin/sh\n" + said).rename(self.folder / "rt")
        with mock.patch.dict("os.environ", PATH="%s:/usr/bin:/bin" % self.folder):
            status, out = self.called("allocations", "--unproved", "--last", 3)
        self.assertEqual(status, 1)
        self.assertIn("allocations: allocation 2\n", out)
        self.assertTrue(out.endswith("allocations: 3 runs, 1 differ; 3 runs ended with 6\n"), out)

    def test_words_of_the_tool(self):
        tool = [sys.executable, "-B", str(TOOLS / "hostile.py")]
        it = subprocess.run([*tool, "rows", "--program", str(self.folder / "none")], stdout=subprocess.PIPE, stderr=subprocess.PIPE)
        self.assertEqual((it.returncode, it.stdout), (1, b""))
        self.assertIn(b"sh pyc.sh --prove builds pyc, and rt ci both", it.stderr)
        for words in [], ["row"], ["allocations", "--first", "0"], ["calls", "--unproved"], ["stack", "--limit", "x"]:
            it = subprocess.run([*tool, *words], stdout=subprocess.PIPE, stderr=subprocess.PIPE)
            self.assertEqual((it.returncode, it.stdout), (2, b""), words)
        parser = hostile.parser_of_words()
        kinds = next(it for it in parser._actions if isinstance(it, argparse._SubParsersAction)).choices
        self.assertEqual(sorted(kinds), ["allocations", "calls", "devices", "files", "rows", "stack", "words"])
        for name, kind in kinds.items():
            self.assertTrue(all(it.help for it in kind._actions), name)


DEEP = list(cases.deep_trees())

if __name__ == "__main__":
    unittest.main()
