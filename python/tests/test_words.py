#!/usr/bin/env python3
"""Tests of the words: how they are parsed, that --help, the manual and the completions tell each option, what is refused, and
how the command ends. A small program stands in the place of pyc where one is wanted."""
import json
import os
import pathlib
import re
import shutil
import subprocess
import sys
import unittest

ROOT = pathlib.Path(__file__).resolve().parent.parent.parent
sys.path.insert(0, str(ROOT / "python"))
from pyc import cli, completions, manual, options, program
from pyc.errors import WrongWords
from pyc.options import Command, Option

COMMANDS = cli.commands()
PROBE = Command(
    "probe",
    "FILE..",
    "Probes.",
    (
        Option(("-j", "--jobs"), "how many", "N", default="1"),
        Option(("-k", "--kind"), "which", "KIND", ("one", "two")),
        Option(("-x",), "what not", "REGEXP", many=True),
        Option(("-q", "--quiet-please"), "quiet"),
    ),
)


def call(*words, data=b""):
    """The status, the output and the errors of a call of the package."""
    command = [sys.executable, "-I", "-S", str(ROOT / "python" / "pyc" / "__main__.py"), *words]
    ended = subprocess.run(command, input=data, stdout=subprocess.PIPE, stderr=subprocess.PIPE)
    return ended.returncode, ended.stdout.decode("utf-8"), ended.stderr.decode("utf-8")


class Parsing(unittest.TestCase):
    def test_values(self):
        found = options.parse(PROBE, ["-j4", "a", "-x", "b", "--quiet-please", "-xc", "--kind=two", "--", "-q"])
        self.assertEqual((found.jobs, found.x, found.quiet_please, found.kind, found.files), ("4", ["b", "c"], True, "two", ["a", "-q"]))
        found = options.parse(PROBE, [])
        self.assertEqual((found.jobs, found.x, found.quiet_please, found.kind, found.files), ("1", [], False, None, []))

    def test_the_first_word_may_end_the_options(self):
        found = options.parse(PROBE._replace(is_first_last=True), ["-q", "a", "-q", "--kind", "x"])
        self.assertEqual(found.files, ["a", "-q", "--kind", "x"])

    def test_wrong_words_are_named(self):
        for words, wanted in (
            (["-z"], "there is no option -z"),
            (["--zeal=1"], "there is no option --zeal"),
            (["--kinds=one"], "there is no option --kinds; --kind is one"),
            (["-j"], "-j wants a word after it"),
            (["--kind"], "--kind wants a word after it"),
            (["--quiet-please=no"], "--quiet-please is followed by no word"),
            (["-k", "three"], "-k is followed by one or two, and not by 'three'"),
        ):
            with self.assertRaises(WrongWords) as raised:
                options.parse(PROBE, words)
            self.assertEqual(str(raised.exception), wanted)

    def test_help(self):
        with self.assertRaises(options.HelpWanted):
            options.parse(PROBE, ["a", "--help"])
        text = options.help_of(PROBE)
        self.assertTrue(text.startswith("usage: pyc probe [OPTION..] FILE..\n\nProbes.\n\n  -j, --jobs N        how many\n"), text)
        self.assertIn("\n  -q, --quiet-please  quiet\n", text)
        longer = options.help_of(PROBE._replace(options=(Option(("-w", "--what-is-long"), "long", "WORD"),)))
        self.assertIn("\n  -w, --what-is-long WORD\n                      long\n", longer)


class Tables(unittest.TestCase):
    """Each option that --help tells is in the manual and in the completions of each shell."""

    def names(self, command):
        return [name for option in (*command.options, options.HELP) for name in option.names]

    def test_help_tells_each_command_and_option(self):
        overview = manual.overview(COMMANDS)
        for command in COMMANDS:
            text = overview if command.name == "compile" else options.help_of(command)
            self.assertLessEqual(max(map(len, overview.splitlines())), 100)
            for name in self.names(command):
                self.assertRegex(text, r"(?m)^  .*(?<![-\w])%s\b" % re.escape(name))
            if command.name != "compile":
                self.assertRegex(overview, r"(?m)^  %s\b" % command.name)

    def test_the_manual_has_each(self):
        text = manual.man_page(COMMANDS, "1.2.3")
        for command in COMMANDS:
            if command.name != "compile":
                self.assertIn("\n.SS %s" % command.name, text)
            for name in self.names(command):
                self.assertIn("\\fB%s\\fR" % name.replace("-", "\\-"), text)
        if shutil.which("man") and shutil.which("groff"):
            ended = subprocess.run(["man", "--warnings", "-l", "-"], input=text.encode(), stdout=subprocess.PIPE, stderr=subprocess.PIPE, env=dict(os.environ, LC_ALL="C"))
            self.assertEqual((ended.returncode, ended.stderr), (0, b""))

    def test_completions_have_each(self):
        for command in COMMANDS:
            for name in self.names(command):
                word = "-l " + name[2:] if name.startswith("--") else "-s " + name[1:]
                wanted = {"bash": r'(?m)^        %s\) words=".*(?<![-\w])%s[ "]' % ("\\*" if command.name == "compile" else command.name, name)}
                wanted["zsh"] = r"'\*?%s\[" % name
                wanted["fish"] = r"(?m)^complete -c pyc -n '(not )?__fish_seen_subcommand_from .*%s.*' .*%s\b" % ("" if command.name == "compile" else command.name, word)
                for shell, pattern in wanted.items():
                    self.assertRegex(completions.SHELLS[shell](COMMANDS), pattern)

    def test_shells_read_their_completions(self):
        for shell, make in completions.SHELLS.items():
            file = shutil.which(shell)
            if file:
                ended = subprocess.run([file, "-n"], input=make(COMMANDS).encode(), stderr=subprocess.PIPE)
                self.assertEqual((ended.returncode, ended.stderr), (0, b""), shell)

    @unittest.skipUnless(shutil.which("bash"), "there is no bash")
    def test_bash_completes(self):
        def completed(*words):
            line = "COMP_WORDS=(pyc %s); COMP_CWORD=%d; _pyc; echo ${COMPREPLY[@]}" % (" ".join("'%s'" % it for it in words), len(words))
            ended = subprocess.run(["bash", "-c", completions.bash(COMMANDS) + line], stdout=subprocess.PIPE, cwd=str(ROOT))
            return ended.stdout.decode().split()

        self.assertIn("rows", completed("r"))
        self.assertEqual(completed("-m", ""), ["exec", "eval", "single", "block"])
        self.assertEqual(completed("rows", "-m", "f"), ["func_type"])
        self.assertEqual(completed("rows", "--m"), ["--mode"])
        self.assertEqual(completed("-o", "READ"), ["README.md"])


class Ends(unittest.TestCase):
    def test_help_of_each_command(self):
        for command in COMMANDS:
            words = [command.name, "--help"] if command.name != "compile" else ["--help"]
            status, out, told = call(*words)
            self.assertEqual((status, told), (0, ""), words)
            self.assertTrue(out.startswith("usage: pyc "), out)

    def test_words_of_the_program_are_told_apart(self):
        for words, wanted in (
            (["step", "exec", "0", "m.py"], "'step' is followed by MODE LEVEL PATH SCRIPT, and here by 3 words; a file of that name is ./step"),
            (["sample", "200000", "0"], "there is no program of '200000' statements: a number below 131072 is wanted"),
            (["pack", "exce", "0", "m.py"], "there is no mode 'exce': exec, eval, single or block"),
            (["exec", "4", "m.py"], "there is no level '4': 0, 1 or 2; a file of the name exec is ./exec"),
            (["names"], "'names' is followed by a path; a file of that name is ./names"),
            (["unpack", "a"], "'unpack' is followed by no word, and here by 1 word; a file of that name is ./unpack"),
            (["completions", "tcsh"], "'completions' is followed by bash, zsh or fish; a file of that name is ./completions"),
            (["--explain", "R000"], "there is no code 'R000': they are R103, R101"),
        ):
            status, out, told = call(*words)
            self.assertEqual((status, out), (2, ""), words)
            self.assertTrue(told.startswith("pyc: " + wanted), told)
            self.assertEqual(told.count("\n"), 2)

    def test_a_closed_or_full_output_is_told_once(self):
        starter = [sys.executable, "-I", "-S", str(ROOT / "python" / "pyc" / "__main__.py")]
        source = str(ROOT / "examples" / "closure.py")
        many = [source] * 3 if os.access(program.PROGRAM, os.X_OK) else ["--help"]
        for words in (["--help"], ["completions", "bash"], ["rows", source], many):
            line = " ".join("'%s'" % it for it in (*starter, *words))
            for to in ">&-", ">/dev/full":
                if to == ">&-" or os.path.exists("/dev/full"):
                    ended = subprocess.run(["sh", "-c", line + to], stderr=subprocess.PIPE)
                    self.assertEqual(ended.returncode, 5, (words, to))
                    self.assertEqual(ended.stderr.count(b"\n"), 1, ended.stderr)

    def test_a_closed_input_is_a_read_that_failed(self):
        line = "'%s' -I -S '%s' rows <&-" % (sys.executable, ROOT / "python" / "pyc" / "__main__.py")
        ended = subprocess.run(["sh", "-c", line], stderr=subprocess.PIPE)
        self.assertEqual(ended.returncode, 4, ended.stderr)

    def test_rows_and_names_of_sources(self):
        self.assertEqual(call("rows", "-m", "eval", data=b"a"), (0, '[["Name",1,1,"a"],["Expression",0]]\n', ""))
        if not os.access(program.PROGRAM, os.X_OK):
            self.skipTest("the program is not built")
        source = b"def f(x):\n    return lambda: x\n"
        line = "captured top/f/lambda x from top/f\n"
        self.assertEqual(call("names", "--source", "-", data=source), (0, line, ""))
        rows = call("rows", data=source)[1].encode()
        self.assertEqual(call("names", "m.py", data=rows), (0, line, ""))
        status, out, told = call("names", "--json", "m.py", data=rows)
        wanted = {"kind": "captured", "scope": "top/f/lambda", "name": "x", "other": "top/f", "file": "m.py"}
        self.assertEqual((status, json.loads(out), told), (0, wanted, ""))

    def test_json(self):
        if not os.access(program.PROGRAM, os.X_OK):
            self.skipTest("the program is not built")
        status, out, told = call("--json", "-m", "eval", "-", data=b"1")
        self.assertEqual((status, told), (0, ""))
        found = json.loads(out)
        self.assertEqual((found["name"], found["path"], found["units"], found["constants"]), ("<module>", "<stdin>", [["ReturnConst", 0, 1, 1]], [1]))
        status, out, told = call("--json", "-", data=b"a = 1.5\n")
        wanted = {"file": "<stdin>", "row": 1, "column": 5, "code": "R104", "text": "rows have no word for a float", "status": 1}
        refused = json.loads(told)
        self.assertEqual((status, out, {key: refused[key] for key in wanted}), (1, "", wanted))


if __name__ == "__main__":
    unittest.main()
