#!/usr/bin/env python3
"""Tests of `build`, of stamps and of workers, with a small program in the place of pyc."""
from __future__ import annotations

import os
import pathlib
import re
import signal
import stat
import subprocess
import sys
import tempfile
import time
import unittest

HERE = pathlib.Path(__file__).resolve().parent
sys.path[:0] = [str(HERE.parent), str(HERE)]

from in_process import call
from pyc import freshness, rows, verified
from pyc.errors import Failed
from pyc.workers import Lost, results

ROOT = HERE.parent.parent
PROGRAM = ROOT / "crates" / "pyc" / "out" / "pyc"

# It stands for the program: it notes its words and its process, refuses a `break`, waits at a path with `slow` until it
# may go on, ends the process that called it at a path with `doom`, and else writes its words and the size of its input.
STAND_IN = """#!/bin/sh
echo "$$ $*" >>'%(folder)s/log'
input=$(cat)
case $input in
    *'"Break"'*) echo "1:1 'break' outside loop" >&2; exit 1 ;;
esac
case $* in
    *slow*) while [ ! -e '%(folder)s/go' ]; do sleep 0.02; done ;;
    *doom*) kill -9 $PPID ;;
    *gone*) kill -9 $$ ;;
esac
printf '%%s;' "$@"
echo "${#input}"
"""


def wait_until(is_so, seconds=30):
    """Waits until something is so; whether it came."""
    end = time.monotonic() + seconds
    while time.monotonic() < end:
        if is_so():
            return True
        time.sleep(0.01)
    return False


def without_notes(told):
    """What was told, without the lines that say what kind of refusal it is."""
    return re.sub(r"(?m)^note: .*\n", "", told)


def is_there(number):
    """Whether a process is there and runs."""
    try:
        os.kill(number, 0)
        with open("/proc/%d/stat" % number) as it:
            return it.read().rpartition(")")[2].split()[0] not in "ZX"
    except ProcessLookupError:
        return False
    except OSError:
        return os.path.isdir("/proc/self")


class Building(unittest.TestCase):
    """Each test has a folder with sources, and a program that notes its starts."""

    def setUp(self):
        folder = tempfile.TemporaryDirectory()
        self.addCleanup(folder.cleanup)
        self.folder = pathlib.Path(folder.name).resolve()
        self.program = self.folder / "program"
        self.program.write_text(STAND_IN % {"folder": self.folder})
        self.program.chmod(0o755)
        self.lib = self.folder / "lib"
        for name in ("a.py", "b.py", "in/c.py"):
            self.write(name, "x = %r\n" % name)

    def write(self, name, text):
        """Writes a source."""
        path = self.lib / name
        path.parent.mkdir(parents=True, exist_ok=True)
        path.write_text(text)

    def words(self, *words):
        return [sys.executable, "-B", "-m", "pyc", "build", "--program", str(self.program), *map(str, words)]

    def environment(self):
        return dict(os.environ, PYTHONPATH=str(HERE.parent), NO_COLOR="1")

    def build(self, *words):
        """The status of a build, what it wrote, and what it told but for notes. It is a call in this process."""
        status, out, told = call(["build", "--program", str(self.program), *words], str(self.folder))
        return status, out, without_notes(told)

    def starts(self):
        """The words of each start of the program since this was asked before."""
        log = self.folder / "log"
        lines = log.read_text().splitlines() if log.exists() else []
        log.write_text("")
        return [it.partition(" ")[2] for it in lines]

    def made(self):
        """The files that are made, by their paths in the folder of sources, without stamps."""
        return {str(it.relative_to(self.lib)): it.read_bytes() for it in self.lib.rglob("*.code")}


class Freshness(Building):
    def test_what_is_fresh_is_not_compiled_again(self):
        self.assertEqual(self.build("lib"), (0, "3 files: 3 compiled\n", ""))
        self.assertEqual(self.starts(), ["pack exec 0 lib/a.py", "pack exec 0 lib/b.py", "pack exec 0 lib/in/c.py"])
        made = self.made()
        self.assertEqual(sorted(made), ["__pyccode__/a.exec-0.code", "__pyccode__/b.exec-0.code", "in/__pyccode__/c.exec-0.code"])
        size = len(rows.rows_text(b"x = 'a.py'\n"))
        self.assertEqual(made["__pyccode__/a.exec-0.code"], b"pack;exec;0;lib/a.py;%d\n" % size)
        os.utime(self.lib / "a.py", (1, 1))
        self.assertEqual(self.build("lib"), (0, "3 files: 3 fresh\n", ""))
        self.assertEqual(self.build("-j", "4", "lib/a.py", "lib"), (0, "3 files: 3 fresh\n", ""))
        self.assertEqual(self.starts(), [])

    def test_what_makes_a_file_stale(self):
        self.build("lib")
        self.starts()
        self.write("a.py", "y = 1\n")
        self.assertEqual(self.build("lib"), (0, "3 files: 1 compiled, 2 fresh\n", ""))
        self.assertEqual(self.starts(), ["pack exec 0 lib/a.py"])
        self.assertEqual(self.build("-O", "2", "lib")[1], "3 files: 3 compiled\n")
        self.assertEqual(self.build("-m", "block", "lib")[1], "3 files: 3 compiled\n")
        self.assertEqual(self.build("lib")[1], "3 files: 3 fresh\n")
        self.assertEqual(self.build("--strip", "lib", "lib")[1], "3 files: 3 compiled\n")
        self.assertEqual(self.starts()[-3:], ["pack exec 0 a.py", "pack exec 0 b.py", "pack exec 0 in/c.py"])
        code = self.lib / "__pyccode__" / "a.exec-0.code"
        code.write_bytes(code.read_bytes()[:-1])
        self.assertEqual(self.build("--strip", "lib/", "lib")[1], "3 files: 1 compiled, 2 fresh\n")
        with open(self.program, "a") as it:
            it.write("# another program\n")
        self.assertEqual(self.build("--strip", "lib", "lib")[1], "3 files: 3 compiled\n")
        self.assertEqual(self.build("-f", "--strip", "lib", "lib")[1], "3 files: 3 compiled\n")

    def test_a_stamp_that_is_none_is_stale(self):
        self.build("lib")
        stamp = self.lib / "__pyccode__" / "a.exec-0.code.stamp"
        for text in ("", "[]", "{}", '{"result": 1}', '{"result": {"made": 1}}', "\xff"):
            stamp.write_text(text, encoding="latin-1")
            self.assertEqual(self.build("lib")[1], "3 files: 1 compiled, 2 fresh\n")

    def test_the_file_of_one_recipe_with_the_stamp_of_another(self):
        target = str(self.folder / "x.code")
        one = freshness.Recipe("code", "exec", "0", "program", "1", "reader")
        other = one._replace(program_sum="2")
        freshness.write(target, one, "x.py", b"1", b"made by one")
        self.assertEqual(freshness.fresh(target, one, "x.py", b"1"), freshness.Made(freshness.sum_of(b"made by one")))
        self.assertIsNone(freshness.fresh(target, other, "x.py", b"1"))
        self.assertIsNone(freshness.fresh(target, one, "y.py", b"1"))
        self.assertIsNone(freshness.fresh(target, one, "x.py", b"2"))
        freshness.replace(target, b"made by another")
        self.assertIsNone(freshness.fresh(target, one, "x.py", b"1"))
        refused = freshness.Unmade("no", "R0", "a note", 1, 2, 3)
        freshness.write(target, one, "x.py", b"1", refused)
        self.assertEqual(freshness.fresh(target, one, "x.py", b"1"), refused)
        self.assertFalse(os.path.exists(target))
        freshness.replace(target, b"made by another")
        self.assertIsNone(freshness.fresh(target, one, "x.py", b"1"))

    def test_check_writes_nothing(self):
        self.assertEqual(self.build("--check", "lib"), (1, "lib/a.py: stale\nlib/b.py: stale\nlib/in/c.py: stale\n3 files: 3 stale\n", ""))
        self.assertEqual((self.starts(), self.made()), ([], {}))
        self.write("b.py", "break\n")
        self.build("lib")
        self.starts()
        self.assertEqual(self.build("--check", "lib"), (0, "3 files: 2 fresh, 1 refused\n", ""))
        self.write("a.py", "y = 1\n")
        before = self.made()
        self.assertEqual(self.build("--check", "lib"), (1, "lib/a.py: stale\n3 files: 1 stale, 1 fresh, 1 refused\n", ""))
        self.assertEqual(self.build("--check", "-q", "lib"), (1, "", ""))
        self.assertEqual((self.starts(), self.made()), ([], before))


class Refusing(Building):
    def test_a_refusal_is_known_again(self):
        self.build("lib")
        self.write("b.py", "break\n")
        self.write("d.py", "x = 1.5\n")
        told = "lib/b.py:1:1: 'break' outside loop\nbreak\n^\nlib/d.py:1:5: rows have no word for a float\nx = 1.5\n    ^\n"
        self.assertEqual(self.build("-j", "3", "lib"), (1, "4 files: 2 fresh, 2 refused\n", told))
        self.assertEqual(sorted(self.made()), ["__pyccode__/a.exec-0.code", "in/__pyccode__/c.exec-0.code"])
        self.starts()
        self.assertEqual(self.build("lib"), (1, "4 files: 2 fresh, 2 refused\n", told))
        self.assertEqual(self.build("-q", "lib"), (1, "", told))
        self.assertEqual(self.starts(), [])
        self.write("b.py", "x = 1\n")
        self.assertEqual(self.build("-q", "lib/b.py"), (0, "", ""))

    def test_what_is_not_there_and_what_is_not_written(self):
        self.assertEqual(self.build("no.py", "lib/a.py"), (4, "1 file: 1 compiled\n", "no.py: No such file or directory\n"))
        (self.lib / "in" / "__pyccode__").write_text("a file in the way")
        status, out, told = self.build("-j", "2", "lib")
        self.assertEqual((status, out), (5, "3 files: 1 compiled, 1 fresh, 1 failed\n"))
        self.assertRegex(told, r"^lib/in/__pyccode__/c\.exec-0\.code: [A-Z].+\n$")
        self.write("in/c.py", "break\n")
        status, out, told = self.build("lib")
        self.assertEqual((status, out), (5, "3 files: 2 fresh, 1 refused\n"))
        self.assertRegex(told, r"^lib/in/__pyccode__/c\.exec-0\.code: [A-Z].+\nlib/in/c\.py:1:1: 'break' outside loop\nbreak\n\^\n$")

    def test_what_is_no_file(self):
        os.mkfifo(str(self.lib / "pipe.py"))
        (self.lib / "in" / "gone.py").symlink_to("nowhere.py")
        self.assertEqual(self.build("lib"), (4, "4 files: 3 compiled, 1 failed\n", "lib/in/gone.py: No such file or directory\n"))

    @unittest.skipIf(os.name == "nt" or os.geteuid() == 0, "a folder can be written by this user whatever its mode is")
    def test_a_folder_that_can_only_be_read(self):
        (self.lib / "in").chmod(stat.S_IRUSR | stat.S_IXUSR)
        self.addCleanup((self.lib / "in").chmod, 0o755)
        status, out, told = self.build("lib")
        self.assertEqual((status, out), (5, "3 files: 2 compiled, 1 failed\n"))
        self.assertEqual(told, "lib/in/__pyccode__/c.exec-0.code: Permission denied\n")

    def test_a_name_that_is_not_utf_8(self):
        path = os.fsencode(str(self.lib)) + b"/\xff.py"
        try:
            with open(path, "wb") as it:
                it.write(b"x = 1\n")
        except OSError:
            self.skipTest("this file system has no such names")
        self.assertEqual(self.build("lib"), (2, "4 files: 3 compiled, 1 failed\n", "lib/\\xff.py: the name is not UTF-8\n"))
        self.assertEqual(self.build("lib")[1], "4 files: 3 fresh, 1 failed\n")

    def test_a_program_that_ends_otherwise(self):
        self.write("gone.py", "x = 1\n")
        self.assertEqual(self.build("lib/gone.py"), (137, "1 file: 1 failed\n", "lib/gone.py: the program was ended by signal 9\n"))
        self.program.unlink()
        status, out, told = self.build("lib")
        self.assertEqual((status, out), (127, ""))
        self.assertEqual(told, "%s: there is no such program\n" % self.program)


class Stopping(Building):
    """A build that is stopped while the program works on one of four sources."""

    def started(self, *words):
        """A build that has come to the slow source."""
        self.write("slow.py", "x = 1\n")
        process = subprocess.Popen(self.words(*words), cwd=self.folder, env=self.environment(), stdout=subprocess.PIPE, stderr=subprocess.PIPE, start_new_session=True)
        self.addCleanup(process.stdout.close)
        self.addCleanup(process.stderr.close)
        self.addCleanup((self.folder / "go").touch)
        log = self.folder / "log"
        self.assertTrue(wait_until(lambda: log.exists() and "slow" in log.read_text()))
        return process

    def check_rest(self):
        """Nothing of a stopped build is left: no process, no half file. The next one does what is left."""
        numbers = [int(it.split()[0]) for it in (self.folder / "log").read_text().splitlines() if "slow" in it]
        self.assertTrue(wait_until(lambda: not any(map(is_there, numbers))), "the program still runs")
        for name, data in self.made().items():
            self.assertRegex(data, rb"^pack;exec;0;lib/(a|b|in/c|slow)\.py;\d+\n$", name)
        (self.folder / "go").touch()
        self.assertEqual(self.build("lib")[0], 0)
        self.assertEqual(self.build("lib")[1], "4 files: 4 fresh\n")

    def check_interrupt(self, jobs):
        """An interrupt, as ^C sends it to all, ends a build at once."""
        process = self.started("-j", jobs, "lib")
        os.killpg(process.pid, signal.SIGINT)
        _, told = process.communicate(timeout=60)
        self.assertEqual((process.returncode, told), (130, b""))
        self.assertEqual([it.name for it in self.lib.rglob("*.new")], [])
        self.check_rest()

    def test_an_interrupt(self):
        self.check_interrupt("1")

    def test_an_interrupt_of_workers(self):
        self.check_interrupt("3")

    def check_end(self, number):
        """Where the process that was called is ended, its workers end with what they have begun."""
        process = self.started("-j", "3", "lib")
        process.send_signal(number)
        process.wait(timeout=60)
        (self.folder / "go").touch()
        self.check_rest()

    def test_its_end(self):
        self.check_end(signal.SIGTERM)

    def test_its_sudden_end(self):
        self.check_end(signal.SIGKILL)

    def test_what_a_killed_call_left_is_removed(self):
        self.build("lib")
        ended = subprocess.run([sys.executable, "-c", "import os; print(os.getpid())"], stdout=subprocess.PIPE)
        folder = self.lib / "__pyccode__"
        old, young, running = (folder / (".it.code.%d.new" % it) for it in (int(ended.stdout), int(ended.stdout) + 2**22, os.getpid()))
        for it in (old, young, running):
            it.write_bytes(b"half")
        for it in (old, running):
            os.utime(it, (1, 1))
        self.write("a.py", "y = 1\n")
        self.assertEqual(self.build("lib")[1], "3 files: 1 compiled, 2 fresh\n")
        self.assertEqual(sorted(folder.glob(".*.new")), sorted([young, running]))

    def test_two_at_once(self):
        for at in range(12):
            self.write("m%d.py" % at, "x = %d\n" % at)
        calls = [subprocess.Popen(self.words("-j", "2", *more, "lib"), cwd=self.folder, env=self.environment(), stdout=subprocess.PIPE, stderr=subprocess.PIPE) for more in ([], [], ["-f"])]
        for it in calls:
            out, told = it.communicate(timeout=120)
            self.assertEqual((it.returncode, told), (0, b""))
            self.assertTrue(out.startswith(b"15 files: "), out)
        self.assertEqual(self.build("--check", "lib")[1], "15 files: 15 fresh\n")
        for name, data in self.made().items():
            self.assertRegex(data, rb"^pack;exec;0;lib/[\w/]+\.py;\d+\n$", name)

    def test_a_worker_that_is_ended(self):
        self.write("doom.py", "x = 1\n")
        status, out, told = self.build("-j", "2", "lib")
        self.assertEqual((status, out), (137, "4 files: 3 compiled, 1 failed\n"))
        self.assertEqual(told, "lib/doom.py: the process that compiled it was ended\n")


class Placing(Building):
    def test_another_folder(self):
        self.assertEqual(self.build("-d", "out/there", "-j", "2", "lib", "lib/b.py")[1], "3 files: 3 compiled\n")
        found = sorted(str(it.relative_to(self.folder / "out")) for it in (self.folder / "out").rglob("*.code"))
        self.assertEqual(found, ["there/a.exec-0.code", "there/b.exec-0.code", "there/in/c.exec-0.code"])
        self.assertEqual(self.made(), {})

    def test_two_sources_for_one_file(self):
        (self.folder / "other").mkdir()
        (self.folder / "other" / "a.py").write_text("x = 1\n")
        self.assertEqual(self.build("-d", "out", "lib", "other"), (2, "", "pyc: lib/a.py and other/a.py would both be written to out/a.exec-0.code\npyc: 'pyc build --help' lists the words\n"))
        self.assertFalse((self.folder / "out").exists())

    def test_a_source_where_a_file_would_be(self):
        self.write("a.exec-0.txt", "x = 1\n")
        told = self.build("--listings", "-d", "lib", "lib/a.py", "lib/a.exec-0.txt")
        self.assertEqual((told[0], told[2].splitlines()[0]), (2, "pyc: lib/a.exec-0.txt is a source, and would be overwritten"))
        self.assertEqual((self.lib / "a.exec-0.txt").read_text(), "x = 1\n")

    def test_what_is_left_out(self):
        (self.lib / "link").symlink_to(self.lib / "in")
        (self.lib / "__pycache__").mkdir()
        self.write("__pycache__/d.py", "x = 1\n")
        self.assertEqual(self.build("-x", "/b|c.py$", "lib")[1], "1 file: 1 compiled\n")
        self.assertEqual(self.build("-x", ".", "lib"), (0, "0 files\n", ""))
        self.assertEqual(self.build("lib")[1], "3 files: 2 compiled, 1 fresh\n")

    def test_wrong_words(self):
        for words, told in (
            ([], "build wants a file or a folder"),
            (["-"], "build reads files and no standard input; a file of that name is written ./-"),
            (["-j", "x", "lib"], "-j is followed by a number, and not by 'x'"),
            (["-x", "(", "lib"], "'(' is no regular expression: missing ), unterminated subpattern at position 0"),
            (["--strip", "no", "lib"], "no source stands below no, which --strip names"),
            (["-O", "3", "lib"], "-O is followed by 0, 1 or 2, and not by '3'"),
            (["--check", "--listings", "lib"], "--check has nothing to look at, since listings are not kept without -d"),
        ):
            status, out, said = self.build(*words)
            self.assertEqual((status, out, said.splitlines()[0]), (2, "", "pyc: " + told))
        self.assertEqual(self.starts(), [])


class Listings(Building):
    def test_they_come_in_the_order_of_the_sources(self):
        for at in range(9):
            self.write("m%d.py" % at, "x = %d\n" * at % tuple(range(at)))
        self.write("m4.py", "break\n")
        one, four = self.build("--listings", "lib"), self.build("--listings", "-j", "4", "lib")
        self.assertEqual(one, four)
        self.assertEqual((one[0], one[2]), (1, "lib/m4.py:1:1: 'break' outside loop\nbreak\n^\n"))
        named = re.findall("^exec;0;(.*);", one[1], re.M)
        self.assertEqual(named, ["lib/a.py", "lib/b.py", *("lib/m%d.py" % it for it in range(9) if it != 4), "lib/in/c.py"])
        self.assertEqual(self.made(), {})

    def test_files_of_listings(self):
        self.assertEqual(self.build("--listings", "-d", "out", "lib")[1], "3 files: 3 compiled\n")
        self.assertTrue((self.folder / "out" / "in" / "c.exec-0.txt").read_text().startswith("exec;0;lib/in/c.py;"))
        self.assertEqual(self.build("--listings", "-d", "out", "--check", "lib"), (0, "3 files: 3 fresh\n", ""))
        self.assertEqual(self.build("-d", "out", "lib")[1], "3 files: 3 compiled\n")


class Terminals(Building):
    def test_a_line_of_progress(self):
        try:
            import pty
        except ImportError:
            self.skipTest("there are no terminals")
        mine, theirs = pty.openpty()
        self.write("b.py", "break\n")
        process = subprocess.Popen(self.words("lib"), cwd=self.folder, env=self.environment(), stdout=subprocess.PIPE, stderr=theirs)
        os.close(theirs)
        told = b""
        while True:
            try:
                part = os.read(mine, 4096)
            except OSError:
                break
            if not part:
                break
            told += part
        os.close(mine)
        out = process.communicate()[0]
        self.assertEqual((process.returncode, out), (1, b"3 files: 2 compiled, 1 refused\n"))
        lines = told.decode().split("\r")
        self.assertIn("[1/3] lib/a.py\x1b[K", lines)
        self.assertIn("[3/3] lib/in/c.py\x1b[K", lines)
        self.assertEqual(lines[-1], "\x1b[K")
        self.assertIn("\x1b[Klib/b.py:1:1: 'break' outside loop", lines)


class Workers(unittest.TestCase):
    def test_results(self):
        for count in (1, 2, 5):
            self.assertEqual(sorted(results(doubled, [3, 1, 2], count)), [(0, 6), (1, 2), (2, 4)])
        self.assertEqual(list(results(doubled, [], 4)), [])

    def test_a_worker_that_ends(self):
        found = dict(results(ends_at_two, [1, 2, 3, 4], 2))
        self.assertIsInstance(found.pop(1), Lost)
        self.assertEqual(found, {0: 1, 2: 3, 3: 4})


def doubled(number):
    return 2 * number


def ends_at_two(number):
    if number == 2:
        os._exit(3)
    return number


@unittest.skipUnless(PROGRAM.exists(), "the program is not built")
class WithTheProgram(unittest.TestCase):
    """The bytes are those of `pack`, and what `unpack` verifies is read."""

    def test_the_examples(self):
        with tempfile.TemporaryDirectory() as to:
            status, _, told = call(["build", "-j", "2", "-d", to, "--strip", "examples", "examples"], str(ROOT))
            self.assertIn(status, (0, 1), told)
            found = sorted(pathlib.Path(to).glob("*.code"))
            self.assertGreaterEqual(len(found), 5)
            for it in found:
                name = it.name.replace(".exec-0.code", ".py")
                source = rows.rows_text((ROOT / "examples" / name).read_bytes()).encode()
                packed = subprocess.run([PROGRAM, "pack", "exec", "0", name], input=source, stdout=subprocess.PIPE)
                self.assertEqual(it.read_bytes(), packed.stdout)
                code = verified.verified_code(it.read_bytes(), it.name, str(PROGRAM))
                self.assertEqual((code.source_path, code.to_bytes()), (name, packed.stdout))
                listing = (ROOT / "examples" / name).with_suffix(".txt").read_text()
                self.assertEqual(verified.unpacked(it.read_bytes(), by=str(PROGRAM)), listing)

    def test_listings_are_those_of_compile(self):
        files = ["examples/%s.py" % it for it in ("closure", "handlers", "function", "classes")]
        self.assertEqual(call(["build", "--listings", "-j", "3", *files], str(ROOT)), call(files, str(ROOT)))

    def test_what_does_not_verify(self):
        with self.assertRaises(Failed) as raised:
            verified.verified_code(b"PYC", "m.code", str(PROGRAM))
        self.assertEqual((str(raised.exception), raised.exception.status), ("m.code: input: bad code file at 0\n", 3))


if __name__ == "__main__":
    unittest.main()
