#!/usr/bin/env python3
"""Tests of the first build: what it tells, that another call waits for it, that nothing is left where it is ended, and that the
next call goes on. A small program stands in the place of rt."""
import os
import pathlib
import shutil
import signal
import subprocess
import sys
import time
import unittest

sys.path.insert(0, str(pathlib.Path(__file__).resolve().parent))
import test_pyc

# It proves a crate whose name stands in the file `quick`, and sleeps at the others, in a process of its own, as rt does.
SLEEPER = """#!/bin/sh
[ "$1" = version ] && { echo kit-1; exit; }
name=${PWD##*/}
echo "$1 $name" >>"%(root)s/calls"
case $1 in
    run) [ -e "%(root)s/slow" ] || { mkdir -p out && cp "%(program)s" out/pyc; exit; } ;;
esac
[ -e out/rlib/stamp ] && exit
if grep -qx "$name" "%(root)s/quick"; then
    mkdir -p out/rlib && echo proved >out/rlib/stamp && echo "all of $name is proved"
    exit
fi
sleep 600.%(mark)d &
wait
"""


def sleepers(mark):
    """The processes that sleep for a test."""
    found = []
    for file in pathlib.Path("/proc").glob("[0-9]*/cmdline"):
        try:
            if b"600.%d" % mark in file.read_bytes():
                found.append(int(file.parent.name))
        except OSError:
            continue
    return found


def until(condition, seconds=60):
    """Waits until a condition holds. Whether it does."""
    end = time.monotonic() + seconds
    while time.monotonic() < end:
        if condition():
            return True
        time.sleep(0.05)
    return False


@unittest.skipUnless(os.path.exists("/proc/self/cmdline"), "there is no /proc")
class FirstBuild(test_pyc.Checkout):
    def setUp(self):
        super().setUp()
        self.mark = os.getpid()
        words = {"root": self.root, "program": self.folder / "program", "mark": self.mark}
        test_pyc.write_program(self.bin / "rt", SLEEPER % words)
        (self.bin / "python3").symlink_to(sys.executable)
        (self.root / "quick").write_text("low\n")
        self.addCleanup(self.end_sleepers)

    def end_sleepers(self):
        for number in sleepers(self.mark):
            os.kill(number, signal.SIGKILL)

    def start(self, path=None):
        """Begins a call that builds, in the background, as another shell would."""
        env = dict(os.environ, PATH="%s%s%s" % (self.bin, os.pathsep, os.environ["PATH"]) if path is None else path)
        words = [shutil.which("sh"), str(self.root / "pyc.sh"), "exec", "0", "x"]
        pipes = {"stdin": subprocess.DEVNULL, "stdout": subprocess.PIPE, "stderr": subprocess.PIPE}
        call = subprocess.Popen(words, cwd=str(self.folder), env=env, **pipes)
        self.addCleanup(call.stderr.close)
        self.addCleanup(call.stdout.close)
        self.addCleanup(call.wait)
        self.addCleanup(call.kill)
        return call

    def test_what_ends_the_call_ends_all(self):
        for number in (signal.SIGTERM, signal.SIGHUP, signal.SIGINT):
            call = self.start()
            self.assertTrue(until(lambda: sleepers(self.mark)))
            call.send_signal(number)
            self.assertEqual(call.wait(60), 128 + number)
            self.assertTrue(until(lambda: not sleepers(self.mark), 5))
            self.assertEqual(list((self.root / "crates" / "pyc" / "out").glob("lanes-*")), [])

    def test_what_ends_the_last_step_ends_it(self):
        (self.root / "quick").write_text("low\nhigh\n")
        (self.root / "slow").touch()
        call = self.start()
        self.assertTrue(until(lambda: sleepers(self.mark)))
        self.assertIn("run pyc", (self.root / "calls").read_text())
        call.terminate()
        self.assertEqual(call.wait(60), 143)
        self.assertTrue(until(lambda: not sleepers(self.mark), 5))

    @unittest.skipUnless(shutil.which("setsid"), "there is no setsid")
    def test_what_ends_the_call_ends_all_without_a_python(self):
        folder = self.folder / "few"
        folder.mkdir()
        for name in ("sh", "cat", "dirname", "readlink", "awk", "wc", "mkdir", "setsid", "tail", "grep", "sleep"):
            (folder / name).symlink_to(shutil.which(name))
        (folder / "rt").symlink_to(self.bin / "rt")
        for number in (signal.SIGTERM, signal.SIGHUP):
            call = self.start(str(folder))
            self.assertTrue(until(lambda: sleepers(self.mark)))
            call.send_signal(number)
            self.assertEqual(call.wait(60), 143)
            self.assertTrue(until(lambda: not sleepers(self.mark), 5))

    def test_the_next_call_goes_on(self):
        call = self.start()
        self.assertTrue(until(lambda: sleepers(self.mark)))
        call.terminate()
        call.wait()
        self.assertTrue((self.root / "crates" / "low" / "out" / "rlib" / "stamp").exists())
        (self.root / "quick").write_text("high\n")
        self.assertEqual(self.pyc("exec", "0", "x", data=b"[]")[:2], (0, "exec;0;x;2\n"))
        log = (self.root / "crates" / "pyc" / "out" / "build.log").read_text()
        self.assertIn("rt lib in high ended with 0\nall of high is proved\n", log)
        self.assertNotIn("all of low", log)
        self.assertIn("rt run in pyc ended with 0\n", log)

    def test_another_call_waits(self):
        first = self.start()
        self.assertTrue(until(lambda: sleepers(self.mark)))
        second = self.start()
        told = b""
        while b"waiting for it" not in told:
            told += second.stderr.readline()
        self.assertIn(b"another call (pid %d) is building: waiting for it (^C leaves it alone)\n" % first.pid, told)
        self.assertIsNone(second.poll())
        second.send_signal(signal.SIGINT)
        self.assertEqual(second.wait(60), 130)
        self.assertIsNone(first.poll())
        third = self.start()
        while b"waiting for it" not in third.stderr.readline():
            pass
        (self.root / "quick").write_text("low\nhigh\n")
        first.terminate()
        first.wait(60)
        self.assertEqual((third.communicate(timeout=60)[0], third.returncode), (b"exec;0;x;0\n", 0))

    def test_how_far_it_is(self):
        (self.root / "crates" / "low" / "src").mkdir()
        (self.root / "crates" / "low" / "src" / "lib.rt").write_text("fn\n" * 1000)
        text = "import sys; sys.path.insert(0, %r); import build; build.EACH = 0.2; sys.exit(build.main())" % str(self.root / "tools")
        env = dict(os.environ, PATH="%s%s%s" % (self.bin, os.pathsep, os.environ["PATH"]))
        words = [sys.executable, "-B", "-c", text, "--lanes", "2", "pyc"]
        call = subprocess.Popen(words, env=env, stderr=subprocess.PIPE)
        told = [call.stderr.readline().decode() for _ in range(6)]
        call.terminate()
        call.communicate()
        self.assertEqual(told[0], "pyc.sh: copying the sources for 2 lanes ..\n")
        self.assertRegex(told[1], r"^pyc\.sh: copied in \d+ seconds\n$")
        self.assertEqual(told[2:4], ["pyc.sh: 1 of 3: low\n", "pyc.sh: 2 of 3: high\n"])
        self.assertRegex(told[5], r"^pyc\.sh: 1 of 3 proved, 1 running: high \(0:0\d\); (less than a minute|about \d+ minutes) left\n$")

    def test_the_stamp(self):
        (self.root / "crates" / "low" / "src").mkdir()
        source = self.root / "crates" / "low" / "src" / "lib.rt"
        source.write_text("fn\n")
        (self.root / "quick").write_text("low\nhigh\n")
        self.assertEqual(self.pyc("exec", "0", "x")[0], 0)
        number = (self.root / "VERSION").read_text().strip()
        self.assertEqual(self.pyc("--version"), (0, "pyc %s, proved by kit-1\n" % number, ""))
        source.write_text("fn a\n")
        self.assertEqual(self.pyc("--version"), (0, "pyc %s, proved by kit-1, of other sources than these\n" % number, ""))
        program = self.root / "crates" / "pyc" / "out" / "pyc"
        kept = program.read_bytes()
        program.write_bytes(kept + b"#\n")
        unknown = "pyc %s, not proved, or not known to be: its build has left no stamp of this program\n" % number
        self.assertEqual(self.pyc("--version"), (0, unknown, ""))
        program.write_bytes(kept)
        program.with_name("pyc.stamp").write_text("{}\n")
        self.assertEqual(self.pyc("--version"), (0, unknown, ""))


if __name__ == "__main__":
    unittest.main()
