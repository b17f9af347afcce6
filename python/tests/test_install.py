#!/usr/bin/env python3
"""Tests of make install, make wheel and pip install, with a small program in the place of pyc: what is installed works where the
checkout is out of the way."""
import json
import os
import pathlib
import shutil
import subprocess
import sys
import tempfile
import unittest
import zipfile

ROOT = pathlib.Path(__file__).resolve().parent.parent.parent
sys.path.insert(0, str(ROOT / "python"))
from pyc import stamp

# It writes its words.
PROGRAM = '#!/bin/sh\ncat >/dev/null\nprintf "%s;" "$@"\necho\n'
NUMBER = (ROOT / "VERSION").read_text(encoding="ascii").strip()


def has_pip():
    """Whether this Python has pip."""
    return subprocess.run([sys.executable, "-m", "pip", "--version"], stdout=subprocess.DEVNULL, stderr=subprocess.DEVNULL).returncode == 0


class Install(unittest.TestCase):
    def setUp(self):
        folder = tempfile.TemporaryDirectory()
        self.addCleanup(folder.cleanup)
        self.folder = pathlib.Path(folder.name).resolve()
        self.checkout = self.folder / "check out"
        self.checkout.mkdir()
        skip = shutil.ignore_patterns("__pycache__", "tests", "bin", "dist")
        for name in ("python", "docs"):
            shutil.copytree(ROOT / name, self.checkout / name, ignore=skip)
        for name in ("pyc.sh", "VERSION", "Makefile", "README.md", "LICENSE", "crates.txt"):
            shutil.copy(ROOT / name, self.checkout)
        (self.checkout / "tools").mkdir()
        shutil.copy(ROOT / "tools" / "build.py", self.checkout / "tools")
        program = self.checkout / "crates" / "pyc" / "out" / "pyc"
        program.parent.mkdir(parents=True)
        program.write_text(PROGRAM)
        program.chmod(0o755)
        stamp.write(str(program), stamp.Stamp(stamp.sum_of_file(str(program)), "0" * 64, "kit-1", "abc1234"))
        self.bin = self.folder / "python"
        self.bin.mkdir()
        (self.bin / "python3").symlink_to(sys.executable)
        (self.folder / "m.py").write_text("a\n")

    def call(self, *words, cwd=None, **more):
        """The status, the output and the errors of a call."""
        env = dict(os.environ, PATH="%s%s%s" % (self.bin, os.pathsep, os.environ["PATH"]), **more)
        env.pop("MAKEFLAGS", None)
        ended = subprocess.run(list(map(str, words)), cwd=str(cwd or self.folder), env=env, stdin=subprocess.DEVNULL, stdout=subprocess.PIPE, stderr=subprocess.PIPE)
        return ended.returncode, ended.stdout.decode("utf-8"), ended.stderr.decode("utf-8")

    def check_works(self, *command, **more):
        """What is installed compiles, and says what it is."""
        self.assertEqual(self.call(*command, "--version", **more), (0, "pyc %s (abc1234), proved by kit-1\n" % NUMBER, ""))
        self.assertEqual(self.call(*command, "m.py", **more), (0, "exec;0;m.py;\n", ""))
        self.assertEqual(self.call(*command, "pack", "exec", "0", "x", **more), (0, "pack;exec;0;x;\n", ""))
        self.assertEqual(self.call(*command, "rows", "m.py", **more), (0, '[["Name",1,1,"a"],["Expr",1,1,0],["Module",[1]]]\n', ""))
        status, out, told = self.call(*command, "--help", **more)
        self.assertEqual((status, told), (0, ""))
        self.assertTrue(out.startswith("usage: pyc "), out)

    @unittest.skipUnless(shutil.which("make"), "there is no make")
    def test_make_install(self):
        to = self.folder / "in stalled"
        status, out, told = self.call("make", "install", "PREFIX=%s" % to, cwd=self.checkout)
        self.assertEqual(status, 0, told)
        self.checkout.rename(self.folder / "away")
        self.check_works(to / "bin" / "pyc")
        (self.folder / "link").symlink_to(to / "bin" / "pyc")
        self.check_works("link" if os.sep in "link" else self.folder / "link")
        for name in ("man/man1/pyc.1", "bash-completion/completions/pyc", "zsh/site-functions/_pyc", "fish/vendor_completions.d/pyc.fish", "doc/pyc/COMMANDS.md"):
            self.assertGreater((to / "share" / name).stat().st_size, 500, name)
        self.assertEqual(self.call("make", "uninstall", "PREFIX=%s" % to, cwd=self.folder / "away")[0], 0)
        self.assertEqual([it for it in to.rglob("*") if not it.is_dir() or it.name == "pyc"], [])

    @unittest.skipUnless(shutil.which("make"), "there is no make")
    def test_make_without_the_program(self):
        (self.checkout / "crates" / "pyc" / "out" / "pyc").unlink()
        for goal in ("install", "wheel"):
            status, _, told = self.call("make", goal, "PREFIX=%s" % (self.folder / "to"), cwd=self.checkout)
            self.assertNotEqual(status, 0)
            self.assertIn("make: the program is not built: sh pyc.sh FILE.py proves and builds it\n", told)
        self.assertFalse((self.folder / "to").exists())

    def test_the_wheel(self):
        status, out, told = self.call(sys.executable, "-B", self.checkout / "python" / "backend.py", self.folder / "dist")
        self.assertEqual((status, told), (0, ""))
        (wheel,) = (self.folder / "dist").iterdir()
        self.assertEqual(out, "%s\n" % wheel)
        with zipfile.ZipFile(wheel) as it:
            names = it.namelist()
            self.assertEqual(it.getinfo("pyc/bin/pyc").external_attr >> 16 & 0o777, 0o755)
            self.assertEqual(json.loads(it.read("pyc/bin/pyc.stamp"))["kit"], "kit-1")
            record = it.read("pyc-%s.dist-info/RECORD" % NUMBER).decode()
        self.assertEqual([line.split(",")[0] for line in record.splitlines()], names)
        self.assertEqual([it for it in names if "tests" in it or "__pycache__" in it], [])
        modules = {it.relative_to(ROOT / "python").as_posix() for it in (ROOT / "python" / "pyc").rglob("*.py")}
        self.assertEqual(modules.difference(names), set())
        status, _, told = self.call(sys.executable, "-B", self.checkout / "python" / "backend.py", self.folder / "dist")
        self.assertEqual(list((self.folder / "dist").iterdir()), [wheel])
        (self.checkout / "crates" / "pyc" / "out" / "pyc").unlink()
        status, out, told = self.call(sys.executable, "-B", self.checkout / "python" / "backend.py", self.folder / "none")
        self.assertEqual((status, pathlib.Path(out.strip()).name), (0, "pyc-%s-py3-none-any.whl" % NUMBER))
        self.assertIn("the program is not built", told)

    @unittest.skipUnless(has_pip(), "there is no pip")
    def test_pip_install(self):
        to = self.folder / "site"
        words = ["-m", "pip", "install", "--no-index", "--no-build-isolation", "--disable-pip-version-check", "--target", to, "./python"]
        status, out, told = self.call(sys.executable, *words, cwd=self.checkout)
        self.assertEqual(status, 0, told)
        self.assertEqual([it.name for it in (self.checkout / "python").iterdir() if it.name not in {"pyc", "pyproject.toml", "backend.py", "__pycache__"}], [])
        self.checkout.rename(self.folder / "away")
        self.check_works(sys.executable, "-m", "pyc", PYTHONPATH=str(to))
        self.check_works(to / "bin" / "pyc", PYTHONPATH=str(to))


if __name__ == "__main__":
    unittest.main()
