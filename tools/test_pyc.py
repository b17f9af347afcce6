#!/usr/bin/env python3
"""Tests of pyc.sh, build.py, the commands `compile` and `rows`, speed.py and stdlib.py, with a small program in the place of pyc and of rt."""
import os
import pathlib
import shutil
import subprocess
import sys
import tempfile
import unittest

ROOT = pathlib.Path(__file__).resolve().parent.parent

# It stands for the program: it writes its words, and refuses rows that have a row with this word.
PROGRAM = """#!/bin/sh
input=$(cat)
case $input in
    *'{"":'*) echo 'input: not rows' >&2; exit 3 ;;
    *ClassDef*) echo '1:1 RustPython does not implement this feature yet' >&2; exit 1 ;;
esac
printf '%s;' "$@"
echo "${#input}"
"""

# What is told below a refusal.
FLOAT = "note: a float: pyc compiles no literals that are floats (--explain R104)\n"
CLASS = "note: an f-string in an annotation that is postponed (--explain R306)\n"

# It stands for rt, which proves the crates below the program and then builds this.
BUILDER = """#!/bin/sh
case $1:$PWD in
    lib:"%(root)s/crates/"*) echo "${PWD##*/}" >>"%(root)s/proved" ;;
    run:"%(root)s/crates/pyc") mkdir -p out && cp "%(program)s" out/pyc ;;
    *) exit 2 ;;
esac
"""

# The crates of the checkout; one has nothing to do with the program.
CRATES = """# which uses which
pyc: high low std
other: low
high: low
low:
"""


def write_program(file, text):
    """Writes a file that can be run."""
    file.write_text(text)
    file.chmod(0o755)


class Checkout(unittest.TestCase):
    """Each test has a folder with a fresh checkout, as far as these tools go."""

    def setUp(self):
        folder = tempfile.TemporaryDirectory()
        self.addCleanup(folder.cleanup)
        self.folder = pathlib.Path(folder.name).resolve()
        # A blank in the name, as users have it.
        self.root = self.folder / "check out"
        for name in ("pyc", "high", "low", "other"):
            (self.root / "crates" / name).mkdir(parents=True)
        (self.root / "crates.txt").write_text(CRATES)
        for name in ("tools", "python"):
            shutil.copytree(ROOT / name, self.root / name, ignore=shutil.ignore_patterns("__pycache__", "quick_build.py"))
        shutil.copytree(ROOT / "examples", self.root / "examples")
        for name in ("pyc.sh", "VERSION"):
            shutil.copy(ROOT / name, self.root)
        self.bin = self.folder / "bin"
        self.bin.mkdir()
        write_program(self.folder / "program", PROGRAM)

    def call(self, words, cwd=None, data=b"", path=None):
        """The status, the output and the errors of a call."""
        path = os.environ["PATH"] if path is None else path
        env = dict(os.environ, PATH="%s%s%s" % (self.bin, os.pathsep, path), PYTHONDONTWRITEBYTECODE="1")
        pipes = {"stdout": subprocess.PIPE, "stderr": subprocess.PIPE}
        ended = subprocess.run(list(map(str, words)), cwd=cwd or self.folder, input=data, env=env, **pipes)
        return ended.returncode, ended.stdout.decode("utf-8"), ended.stderr.decode("utf-8")

    def with_builder(self):
        """Puts rt on the path."""
        write_program(self.bin / "rt", BUILDER % {"root": self.root, "program": self.folder / "program"})
        (self.bin / "python3").symlink_to(sys.executable)

    def pyc(self, *words, **more):
        """A call of pyc.sh."""
        return self.call(["sh", self.root / "pyc.sh", *words], **more)

    def write(self, name, text):
        """Writes a file that is compiled."""
        (self.folder / name).write_text(text, encoding="utf-8")

    def built(self):
        """Builds the program."""
        self.with_builder()
        self.assertEqual(self.pyc("exec", "0", "x")[0], 0)


class Fresh(Checkout):
    def test_the_first_call_says_what_it_does(self):
        self.with_builder()
        status, out, told = self.pyc("exec", "0", "m.py", data=b"[]")
        self.assertEqual((status, out), (0, "exec;0;m.py;2\n"))
        self.assertIn("this call proves its 3 crates and builds it, in %s/crates\n" % self.root, told)
        self.assertIn("sh pyc.sh --try FILE.py compiles at once, without proof\n", told)
        self.assertIn("pyc.sh: 1 of 3: low\npyc.sh: 2 of 3: high\npyc.sh: 3 of 3: pyc\n", told)
        self.assertEqual((self.root / "proved").read_text(), "low\nhigh\n")
        self.assertRegex(told, r"pyc\.sh: proved and built in \d+ minutes \d+ seconds \(.+ processors, .+\)\n$")
        self.assertEqual(self.pyc("block", "2", "* a", data=b"[]"), (0, "block;2;* a;2\n", ""))
        for words in (["pack", "exec", "0", "* a"], ["step", "eval", "1", "* a", ""], ["unpack"], ["names", "* a"], ["sample", "008", "1"]):
            self.assertEqual(self.pyc(*words, data=b"[]"), (0, ";".join(words) + ";2\n", ""))

    def test_what_needs_no_program(self):
        write_program(self.bin / "rt", "#!/bin/sh\n[ $1 = version ] && echo kit-1 || touch '%s/proved'\n" % self.root)
        (self.bin / "python3").symlink_to(sys.executable)
        status, out, told = self.pyc("--help")
        self.assertEqual((status, told), (0, ""))
        self.assertTrue(out.startswith("usage: sh pyc.sh "), out)
        self.assertEqual(self.pyc("-m", "eval", "-h"), (0, out, ""))
        number = (ROOT / "VERSION").read_text().strip()
        self.assertEqual(self.pyc("--version"), (0, "pyc %s, the program is not built\n" % number, ""))
        self.assertEqual(self.pyc("no.py", "nor this.py"), (4, "", "no.py: No such file or directory\nnor this.py: No such file or directory\n"))
        for words in (["exec"], ["exec", "0"], ["exec", "3", "m.py"], ["eval", "0", "m.py", "n.py"], ["pack", "exec", "0"], ["pack", "exec", "3", "m.py"], ["step", "exec", "0", "m.py"], ["step", "exec", "0", "m.py", "d", "t"], ["unpack", "m.py"], ["names"], ["sample"], ["sample", "8"], ["sample", "+8", "0"], ["sample", "", "0"], ["sample", "8", "3"], ["sample", "8", "0", "m.py"], ["-O", "3", "m.py"], ["-m", "x", "m.py"]):
            self.check_wrong(words)
        for words in ([], ["-m"], ["-O2"], ["--rows"], ["--frob", "m.py"], ["--run"], ["-o", "x", "--run", "m.py"], ["m.py", "--frob"]):
            self.check_wrong(words)
        self.assertEqual(self.pyc("m.py", "--help"), (0, out, ""))
        self.assertEqual(self.pyc("--", "-o"), (4, "", "-o: No such file or directory\n"))
        self.assertEqual(self.pyc(self.folder), (4, "", "%s: Is a directory\n" % self.folder))
        self.write("f.py", "a = 1.5\n")
        self.write("g.py", "a = (\n")
        told = "f.py:1:5: rows have no word for a float\na = 1.5\n    ^\n" + FLOAT
        self.assertEqual(self.pyc("f.py", "no.py", "g.py")[:2], (4, ""))
        self.assertEqual(self.pyc("f.py"), (1, "", told))
        self.assertFalse((self.root / "proved").exists())

    def check_wrong(self, words):
        """Words that are told in two lines, and build nothing."""
        status, out, told = self.pyc(*words)
        self.assertEqual((status, out), (2, ""), words)
        self.assertRegex(told, r"^pyc: .+\npyc: 'sh pyc\.sh( [a-z]+)? --help' lists the words\n$")

    def test_links_and_folders(self):
        self.built()
        links = self.folder / "links"
        links.mkdir()
        (links / "one").symlink_to(self.root / "pyc.sh")
        (links / "two").symlink_to("one")
        (links / "folder").symlink_to(self.root)
        for cwd, name in ((links, "one"), ("/", links / "two"), (self.root / "crates", "../pyc.sh"), (links / "folder", "pyc.sh")):
            self.assertEqual(self.call(["sh", name, "exec", "0", "x"], cwd=cwd), (0, "exec;0;x;0\n", ""))
        self.assertEqual(self.call([links / "two", "exec", "0", "x"]), (0, "exec;0;x;0\n", ""))

    def test_files(self):
        self.built()
        rows = '[["Name",1,1,"a"],["Expr",1,1,0],["Module",[1]]]'
        for name in ("m.py", "a b.py", "\u00e9.py", "noend"):
            self.write(name, "a\n")
            self.assertEqual(self.pyc(name), (0, "exec;0;%s;%d\n" % (name, len(rows)), ""))
        self.write("-m.py", "a\n")
        self.assertEqual(self.pyc("--", "-m.py", "m.py")[:2], (0, "exec;0;-m.py;48\nexec;0;m.py;48\n"))
        self.assertEqual(self.pyc("-", data=b"a\n"), (0, "exec;0;<stdin>;48\n", ""))
        self.assertEqual(self.pyc("-m", "eval", "-O", "2", "m.py"), (0, "eval;2;m.py;35\n", ""))
        self.assertEqual(self.pyc("-m", "block", "-O1", "m.py"), (0, "block;1;m.py;%d\n" % len(rows.replace("Module", "Interactive")), ""))
        self.assertEqual(self.pyc("m.py", "no.py"), (4, "exec;0;m.py;48\n", "no.py: No such file or directory\n"))
        self.assertEqual(self.pyc("m.py", "-O2", "-m", "eval"), (0, "eval;2;m.py;35\n", ""))
        self.assertEqual(self.pyc("."), (4, "", ".: Is a directory\n"))

    def test_rows(self):
        self.built()
        self.write("m.json", "[]")
        self.write("odd.json", '{"":0}')
        self.write("class.json", '[["ClassDef"]]')
        self.assertEqual(self.pyc("--rows", "m.json"), (0, "exec;0;m.json;2\n", ""))
        self.assertEqual(self.pyc("--rows", "-", data=b"[ ]"), (0, "exec;0;<stdin>;3\n", ""))
        told = "class.json:1:1: RustPython does not implement this feature yet\n" + CLASS + "odd.json: input: not rows\n"
        told += "note: the input is not the rows of a tree (--explain R701)\n"
        self.assertEqual(self.pyc("--rows", "class.json", "odd.json", "m.json"), (3, "exec;0;m.json;2\n", told))

    def test_output(self):
        self.built()
        self.write("m.py", "a\n")
        self.write("c.py", "class C: pass\n")
        self.assertEqual(self.pyc("-o", "one", "m.py", "m.py"), (0, "", ""))
        self.assertEqual((self.folder / "one").read_text(), 2 * "exec;0;m.py;48\n")
        self.assertEqual(self.pyc("-o", "two", "m.py", "c.py")[0], 1)
        self.assertFalse((self.folder / "two").exists())
        self.assertEqual(self.pyc("-o", "no/two", "m.py"), (5, "", "no/two: No such file or directory\n"))
        self.assertEqual(self.pyc("m.py", "-o", "-"), (0, "exec;0;m.py;48\n", ""))
        (self.folder / "link").symlink_to("m.py")
        for name in ("m.py", "link"):
            status, out, told = self.pyc("-o", name, "m.py")
            self.assertEqual((status, out), (2, ""))
            self.assertIn("would be overwritten", told)
        self.assertEqual((self.folder / "m.py").read_text(), "a\n")
        (self.folder / "one").chmod(0o640)
        self.assertEqual(self.pyc("-o", "one", "m.py")[0], 0)
        self.assertEqual((self.folder / "one").stat().st_mode & 0o777, 0o640)
        self.assertEqual(self.pyc("-o", "/dev/null", "m.py"), (0, "", ""))

    def test_faults(self):
        self.built()
        self.write("f.py", "a = 1.5\n")
        self.assertEqual(self.pyc("f.py"), (1, "", "f.py:1:5: rows have no word for a float\na = 1.5\n    ^\n" + FLOAT))
        self.write("s.py", "if a:\n\t'\u00e9\u65e5' + 1.5\n")
        self.assertEqual(self.pyc("s.py"), (1, "", "s.py:2:9: rows have no word for a float\n    '\u00e9\u65e5' + 1.5\n            ^\n" + FLOAT))
        self.write("c.py", "class C:\n    pass\n")
        status, out, told = self.pyc("c.py", "f.py")
        self.assertEqual((status, out), (1, ""))
        text = "c.py:1:1: RustPython does not implement this feature yet\nclass C:\n^\n" + CLASS
        self.assertEqual(told, text + "f.py:1:5: rows have no word for a float\na = 1.5\n    ^\n" + FLOAT)
        (self.folder / "latin.py").write_bytes(b"a\n'\xe9'\n")
        self.assertEqual(self.pyc("latin.py"), (1, "", "latin.py:2:2: the source is not utf-8\nnote: the bytes of the source are no text of its encoding (--explain R102)\n"))

    def test_without_proof(self):
        write_program(self.bin / "rt", "#!/bin/sh\n[ \"$1 $2\" = 'try --' ] && shift 2 && echo \"${PWD##*/} $*\" && cat && echo proved=no >&2\n")
        (self.bin / "python3").symlink_to(sys.executable)
        self.write("m.py", "a\n")
        status, out, told = self.pyc("--try", "-m", "eval", "m.py")
        self.assertEqual((status, out), (0, 'pyc eval 0 m.py\n[["Name",1,1,"a"],["Expression",0]]'))
        self.assertRegex(told, r"^pyc: --try: nothing is proved of this program, .+\n$")

    def test_lanes(self):
        sys.path.insert(0, str(ROOT / "tools"))
        import build

        crates = build.read_crates("# a comment\na status=1: b c std # x\nb: d\nc: d\nd:\ne: a\n")
        self.assertEqual(crates, {"a": ["b", "c"], "b": ["d"], "c": ["d"], "d": [], "e": ["a"]})
        self.assertEqual(build.below("a", crates), ["d", "b", "c", "a"])
        weights = {"a": 1, "b": 2, "c": 5, "d": 3}
        self.assertEqual(build.chains(["d", "b", "c", "a"], crates, weights), {"a": 1, "b": 3, "c": 6, "d": 9})
        self.assertGreaterEqual(build.lanes_here(), 1)

    def test_copies_of_lanes(self):
        # rt proves a crate where what is below it is proved in the same copy; no two runs share a copy.
        rt = """#!/bin/sh
[ "$1" = lib ] || exit 2
mkdir ../../busy && sleep 0.2 || exit 3
case ${PWD##*/} in
    high) [ -e ../low/out/rlib/stamp ] || exit 4 ;;
esac
[ -e src/lib.rt ] && mkdir -p out/rlib out/incremental && echo "$PWD" >out/rlib/stamp && echo 1 >out/incremental/work && rmdir ../../busy
"""
        write_program(self.bin / "rt", rt)
        (self.root / "crates.txt").write_text("pyc: high other\nhigh: low\nother:\nlow:\n")
        for name in ("pyc", "high", "low", "other"):
            (self.root / "crates" / name / "src").mkdir()
            (self.root / "crates" / name / "src" / "lib.rt").write_text("")
        status, out, told = self.call([sys.executable, self.root / "tools" / "build.py", "--lanes", "2", "pyc"])
        self.assertEqual((status, out), (0, ""), told)
        lanes = {(self.root / "crates" / name / "out" / "rlib" / "stamp").read_text().split("/lanes-")[1].split("/")[1] for name in ("low", "other")}
        self.assertEqual(lanes, {"0", "1"})
        self.assertTrue((self.root / "crates" / "high" / "out" / "incremental" / "work").exists())
        self.assertEqual({it.name for it in (self.root / "crates" / "pyc" / "out").iterdir()}, {"lock", "build.log"})

    def test_a_crate_that_is_not_proved(self):
        self.with_builder()
        write_program(self.bin / "rt", "#!/bin/sh\necho open goal; exit 1\n")
        status, out, told = self.pyc("exec", "0", "m.py")
        self.assertEqual((status, out), (127, ""))
        self.assertTrue(told.endswith("pyc.sh: 1 of 3: low\nopen goal\npyc.sh: low is not proved\npyc.sh: the program could not be built\n"), told)

    def test_without_rt(self):
        for name in ("sh", "cat", "dirname", "readlink", "awk", "wc", "mkdir", "flock", "setsid", "tail"):
            (self.bin / name).symlink_to(shutil.which(name))
        status, out, told = self.call([self.bin / "sh", self.root / "pyc.sh", "exec", "0", "x"], path="")
        self.assertEqual((status, out), (127, ""))
        self.assertIn("install the Rattle kit", told)
        write_program(self.bin / "rt", "#!/bin/sh\necho no >&2; exit 1\n")
        (self.bin / "date").symlink_to(shutil.which("date"))
        status, out, told = self.call([self.bin / "sh", self.root / "pyc.sh", "exec", "0", "x"], path="")
        self.assertEqual((status, out), (127, ""))
        self.assertTrue(told.endswith("pyc.sh: 1 of 3: low\nno\npyc.sh: the program could not be built\n"), told)
        self.write("m.py", "a\n")
        status, out, told = self.call([self.bin / "sh", self.root / "pyc.sh", "m.py"], path="")
        self.assertEqual((status, out), (127, ""))
        self.assertTrue(told.startswith("pyc.sh: there is no python3 of 3.8 or later on the path, which reads the files and these words\n"), told)
        write_program(self.root / "crates" / "pyc" / "out" / "pyc", PROGRAM)
        self.assertEqual(self.call([self.bin / "sh", self.root / "pyc.sh", "exec", "0", "x"], path="", data=b"[]"), (0, "exec;0;x;2\n", ""))

    def library(self):
        """A folder of sources."""
        library = self.folder / "library"
        (library / "site-packages").mkdir(parents=True)
        sources = {"a.py": "a = 1\n", "b.py": "# coding: latin-1\nb\n", "c.py": "class C: pass\n", "d.py": "1.5\n", "site-packages/e.py": "e\n"}
        for name, text in sources.items():
            (library / name).write_text(text)
        return library

    def test_help_of_tools(self):
        for tool in sorted((ROOT / "tools").glob("*.py")):
            # Those without a main are parts of others.
            if not tool.name.startswith("test_") and "__main__" in tool.read_text(encoding="utf-8"):
                status, out, told = self.call([sys.executable, "-B", tool, "--help"])
                self.assertEqual((status, told), (0, ""), tool)
                self.assertRegex(out, r"\w\.(\n|$)", tool)

    def test_stdlib(self):
        words = [sys.executable, self.root / "tools" / "stdlib.py", "--program", self.folder / "program", "--files", "--kinds", self.library()]
        status, out, told = self.call(words)
        self.assertEqual((status, told), (0, ""))
        library = self.folder / "library"
        self.assertTrue(out.startswith("compiled  %s\n" % (library / "a.py")), out)
        self.assertIn("4 files of %s, by Python " % library, out)
        for line in ("2  compiled", "1  status 1: RustPython does not implement this feature yet: ClassDef", "1  no rows: rows have no word for a float", "3  Module"):
            self.assertIn("  %s\n" % line, out)

    def test_speed(self):
        words = ["--program", self.folder / "program", "--runs", "1", "--most", "20", "--library", self.library()]
        status, out, told = self.call([sys.executable, self.root / "tools" / "speed.py", *words])
        self.assertEqual((status, told), (0, ""))
        lines = [it.split("|") for it in out.splitlines() if it.startswith("|")]
        self.assertEqual({len(it) for it in lines}, {15})
        self.assertEqual([it[1].strip() for it in lines], ["Statements", "---", "20", "2 files of the library"])

    def test_without_the_program(self):
        for tool in ("speed.py", "stdlib.py"):
            status, out, told = self.call([sys.executable, self.root / "tools" / tool])
            self.assertEqual((status, out), (1, ""))
            self.assertTrue(told.endswith("/check out/crates/pyc/out/pyc: sh pyc.sh --prove builds it\n"), told)


if __name__ == "__main__":
    unittest.main()
