#!/usr/bin/env python3
"""Tests of `pyc instructions`."""
import json
import os
import pathlib
import subprocess
import sys
import unittest

PYTHON = pathlib.Path(__file__).resolve().parent.parent


def told(*words, out=subprocess.PIPE):
    """The status, the output and the errors of the command."""
    environment = {**os.environ, "PYTHONPATH": str(PYTHON)}
    it = subprocess.run([sys.executable, "-B", "-m", "pyc", "instructions", *words], stdout=out, stderr=subprocess.PIPE, env=environment)
    return it.returncode, (it.stdout or b"").decode("utf-8"), it.stderr.decode("utf-8")


class Instructions(unittest.TestCase):
    def test_text(self):
        status, text, errors = told()
        lines = text.split("\n")
        self.assertEqual((status, errors, len(lines)), (0, "", 93))
        self.assertEqual(lines[0], " 0 ImportName             Name       -1             takes names, or None; level; gives module")
        self.assertEqual(lines[52].split(), "52 BuildMap Count 1 - 2n takes 2n values and keys in turn, the last value on top; gives map".split())
        self.assertEqual(lines[83].split(), "83 ForIter Label 1, jump -1 gives next value".split())
        self.assertEqual(lines[84].split(), "84 Jump Label (0), jump 0".split())
        self.assertEqual([line for line in lines if line != line.rstrip()], [])

    def test_json(self):
        status, text, errors = told("--json")
        table = json.loads(text)
        self.assertEqual((status, errors), (0, ""))
        self.assertEqual(sorted(table), ["flags", "instructions", "operands"])
        self.assertEqual([row["number"] for row in table["instructions"]], list(range(92)))
        self.assertEqual({"kind": "Conversion", "below": 4, "is": "the number of a case", "cases": ["None", "Str", "Ascii", "Repr"]}, table["operands"][-1])
        self.assertEqual(table["flags"]["MakeFunctionFlags"], {"CLOSURE": 1, "ANNOTATIONS": 2, "KW_ONLY_DEFAULTS": 4, "DEFAULTS": 8, "TYPE_PARAMS": 16})

    def test_wrong_words(self):
        for words, why in ((("x",), "'x'"), (("--jason",), "--jason")):
            status, text, errors = told(*words)
            self.assertEqual((status, text), (2, ""))
            self.assertIn(why, errors)

    @unittest.skipUnless(os.path.exists("/dev/full"), "there is no /dev/full")
    def test_full_device(self):
        with open("/dev/full", "wb") as full:
            status, _, errors = told(out=full)
        self.assertEqual(status, 5)
        self.assertIn("No space left on device", errors)


if __name__ == "__main__":
    unittest.main()
