#!/usr/bin/env python3
"""The tests of release.py, over parts that do nothing.

usage: test_release.py
"""
import contextlib
import io
import pathlib
import sys
import tempfile
import unittest

import release

RELEASE = pathlib.Path(release.__file__)


def part(name, code):
    """A part that ends with this status and writes one line."""
    return release.Part(name, [sys.executable, "-c", "import sys; print('said'); sys.exit(%d)" % code], False)


class Parts(unittest.TestCase):
    def test_each_wrong_body_that_the_gate_leaves_out_has_a_part(self):
        names = {it.name for it in release.parts_of(release.ROOT)}
        on_demand = {it.parent.parent.name for it in release.ROOT.glob("crates/*/must-fail/*.md")}
        self.assertTrue(on_demand)
        self.assertLessEqual({"wrong bodies of " + it for it in on_demand}, names)

    def test_names_are_told_apart(self):
        names = [it.name for it in release.parts_of(release.ROOT)]
        self.assertEqual(len(names), len(set(names)))

    def test_each_tool_is_there(self):
        for it in release.parts_of(release.ROOT):
            for word in it.words:
                if word.startswith("tools/"):
                    self.assertTrue((release.ROOT / word).is_file(), word)


class Runs(unittest.TestCase):
    def setUp(self):
        place = tempfile.TemporaryDirectory()
        self.addCleanup(place.cleanup)
        self.root = release.ROOT
        release.ROOT = pathlib.Path(place.name)
        self.addCleanup(setattr, release, "ROOT", self.root)
        self.kept = release.ROOT / "out" / "release.json"

    def run_all(self, parts, record):
        with contextlib.redirect_stdout(io.StringIO()) as out:
            release.run_all(parts, record, 2)
        return out.getvalue()

    def test_what_passed_is_not_run_again(self):
        parts = [part("gate", 0), part("one", 0), part("two", 1)]
        record = release.Record(self.kept, "abc")
        self.assertEqual(self.run_all(parts, record).count("ok"), 2)
        again = release.Record(self.kept, "abc")
        self.assertTrue(again.passed("one"))
        self.assertEqual(self.run_all(parts, again), "two: failed, see out/release-two.log\n")

    def test_another_commit_begins_anew(self):
        self.run_all([part("gate", 0)], release.Record(self.kept, "abc"))
        self.assertFalse(release.Record(self.kept, "def").passed("gate"))

    def test_nothing_follows_a_gate_that_failed(self):
        record = release.Record(self.kept, "abc")
        self.run_all([part("gate", 1), part("one", 0)], record)
        self.assertEqual(list(record.ended), ["gate"])

    def test_a_record_that_cannot_be_read_counts_for_nothing(self):
        self.kept.parent.mkdir()
        self.kept.write_text("{")
        self.assertEqual(release.Record(self.kept, "abc").ended, {})

    def test_the_report_tells_each_part(self):
        parts = [part("gate", 0), part("one", 3)]
        record = release.Record(self.kept, "0123456789abcdef")
        self.run_all(parts[:1], record)
        record.note("one", 3, 90.0, "a | b")
        text = release.report(parts, record, "kit", "2026-12-01")
        self.assertIn("| 0123456789ab | kit | 2026-12-01 |", text)
        self.assertIn("| gate | ok | 0 | `said` |", text)
        self.assertIn("| one | failed (3) | 2 | `a \\| b` |", text)


if __name__ == "__main__":
    unittest.main()
