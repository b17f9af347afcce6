#!/usr/bin/env python3
"""Tests of gate_times.py, over lines of a record and files as /proc has them.

usage: test_gate_times.py
"""
import io
import pathlib
import tempfile
import unittest
import unittest.mock

import gate_times
from gate_times import CODE, EDITS, PROOF, TESTS, Taken, Told

# Of a run that was watched: a crate whose last line counts, one with tests, one with two wrong bodies, and a program.
RECORD = """\
{"machine": "Some Processor", "processors": 4, "memory_gb": 25, "commit": "0123abcd", "kit": "rattle-kit-13f", "began": 1796119855.0}
{"pid": 7, "began": 1796119860.0, "crate": "low", "kind": "proof", "processor": 12.0, "clock": 20.0}
{"pid": 7, "began": 1796119860.0, "crate": "low", "kind": "proof", "processor": 90.0, "clock": 120.0}
{"pid": 8, "began": 1796119980.0, "crate": "high", "kind": "proof", "processor": 60.0, "clock": 60.0}
{"pid": 9, "began": 1796120040.0, "crate": "high", "kind": "tests", "processor": 240.0, "clock": 300.0}
{"pid": 10, "began": 1796119980.0, "crate": "low", "kind": "edits", "processor": 30.0, "clock": 40.0}
{"pid": 7, "began": 1796120100.0, "crate": "low", "kind": "edits", "processor": 36.0, "clock": 50.0}
{"pid": 11, "began": 1796120000.0, "crate": "beside", "kind": "proof", "processor": 6.0, "clock": 6.0}
{"pid": 12, "began": 1796120006.0, "crate": "beside", "kind": "code", "processor": 3.0, "clock": 3.0}
"""

USES = {"low": [], "high": ["low", "json"], "beside": ["low"], "kept": ["low"], "lost": []}


class Processes(unittest.TestCase):
    def test_the_kind_is_in_the_words_and_the_folder(self):
        words = ["/kit/bin/rattle", "build", "--crate-name", "low", "src/lib.rt", "-o"]
        for more, folder, kind in [
            (["/a/crates/low/out/rlib/low.rlib"], "/a/crates/low", PROOF),
            (["/a/rt-proved-1-x/checked"], "/a/crates/low", PROOF),
            (["out/low_tests.o"], "/a/crates/low", TESTS),
            (["out/low.o", "--crate-checked", "/a/rt-proved-1-x/checked"], "/a/crates/low", CODE),
            (["x"], "/a/rt-edit-1-abc", EDITS),
        ]:
            with self.subTest(more):
                self.assertEqual(gate_times.kind_of(words + more, folder), ("low", kind))

    def test_other_processes_are_none_of_the_prover(self):
        for words in ([], ["sh", "-c", "read _; kill -9 0"], ["/kit/bin/rattle-link", "--crate-name", "low", "x"], ["/kit/bin/rattle", "check", "--crate-name"]):
            self.assertIsNone(gate_times.kind_of(words, "/a/crates/low"))

    def test_seconds_are_those_of_the_process_and_its_children(self):
        ticks = gate_times.TICKS
        stat = "7 (a ) b) S 1 7 7 0 -1 4194560 1 2 3 4 %d %d %d %d 20 0 1 0 500 1" % (ticks, 2 * ticks, 3 * ticks, 4 * ticks)
        fields = gate_times.fields_of(stat)
        self.assertEqual(fields[:2], ["S", "1"])
        self.assertEqual(gate_times.seconds_of(fields), 10.0)
        self.assertEqual(fields[19], "500")

    def test_processes_of_a_run_are_found(self):
        ticks = gate_times.TICKS
        with tempfile.TemporaryDirectory() as folder:
            proc = pathlib.Path(folder).resolve()

            def add(pid, parent, words, cwd):
                (proc / str(pid)).mkdir()
                stat = "%d (x) S %d 7 7 0 -1 4194560 1 2 3 4 %d 0 0 0 20 0 1 0 %d 1" % (pid, parent, 5 * ticks, 100 * ticks)
                (proc / str(pid) / "stat").write_text(stat, encoding="ascii")
                (proc / str(pid) / "cmdline").write_bytes("\0".join(words + [""]).encode("utf-8"))
                (proc / str(pid) / "cwd").symlink_to(cwd)

            build = ["/kit/rattle", "build", "--crate-name"]
            add(20, 1, ["python3", "/usr/bin/rt", "ci"], "/a")
            add(21, 20, build + ["low", "x"], "/a/crates/low")
            add(22, 20, build + ["low", "x"], "/a/rt-edit-20-abc")
            add(23, 1, build + ["low", "x"], "/a/crates/low")
            add(24, 20, ["sh", "-c", "read _; kill -9 0"], "/a")
            (proc / "meminfo").write_text("", encoding="ascii")
            with unittest.mock.patch.object(gate_times, "PROC", proc):
                self.assertEqual(gate_times.gate_at(pathlib.Path("/a")), 20)
                self.assertIsNone(gate_times.gate_at(pathlib.Path("/b")))
                found = sorted(gate_times.look(20, 1000.0, 1130.0))
        self.assertEqual(found, [Taken(21, 1100.0, "low", PROOF, 5.0, 30.0), Taken(22, 1100.0, "low", EDITS, 5.0, 30.0)])

    def test_a_watch_ends_where_no_run_begins(self):
        with tempfile.TemporaryDirectory() as folder:
            record = io.StringIO()
            gate_times.watch(record, pathlib.Path(folder), 0.1)
            self.assertEqual(record.getvalue(), "")


class Tables(unittest.TestCase):
    def setUp(self):
        self.head, self.taken = gate_times.read(RECORD.splitlines())

    def test_the_last_line_of_a_process_counts(self):
        self.assertEqual(self.head["commit"], "0123abcd")
        self.assertEqual(len(self.taken), 7)
        self.assertIn(Taken(7, 1796119860.0, "low", PROOF, 90.0, 120.0), self.taken)

    def test_rows_have_the_sums_of_a_crate(self):
        rows = gate_times.rows_of(self.taken)
        self.assertEqual([it.crate for it in rows], ["high", "low", "beside"])
        self.assertEqual(rows[1].processor, {PROOF: 90.0, TESTS: 0, EDITS: 66.0, CODE: 0})
        self.assertEqual(rows[1].clock, 290.0)

    def test_the_chain_is_the_longest_on_the_clock(self):
        self.assertEqual(gate_times.chain_of(gate_times.proved_in(self.taken), USES), ["low", "high"])

    def test_a_log_tells_what_was_kept_and_what_failed(self):
        log = "rt: low is kept: an earlier run\nrt: high: its tests are NOT PROVED\nrt: far NOT PROVED: its library high failed\nrt: x proved\n"
        self.assertEqual(gate_times.told_by(log), Told(["low"], ["far", "high"]))

    def test_the_table(self):
        self.assertEqual(
            gate_times.table(self.head, self.taken, USES, Told(["kept"], ["high"]), 0.2),
            [
                "| Crate | Proof | Tests | Wrong bodies | Code | All | Clock |",
                "|---|---|---|---|---|---|---|",
                "| high * | 1.0 | 4.0 |  |  | 5.0 | 6.0 |",
                "| low * | 1.5 |  | 1.1 |  | 2.6 | 4.8 |",
                "| 1 others | 0.1 |  |  | 0.1 | 0.1 |  |",
                "| the chain (*) | 2.5 | 4.0 | 1.1 |  | 7.6 | 7.0 |",
                "| all | 2.6 | 4.0 | 1.1 | 0.1 | 7.8 | 8.1 |",
                "",
                "Chain: low, high.",
                "Minutes of 2026-12-01; Some Processor, 4 processors, 25 GB, commit 0123abcd, rattle-kit-13f.",
                "Kept from an earlier run: kept.",
                "Not proved: high.",
                "Not measured: lost.",
            ],
        )


if __name__ == "__main__":
    unittest.main()
