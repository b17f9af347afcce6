#!/usr/bin/env python3
"""Tests of the documents and of the tools that count and list for them.

usage: test_documents.py

Each file that a document names is there, and each lemma that docs/PROOF.md states is stated so in the file named beside it.
"""
import pathlib
import re
import tempfile
import unittest

import definitions_index
import kind
import prose
import wrong_bodies

TOP = pathlib.Path(__file__).resolve().parent.parent
PAGES = [TOP / "README.md", TOP / "CONTRIBUTING.md", *sorted(TOP.glob("docs/*.md"))]

# A file of the repository as documents name it; one of another document of docs/; a heading of a lemma, with its file.
FILE = re.compile(r"`((?:crates|docs|tools|python|bindings|conformance|examples)/[\w./+-]*\w)`")
PAGE = re.compile(r"`([A-Z_]+\.md)`")
LEMMA = re.compile(r"^### .*\n\n`(crates/[^`]+)`\n\n((?:    .*\n|\n)+)", re.M)
# What is there once something was built or run, and a name that stands for any.
MADE = re.compile(r"/out\b|^docs/RELEASE\.md$|/NAME\b")


def write(folder, name, text):
    path = pathlib.Path(folder) / name
    path.parent.mkdir(parents=True, exist_ok=True)
    path.write_text(text, encoding="utf-8")
    return path


class Pages(unittest.TestCase):
    def test_each_file_that_is_named_is_there(self):
        for page in [*PAGES, *sorted(TOP.glob("crates/*/README.md"))]:
            for name in FILE.findall(page.read_text(encoding="utf-8")):
                with self.subTest(page.relative_to(TOP), file=name):
                    self.assertTrue(MADE.search(name) or (TOP / name).exists())

    def test_each_page_that_is_named_is_there(self):
        for page in PAGES:
            for name in PAGE.findall(page.read_text(encoding="utf-8")):
                with self.subTest(page.relative_to(TOP), page=name):
                    self.assertTrue((TOP / name).exists() or (TOP / "docs" / name).exists())

    def test_each_crate_has_a_readme(self):
        for crate in sorted(TOP.glob("crates/*/src")):
            with self.subTest(crate.parent.name):
                self.assertTrue((crate.parent / "README.md").exists())

    def test_each_lemma_is_stated_as_in_its_file(self):
        found = LEMMA.findall((TOP / "docs" / "PROOF.md").read_text(encoding="utf-8"))
        self.assertEqual(len(found), 10)
        for file, block in found:
            text = (TOP / file).read_text(encoding="utf-8")
            for piece in block.strip("\n").split("\n\n"):
                lines = [line[4:] for line in piece.strip("\n").splitlines()]
                with self.subTest(file, line=lines[0]):
                    self.assertIn("\n".join(lines) + "\n", text)


class Index(unittest.TestCase):
    def test_a_definition_has_the_first_sentence_above_it(self):
        text = "-- How many there are.\n-- And more.\npub many : Seq → ℕ\nmany [] = 0\n\npub bare : ℕ\n\nhidden : ℕ\n"
        self.assertEqual(list(definitions_index.definitions(text)), [("many", "How many there are"), ("bare", None)])

    def test_the_fields_of_a_record_are_no_definitions(self):
        text = "pub record Is (n : ℕ) : Type 0 where\n  pub one : ℕ\n"
        self.assertEqual([name for name, _ in definitions_index.definitions(text)], ["Is"])

    def test_a_crate_has_a_table_for_each_file(self):
        with tempfile.TemporaryDirectory() as top:
            write(top, "crates/one/specs/Counts.antt", "-- How many.\npub many : ℕ\n")
            write(top, "crates/one/specs/Lib.antt", "pub use Counts\n")
            lines = definitions_index.page("one", pathlib.Path(top))
            self.assertEqual(lines[:3], ["## one", "", "### `Counts.antt`"])
            self.assertIn("| `many` | How many |", lines)
            self.assertEqual(definitions_index.page("two", pathlib.Path(top)), [])


class Kinds(unittest.TestCase):
    def test_an_arm_names_the_kind_or_its_struct(self):
        self.assertTrue(kind.names("Try", "Stmt::Try(s) =>"))
        self.assertTrue(kind.names("Try", "fn try_of(s: &StmtTry)"))
        self.assertTrue(kind.names("Try", "Try(StmtTryOf<Stmt>)"))
        self.assertFalse(kind.names("Try", "Stmt::TryStar(s) => SetupTry"))

    def test_imports_and_comments_are_no_arms(self):
        with tempfile.TemporaryDirectory() as top:
            code = write(top, "a.rt", "use py_tree::{\n    Expr, ExprIfExp,\n};\n/// An IfExp.\nghost use x.{IfExp};\n")
            laws = write(top, "a.antt", "use Rattle.py_tree.{IfExp}\n-- IfExp\n")
            self.assertFalse(kind.has_arm("IfExp", code))
            self.assertFalse(kind.has_arm("IfExp", laws))
            code.write_text("Expr::IfExp(e) => 1, // an arm\n", encoding="utf-8")
            laws.write_text("  IfExp at test body orelse → 1\n", encoding="utf-8")
            self.assertTrue(kind.has_arm("IfExp", code))
            self.assertTrue(kind.has_arm("IfExp", laws))

    def test_files_come_by_crates_and_are_counted(self):
        with tempfile.TemporaryDirectory() as folder:
            top = pathlib.Path(folder)
            write(top, "crates.txt", "# base: what is below\ntwo:\none: two\n")
            write(top, "crates/one/src/lib.rt", "Expr::IfExp(e) => 1\n")
            write(top, "crates/two/specs/Tree.antt", "IfExp : Expr\n")
            write(top, "docs/LANGUAGE.md", "`IfExp`\n")
            told = list(kind.lines("IfExp", top))
            self.assertEqual(told[:3], ["crates/two/specs/Tree.antt", "crates/one/src/lib.rt", "docs/LANGUAGE.md"])
            self.assertEqual(told[3], "2 files of 2 crates: 1 of src, 1 of specs, 0 of proofs; and 1 beside them")
            self.assertEqual(list(kind.lines("While", top)), [])


class WrongBodies(unittest.TestCase):
    def test_a_row_has_the_edits_of_a_file(self):
        with tempfile.TemporaryDirectory() as top:
            write(top, "crates/one/must-fail/no-answer.edit", "file: src/lib.rt\n")
            write(top, "crates/one/must-fail/two-answers.edit", "file: src/lib.rt\n")
            write(top, "crates/two/must-fail/late.md", "file: src/lib.rt\n")
            page = wrong_bodies.page(pathlib.Path(top))
            self.assertIn("| one | `src/lib.rt` | no answer; two answers |\n| two * | `src/lib.rt` | late |\n", page)
            self.assertIn("All 3 edits", page)
            self.assertIn("2 of them", page)


class Prose(unittest.TestCase):
    def test_sentences_end_at_stops_items_and_cells(self):
        text = "# A head\n\nOne is `a.b`. Two\nis long.\n\n- an item\n- a second one\n\n| A | B c |\n|---|---|\n| d | e f g |\n\n    code that is left out\n"
        self.assertEqual([len(it) for it in prose.sentences(text)], [2, 3, 3, 2, 3, 1, 2, 1, 3])

    def test_doubles_are_runs_of_seven_words(self):
        same = "one two three four five six seven"
        self.assertEqual(prose.doubles({"a": same + " eight", "b": "Zero " + same, "c": same[4:]}), {"a": 1, "b": 1, "c": 0})


if __name__ == "__main__":
    unittest.main()
