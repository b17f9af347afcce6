#!/usr/bin/env python3
"""Tests of antt.py and definitions.py, over two small crates.

usage: test_definitions.py
"""
import pathlib
import tempfile
import unittest
from typing import Dict, List, Set

import antt
import definitions
import made_crates

SUMS = "crates/low/specs/Sums.antt"
OWED = "crates/high/specs/Owed.antt"
MAKING = "crates/high/src/making.rt"


class OverCrates(unittest.TestCase):
    def setUp(self) -> None:
        folder = tempfile.TemporaryDirectory()
        self.addCleanup(folder.cleanup)
        self.top = pathlib.Path(folder.name)
        made_crates.write(self.top)
        self.project = antt.Project(self.top)

    def cited(self, path: str, name: str) -> Set[str]:
        """The names of definitions that a definition cites."""
        found: Set[str] = set()
        file = self.project.file(path)
        file.references(file.by_name[name], lambda token, to: found.add(self.project.last(to).name) if to.kind == "file" else None)
        return found - {name}

    def closure(self, what: str) -> List[str]:
        found = definitions.Closure(self.project).add(definitions.roots_of(self.project, what)).found
        return sorted(name for _, name in found)


class Names(OverCrates):
    def test_what_a_file_defines(self) -> None:
        file = self.project.file(SUMS)
        self.assertEqual(list(file.by_name), ["total", "aside", "◌>>=◌", "seen_total", "Tree", "Trees", "weight"])
        self.assertEqual(list(file.makers), ["Leaf", "Node", "none", "more"])
        self.assertEqual([len(file.by_name[name].headers) for name in ("total", "seen_total", "Tree")], [0, 1, 1])
        self.assertEqual([(made.first, made.end) for made in file.definitions[:2]], [(6, 9), (11, 13)])

    def test_binders_hide(self) -> None:
        self.assertEqual(self.cited(OWED, "hides"), {"Tree", "Leaf", "Node"})
        self.assertEqual(self.cited(OWED, "first"), {"◌>>=◌"})
        self.assertEqual(self.cited(OWED, "chosen"), set())
        self.assertEqual(self.cited(OWED, "stepped"), set())
        self.assertEqual(self.cited(SUMS, "seen_total"), set())

    def test_fields_hide_behind_them(self) -> None:
        self.assertEqual(self.cited(OWED, "Owes"), {"Tree", "total"})

    def test_modules_lead(self) -> None:
        file = self.project.file(OWED)
        self.assertEqual(file.lead("sums.total"), antt.Name("file", SUMS, "total"))
        self.assertEqual(file.lead("beside"), antt.Name("file", SUMS, "aside"))
        self.assertEqual(file.lead(">>="), antt.Name("file", SUMS, "◌>>=◌"))
        self.assertEqual(self.project.file(SUMS).lead("kind.Light"), antt.Name("code", "low", "kinds.Kind.TheVariants.Light"))
        self.assertIsNone(file.lead("nothing"))

    def test_what_stands_behind_where(self) -> None:
        lemmas = "crates/low/proofs/SumLemmas.antt"
        self.assertEqual(self.cited(lemmas, "total-nil"), {"total"})

    def test_no_word_is_unknown(self) -> None:
        unknown: List[str] = []
        for path in (SUMS, OWED):
            for made in self.project.file(path).definitions:
                self.project.file(path).references(made, lambda token, to: None, lambda token: unknown.append(token.text))
        self.assertEqual(unknown, [])

    def test_an_unknown_word_is_told(self) -> None:
        (self.top / OWED).write_text(made_crates.HIGH.replace("Some weight\n", "Some wieght\n"), encoding="utf-8")
        unknown: List[str] = []
        file = self.project.file(OWED)
        file.references(file.by_name["first"], lambda token, to: None, lambda token: unknown.append(token.text))
        self.assertEqual(unknown, ["wieght"])


class Clauses(OverCrates):
    def test_the_clauses_of_a_function(self) -> None:
        source = self.project.source(MAKING)
        self.assertEqual([(one.name, one.is_public, len(one.clauses)) for one in source.functions], [("make", True, 3), ("inner", False, 1)])
        found: Dict[str, antt.Name] = {}
        source.references(source.function("make"), lambda token, name: found.update({token.text: name}))
        self.assertEqual(found["Owes"], antt.Name("file", OWED, "Owes"))
        self.assertEqual(found["Kind.Heavy"], antt.Name("code", "low", "Kind.Heavy"))
        self.assertNotIn("weight", found)

    def test_the_head_of_a_function(self) -> None:
        source = self.project.source(MAKING)
        first, end = source.head_of(source.function("make"))
        self.assertEqual((source.lines[first], source.lines[end - 1]), ("/// Makes what is owed.", "    ensures kind { result ≡ Err Kind.Heavy }"))

    def test_where_a_type_is_declared(self) -> None:
        at = self.project.declaration(antt.Name("code", "low", "Kind.Heavy"))
        self.assertEqual(at, ("crates/low/src/kinds.rt", "Kind", 2, 7))
        self.assertEqual(self.project.declaration(antt.Name("code", "low", "kinds.Kind.TheVariants.Light")), at)
        self.assertIsNone(self.project.declaration(antt.Name("code", "low", "Other")))

    def test_the_traits_of_a_function(self) -> None:
        self.assertEqual(definitions.traits_of(self.project, MAKING + ":make"), [("crates/high/src/source.rt", "Source")])


class Closures(OverCrates):
    def test_what_a_contract_cites(self) -> None:
        self.assertEqual(self.closure(MAKING + ":make"), ["Owes", "Tree", "Trees", "total"])
        self.assertEqual(self.closure("high/Owed:hides"), ["Tree", "Trees", "hides"])

    def test_what_makes_a_type_brings_the_type(self) -> None:
        self.assertEqual(self.closure("low/Sums:more"), ["Tree", "Trees"])

    def test_lines_without_comments_and_blanks(self) -> None:
        closure = definitions.Closure(self.project).add(definitions.roots_of(self.project, "low/Sums:Tree"))
        self.assertEqual(closure.size(), (2, 1, 6))

    def test_what_else_is_cited(self) -> None:
        closure = definitions.Closure(self.project).add(definitions.roots_of(self.project, "low/Sums:weight"))
        self.assertEqual(closure.kit, {("std", "ℕ")})
        self.assertEqual(definitions.declared(self.project, closure.code), {"crates/low/src/kinds.rt": {"Kind": (2, 7)}})

    def test_each_word_of_the_kit_has_a_line(self) -> None:
        (self.top / "tools/kit_words.txt").write_text("std ℕ numbers\n", encoding="utf-8")
        closure = definitions.Closure(self.project).add(definitions.roots_of(self.project, "low/Sums:total"))
        with self.assertRaisesRegex(definitions.Unknown, "std List"):
            definitions.kit_lines(self.project, closure)

    def test_text_with_its_comments_and_blocks(self) -> None:
        file = self.project.file(SUMS)
        self.assertEqual(definitions.shown(file, [file.by_name["seen_total"]]), "\n".join(file.lines[19:25]))
        self.assertEqual(definitions.shown(file, [file.by_name["◌>>=◌"]]), "\n".join(file.lines[14:18]))
        self.assertTrue(definitions.shown(file, [file.by_name["Trees"]]).startswith("abbrev mutual\n  pub data Trees"))

    def test_files_behind_their_imports(self) -> None:
        self.assertEqual(definitions.in_order(self.project, [OWED, SUMS]), [SUMS, OWED])


class Repository(unittest.TestCase):
    def test_no_word_of_a_definition_is_unknown(self) -> None:
        project = antt.Project(definitions.ROOT)
        closure = definitions.Closure(project).add(definitions.roots_of(project, definitions.RUN))
        unknown: List[str] = []
        for (path, _), made in closure.found.items():
            project.file(path).references(made, lambda token, to: None, lambda token: unknown.append("%s:%d: %s" % (path, token.line + 1, token.text)))
        self.assertEqual(unknown, [])


if __name__ == "__main__":
    unittest.main()
