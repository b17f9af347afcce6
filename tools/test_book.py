#!/usr/bin/env python3
"""Tests of book.py, over two small crates, and of the links of the book of this repository.

usage: test_book.py
"""
import pathlib
import tempfile
import unittest

import antt
import book
import made_crates


class OverCrates(unittest.TestCase):
    def setUp(self) -> None:
        folder = tempfile.TemporaryDirectory()
        self.addCleanup(folder.cleanup)
        self.top = pathlib.Path(folder.name) / "top"
        self.to = pathlib.Path(folder.name) / "book"
        made_crates.write(self.top)
        book.write(antt.Project(self.top), self.to)

    def page(self, name: str) -> str:
        return (self.to / name).read_text(encoding="utf-8")

    def test_a_page_for_each_crate(self) -> None:
        self.assertEqual(sorted(path.name for path in self.to.iterdir()), ["book.js", "high.html", "index.html", "kit.html", "low.html"])
        self.assertIn('<li><a href="low.html">low</a> What is low, as <code>total</code>.</li>', self.page("index.html"))

    def test_a_word_leads_to_its_definition(self) -> None:
        self.assertIn('<span class="n" id="Sums:total">total</span>', self.page("low.html"))
        self.assertIn('<a href="low.html#Sums%3Atotal">sums.total</a> xs', self.page("high.html"))
        self.assertIn('<a href="low.html#Sums%3ALeaf">Leaf</a>', self.page("high.html"))
        self.assertIn('<a href="low.html#type/kinds%3AKind">Kind.Heavy</a>', self.page("high.html"))

    def test_what_a_binder_binds_leads_nowhere(self) -> None:
        self.assertIn('hides total <a href="low.html#Sums%3ALeaf">Leaf</a> = total\n', self.page("high.html"))

    def test_where_a_definition_is_used(self) -> None:
        self.assertIn('used in 3 places</summary><a href="#proofs/SumLemmas%3Atotal-nil">total-nil</a>', self.page("low.html"))
        self.assertIn('<a href="high.html#fn/making%3Amake">make</a> (high)', self.page("low.html"))

    def test_a_comment_is_shown_as_one(self) -> None:
        self.assertIn('<span class="c">-- the sum of a list</span>', self.page("low.html"))

    def test_no_link_leads_nowhere(self) -> None:
        self.assertEqual(book.dangling(self.to), [])

    def test_a_link_that_leads_nowhere_is_told(self) -> None:
        path = self.to / "high.html"
        path.write_text(self.page("high.html").replace("low.html#Sums%3Atotal", "low.html#Sums%3Aother", 1), encoding="utf-8")
        self.assertEqual(book.dangling(self.to), ["high.html: low.html#Sums%3Aother leads nowhere"])

    def test_an_anchor_that_stands_twice_is_told(self) -> None:
        path = self.to / "low.html"
        path.write_text(self.page("low.html") + '<p id="Sums:total"></p>', encoding="utf-8")
        self.assertEqual(book.dangling(self.to), ["low.html: Sums:total stands 2 times"])

    def test_names_to_search(self) -> None:
        self.assertIn('["total-nil","low, lemma","low.html#proofs/SumLemmas%3Atotal-nil"]', self.page("book.js"))


class Repository(unittest.TestCase):
    def test_no_link_leads_nowhere(self) -> None:
        with tempfile.TemporaryDirectory() as folder:
            book.write(antt.Project(book.ROOT), pathlib.Path(folder))
            self.assertEqual(book.dangling(pathlib.Path(folder)), [])


if __name__ == "__main__":
    unittest.main()
