#!/usr/bin/env python3
"""Tests of `show`: graphs and heights beside the model, pages, text and graphs for graphviz, and pages in Chromium."""
from __future__ import annotations

import html.parser
import json
import os
import pathlib
import re
import shutil
import subprocess
import sys
import tempfile
import unittest

HERE = pathlib.Path(__file__).resolve().parent
ROOT = HERE.parent.parent
sys.path[:0] = [str(HERE.parent), str(HERE), str(ROOT / "tools" / "model")]

import instr
import layout
import sound
from in_process import call
from pyc import codefile, graph, listing, view_dot, view_page, view_text, views
from pyc.flow import LABELS, flow_of
from pyc.lanes import Line, lanes_of
from pyc.refusals import Refusal, refusal
from pyc.view_source import pieces_of

EXAMPLES = sorted((ROOT / "examples").glob("*.py"))
PROGRAM = ROOT / "crates" / "pyc" / "out" / "pyc"
CHROMIUM = next(filter(None, map(shutil.which, ("chromium", "chromium-browser", "google-chrome"))), None)
EMPTY = {"meta", "br", "link", "img", "input", "hr"}


def codes_within(code):
    """A code and those within it."""
    yield code
    for it in code.codes:
        yield from codes_within(it)


def view_of_example(path):
    """The view of an example, of the listing that the model gave."""
    text = path.with_suffix(".txt").read_text(encoding="utf-8")
    data = codefile.write(listing.read_listing(text))
    return views.View(path.name, views.lines_shown(path.read_bytes()), views.codes_of(data, text), None)


def heights_by_the_model(code):
    """The height at each unit that a walk of the model reaches."""
    by_start = {it.start: it for it in graph.instructions_of(code.instructions)}
    state, left = {0: (0, ())}, [0]
    while left:
        it = by_start[left.pop()]
        for is_jump, height, shape in layout.edges(it.name, it.operand, *state[it.start]):
            goal = it.operand if is_jump else it.following
            if goal not in state:
                state[goal] = (height, shape)
                left.append(goal)
    return {unit: height for unit, (height, _) in state.items()}


class Graphs(unittest.TestCase):
    def test_each_instruction_beside_the_model(self):
        for name in instr.TABLE:
            for operand in (0, 1, 2, 3, 7, 31, 0x102, 0x203):
                if not instr.in_range(name, operand, dict.fromkeys(("Const", "Name", "Var", "Cell"), 1024)):
                    continue
                flow = flow_of(name, operand)
                self.assertEqual(flow.falls is None, instr.unconditional_branch(name), name)
                self.assertEqual(name in LABELS, instr.has_target(name), name)
                if flow.falls is not None:
                    self.assertEqual(flow.falls, (instr.takes(name, operand), instr.gives(name, operand)), name)
                if flow.jumps is not None:
                    self.assertEqual(flow.jumps.gives - flow.jumps.takes, instr.stack_effect(name, operand, True), name)

    def test_heights_of_the_examples(self):
        for path in EXAMPLES:
            for code in codes_within(listing.read_listing(path.with_suffix(".txt").read_text(encoding="utf-8"))):
                heights = graph.heights_of(code.instructions)
                self.assertEqual(heights.depth, code.max_stackdepth)
                self.assertEqual(heights.before, heights_by_the_model(code))

    def test_blocks_of_the_examples(self):
        for path in EXAMPLES:
            for code in codes_within(listing.read_listing(path.with_suffix(".txt").read_text(encoding="utf-8"))):
                blocks = graph.blocks_of(code.instructions)
                units = [it for block in blocks for it in range(block.start, block.end)]
                self.assertEqual(units, list(range(len(code.instructions))))
                starts = {it.start for it in blocks}
                self.assertLessEqual({edge.target for it in blocks for edge in it.edges}, starts)

    def test_a_loop_by_hand(self):
        # for x in a:
        #     if x: continue
        #     with x: break
        units = [
            ("SetupLoop", 0), ("LoadFast", 0), ("GetIter", 0), ("ForIter", 16), ("StoreFast", 1), ("LoadFast", 1),
            ("JumpIfFalse", 8), ("Continue", 3), ("LoadFast", 1), ("SetupWith", 13), ("Pop", 0), ("Break", 17),
            ("PopBlock", 0), ("WithCleanupStart", 0), ("WithCleanupFinish", 0), ("Jump", 3), ("PopBlock", 0),
            ("ReturnConst", 0),
        ]  # fmt: skip
        heights = graph.heights_of(units)
        found = [heights.before.get(it) for it in range(len(units))]
        self.assertEqual(found, [0, 0, 1, 1, 2, 1, 2, 1, 1, 2, 3, 2, None, 2, 2, 1, 0, 0])
        self.assertEqual(heights.depth, 3)
        blocks = graph.blocks_of(units)
        self.assertEqual([it.start for it in blocks], [0, 3, 4, 7, 8, 10, 12, 13, 16, 17])
        edges = [(edge.source, edge.target, edge.kind, edge.label) for it in blocks for edge in it.edges]
        self.assertEqual(edges, [
            (2, 3, "next", ""), (3, 4, "next", "a value"), (3, 16, "jump", "ended"), (6, 7, "next", "true"), (6, 8, "jump", "false"),
            (7, 3, "jump", ""), (9, 10, "next", ""), (9, 13, "raise", "raised"), (11, 17, "jump", ""), (12, 13, "next", ""),
            (15, 3, "jump", ""), (16, 17, "next", ""),
        ])  # fmt: skip

    def test_prefixes(self):
        units = [("ExtendedArg", 1), ("LoadConst", 2), ("Jump", 4), ("Nop", 0), ("ExtendedArg", 1), ("ExtendedArg", 0), ("ReturnConst", 0)]
        found = graph.instructions_of(units)
        self.assertEqual([(it.start, it.unit, it.operand) for it in found], [(0, 1, 0x102), (2, 2, 4), (3, 3, 0), (4, 6, 0x10000)])
        self.assertEqual([(it.start, it.end) for it in graph.blocks_of(units)], [(0, 3), (3, 4), (4, 7)])

    def test_uneven_heights_are_an_error(self):
        with self.assertRaisesRegex(ValueError, "unit 3: uneven heights"):
            graph.heights_of([("LoadFast", 0), ("JumpIfTrueOrPop", 3), ("Nop", 0), ("ReturnConst", 0)])

    def test_the_model_finds_the_same_depth(self):
        for path in EXAMPLES:
            for code in codes_within(listing.read_listing(path.with_suffix(".txt").read_text(encoding="utf-8"))):
                self.assertEqual(sound.walks(code), ([], graph.heights_of(code.instructions).depth))


class Lanes(unittest.TestCase):
    def test_no_two_lie_on_one_another(self):
        lines = [Line(0, 9, "a"), Line(1, 3, "b"), Line(4, 6, "c"), Line(8, 2, "d"), Line(7, 9, "a"), Line(10, 11, "e")]
        lanes = lanes_of(lines)
        self.assertEqual(lanes[0], lanes[4])
        for one, lane in zip(lines, lanes):
            for other, another in zip(lines, lanes):
                if one.goal != other.goal and lane == another:
                    self.assertTrue(max(one[:2]) < min(other[:2]) or max(other[:2]) < min(one[:2]), (one, other))
        self.assertEqual([lanes[it] for it in (1, 2, 5)], [0, 0, 0])


class Page(html.parser.HTMLParser):
    """A page, read strictly: its tags nest, and no id stands twice."""

    def __init__(self, text):
        super().__init__(convert_charrefs=True)
        self.open, self.ids, self.elements, self.refs = [], {}, [], []
        self.texts = []
        self.feed(text)
        self.close()
        if self.open:
            raise ValueError("not closed: %s" % self.open[-1][0])

    def handle_starttag(self, tag, attributes):
        self.element(tag, attributes)
        if tag not in EMPTY:
            self.open.append((tag, self.elements[-1]))

    def handle_startendtag(self, tag, attributes):
        self.element(tag, attributes)

    def element(self, tag, attributes):
        given = dict(attributes)
        if len(given) != len(attributes):
            raise ValueError("an attribute twice: %r" % (attributes,))
        if "id" in given:
            if given["id"] in self.ids:
                raise ValueError("an id twice: %s" % given["id"])
            self.ids[given["id"]] = given
        given.update(tag=tag, text="", above=[it for _, it in self.open])
        self.elements.append(given)

    def handle_endtag(self, tag):
        if not self.open or self.open[-1][0] != tag:
            raise ValueError("</%s> at %s" % (tag, self.getpos()))
        self.open.pop()

    def handle_data(self, data):
        for _, it in self.open:
            it["text"] += data

    def of_class(self, word):
        """The elements of a class, in order."""
        return [it for it in self.elements if word in (it.get("class") or "").split()]


class Pages(unittest.TestCase):
    def pages(self):
        for path in EXAMPLES:
            with self.subTest(example=path.name):
                view = view_of_example(path)
                text = view_page.page_of_view(view, "exec", "0")
                yield view, text, Page(text)

    def test_nothing_comes_from_elsewhere(self):
        for _, text, page in self.pages():
            self.assertTrue(text.startswith("<!doctype html>\n"))
            self.assertNotRegex(text, r"(?i)https?:|//[a-z]|url\(|@import|\bsrc=|<link|<base|<iframe|<object|<embed")
            self.assertLessEqual({it["href"][0] for it in page.elements if "href" in it}, {"#"})

    def test_each_unit_stands_once_with_the_columns_of_the_listing(self):
        for view, _, page in self.pages():
            rows = page.of_class("u")
            wanted = ["c%du%d" % (it.number, line.unit) for it in view.codes for line in it.lines]
            self.assertEqual([it["id"] for it in rows], wanted)
            said = [" ".join(it["text"].split()) for it in rows]
            heights = [it.heights.before.get(line.unit) for it in view.codes for line in it.lines]
            lines = [line for line in (ROOT / "examples" / view.name).with_suffix(".txt").read_text(encoding="utf-8").split("\n") if re.match(r"\d", line)]
            self.assertEqual(said, [" ".join(filter(None, ["" if height is None else str(height), line])) for height, line in zip(heights, lines)])

    def test_each_way_leads_to_a_unit_that_begins_a_block(self):
        for view, _, page in self.pages():
            drawn = [(it["data-from"], it["data-to"]) for it in page.of_class("edge") if "data-from" in it and it["data-from"][0] == "c"]
            wanted = [("c%du%d" % (it.number, edge.source), "c%du%d" % (it.number, edge.target)) for it in view.codes for block in it.blocks for edge in block.edges]
            self.assertEqual(sorted(drawn), sorted(wanted))
            starts = {"c%du%d" % (it.number, block.start) for it in view.codes for block in it.blocks}
            self.assertLessEqual({goal for _, goal in drawn}, starts)
            self.assertLessEqual({it for ends in drawn for it in ends}, set(page.ids))

    def test_each_link_leads_to_something(self):
        for _, _, page in self.pages():
            for it in page.elements:
                if "href" in it:
                    self.assertIn(it["href"][1:], page.ids)

    def test_the_source_and_its_places(self):
        for view, _, page in self.pages():
            lines = [it for it in page.elements if it["tag"] == "code" and any("lines" in (above.get("class") or "") for above in it["above"])]
            self.assertEqual([it["text"].rstrip() for it in lines], [it.rstrip() for it in view.source])
            places = {it["data-place"] for it in page.of_class("p") if "data-place" in it}
            self.assertEqual(places, {line.place for it in view.codes for line in it.lines})
            for it in page.of_class("p"):
                if "data-place" in it:
                    row, column = map(int, it["data-place"].split(":"))
                    self.assertTrue(view.source[row - 1][column - 1 :].startswith(it["text"]), it)
                    self.assertTrue(it["text"].strip(), it)

    def test_each_free_variable_leads_to_its_cell(self):
        found = []
        for view, _, page in self.pages():
            names = {it["id"]: (it["class"].split()[1], it["text"]) for it in page.of_class("v")}
            for it in page.of_class("cellway"):
                if "data-from" in it:
                    use, binder = names[it["data-from"]], names[it["data-to"]]
                    self.assertEqual((use[0], binder[0]), ("free", "cell"))
                    found.append((view.name, re.match(r"\w+?(?=free|cell)", use[1])[0], re.match(r"\w+?(?=free|cell)", binder[1])[0]))
        # By hand: counter's `start`, and the class of `super()`.
        self.assertEqual(found, [("classes.py", "__class__", "__class__"), ("closure.py", "start", "start")])

    def test_a_binder_two_scopes_away(self):
        text = (
            "code '<module>' from 'm.py' line 1 flags 1 args 0 0 0 depth 1\nconstants: <code 'f'>, 1\n0 1:1 ReturnConst 1 1\n"
            "code 'f' from 'm.py' line 1 flags 33 args 0 0 0 depth 1\nconstants: <code 'C'>\ncells: 'x', 'y'\n0 1:1 LoadClosure 1 'y'\n1 1:1 ReturnValue\n"
            "code 'C' from 'm.py' line 2 flags 0 args 0 0 0 depth 1\nconstants: <code '<lambda>'>\nfree: 'x'\n0 2:1 LoadDeref 0 'x'\n1 2:1 ReturnValue\n"
            "code '<lambda>' from 'm.py' line 3 flags 33 args 0 0 0 depth 1\nfree: 'y', 'x'\n0 3:1 LoadDeref 1 'x'\n1 3:5 ReturnValue\n"
        )
        codes = views.codes_of(codefile.write(listing.read_listing(text)), text)
        self.assertEqual([(it.kind, it.parent, it.depth) for it in codes], [("module", None, 0), ("function", 0, 1), ("class", 1, 2), ("lambda", 2, 3)])
        self.assertEqual([it[:3] for it in codes[3].cells], [("y", True, (1, 1)), ("x", True, (1, 0))])
        self.assertEqual([it.places for it in codes[3].cells], [(), ("3:1",)])
        Page(view_page.page_of_view(views.View("m.py", ["a", "b", "c"], codes, None), "exec", "0"))

    def test_a_refusal_stands_at_its_place(self):
        lines = ["x = '<script>' # \x1b[31m \u202e", "\tif 日本: break"]
        page_text = view_page.page_of_view(views.View("<b>.py", lines, [], Refusal("<b>.py", (2, 9), "'break' outside <loop>", "R0", "a <note>")), "exec", "0")
        page = Page(page_text)
        self.assertEqual([it["tag"] for it in page.elements if it["tag"] in ("b", "loop", "script")], ["script"])
        self.assertEqual(page.ids["L2"]["text"], "2\tif 日本: break\n\t         ^'break' outside <loop>a <note>\n")
        self.assertEqual(page.of_class("refused"), [page.ids["L2"]])
        self.assertNotRegex(page_text, "[\x00-\x08\x0b-\x1f\x7f\u202e]")
        self.assertIn("Nothing was compiled. 2:9: 'break' outside <loop>", page.ids["code"]["text"])
        Page(view_page.page_of_view(views.View("m.py", [""], [], refusal("m.py", None, "tree is too large: nodes")), "exec", "0"))

    def test_pieces(self):
        found = pieces_of(["f'a{b} {é}' if x else 'c'"], [(1, 1), (1, 5), (1, 9), (1, 13)])[0]
        self.assertEqual("".join(it.text for it in found), "f'a{b} {é}' if x else 'c'")
        self.assertEqual([(it.column, it.text) for it in found if it.column and it.column > 1], [(5, "b"), (9, "é"), (13, "if")])
        self.assertEqual(pieces_of(["x = ("], [(1, 1)])[0][0].text, "x")
        self.assertEqual([it.text for it in pieces_of(["'''a", "b'''"], [(1, 1)])[1]], ["b'''"])


LOOP = """\
while f(a) < 3:
    print(a, end='')
"""

LOOP_SHOWN = """\
code '<module>' from 'loop.py' line 1 flags 1 args 0 0 0 depth 4
constants: 3, '', ('end',), None
names: 'f', 'a', 'print'
1  while f(a) < 3:
       0 1:1 SetupLoop
   >>  1 1:7 LoadNameAny 0 'f'
       2 1:9 LoadNameAny 1 'a'
       3 1:9 CallFunctionPositional 1
       4 1:14 LoadConst 0 3
       5 1:14 CompareOperation 0 Less
       6 1:14 JumpIfFalse 14 to 14
2      print(a, end='')
       7 2:5 LoadNameAny 2 'print'
       8 2:11 LoadNameAny 1 'a'
       9 2:18 LoadConst 1 ''
      10 2:18 LoadConst 2 ('end',)
      11 2:18 CallFunctionKeyword 2
      12 2:18 Pop
      13 2:18 Jump 1 to 1
   >> 14 2:18 PopBlock
      15 2:18 ReturnConst 3 None
"""


def loop_view():
    """The view of LOOP; its listing is that of docs/LISTING.md."""
    lines = [re.sub(r"^ +(?:>> +)?", "", it) for it in LOOP_SHOWN.split("\n")[:-1] if not re.match(r"\d  ", it)]
    text = "".join(it + "\n" for it in lines)
    return views.View("loop.py", LOOP.split("\n")[:-1], views.codes_of(codefile.write(listing.read_listing(text)), text), None)


class Texts(unittest.TestCase):
    def test_lines_of_the_source_above_their_units(self):
        self.assertEqual(view_text.text_of_view(loop_view()), LOOP_SHOWN)

    def test_the_units_are_those_of_the_listing(self):
        for path in EXAMPLES:
            view = view_of_example(path)
            shown = view_text.text_of_view(view).split("\n")
            units = [re.sub(r"^ +(?:>> +)?", "", it) for it in shown if re.match(r" +(?:>> +)?\d+ \d+:\d+ [A-Z]", it)]
            wanted = [it for it in path.with_suffix(".txt").read_text(encoding="utf-8").split("\n") if re.match(r"\d", it)]
            self.assertEqual(units, wanted)

    def test_a_line_is_shown_without_controls(self):
        self.assertEqual(view_text.printable("\tx = '\x1b[31mé'"), "\tx = '\\x1b[31mé'")


class Dots(unittest.TestCase):
    def test_each_edge_has_nodes(self):
        for path in EXAMPLES:
            view = view_of_example(path)
            text = view_dot.dot_of_view(view)
            nodes = re.findall(r"^    (c\d+u\d+) \[label=", text, re.M)
            self.assertEqual(nodes, ["c%du%d" % (it.number, block.start) for it in view.codes for block in it.blocks])
            edges = re.findall(r"^    (c\d+u\d+) -> (c\d+u\d+)", text, re.M)
            self.assertEqual(len(edges), sum(len(block.edges) for it in view.codes for block in it.blocks))
            self.assertLessEqual({it for edge in edges for it in edge}, set(nodes))

    def test_the_loop_by_hand(self):
        text = view_dot.dot_of_view(loop_view())
        self.assertIn('    c0u0 [label=" 0 | 0 1:1 SetupLoop\\l"]\n', text)
        self.assertIn('    c0u1 -> c0u7 [label="true"]\n    c0u1 -> c0u14 [color="#2457c5" label="false"]\n', text)
        self.assertIn("    c0u7 -> c0u1 [color=\"#2457c5\"]\n", text)
        self.assertEqual(view_dot.quoted('a"\\'), '"a\\"\\\\"')

    @unittest.skipUnless(shutil.which("dot"), "there is no dot")
    def test_graphviz_reads_it(self):
        for path in EXAMPLES:
            ended = subprocess.run(["dot", "-Tplain"], input=view_dot.dot_of_view(view_of_example(path)).encode(), stdout=subprocess.PIPE, stderr=subprocess.PIPE)
            self.assertEqual((ended.returncode, ended.stderr), (0, b""))


def show(*words):
    """The status of a call of `show`, what it wrote, and what it told."""
    return call(["show", *map(str, words)], str(ROOT))


@unittest.skipUnless(PROGRAM.exists(), "the program is not built")
class Commands(unittest.TestCase):
    def setUp(self):
        folder = tempfile.TemporaryDirectory()
        self.addCleanup(folder.cleanup)
        self.folder = pathlib.Path(folder.name)
        self.loop = self.folder / "loop.py"
        self.loop.write_text(LOOP)

    def test_text(self):
        status, out, told = show(self.loop)
        self.assertEqual((status, told), (0, ""))
        self.assertEqual(out.replace(str(self.loop), "loop.py"), LOOP_SHOWN)
        self.assertEqual(show("-s", self.loop), (0, out, ""))

    def test_a_page_and_a_graph(self):
        page = self.folder / "page.html"
        self.assertEqual(show("--html", "-o", page, self.loop), (0, "", ""))
        self.assertEqual(len(Page(page.read_text()).of_class("u")), 16)
        self.assertTrue(show("--dot", self.loop)[1].startswith("digraph "))

    def test_a_file_of_code(self):
        from pyc.rows import rows_text

        packed = subprocess.run([PROGRAM, "pack", "exec", "0", "loop.py"], input=rows_text(self.loop.read_bytes()).encode(), stdout=subprocess.PIPE).stdout
        file = self.folder / "loop.code"
        file.write_bytes(packed)
        wanted = "".join(it + "\n" for it in LOOP_SHOWN.split("\n")[:-1] if not re.match(r"\d  ", it))
        status, out, told = show(file)
        self.assertEqual((status, told), (0, ""))
        self.assertEqual([it.strip() for it in out.split("\n")], [it.strip() for it in wanted.split("\n")])
        self.assertEqual(len(Page(show("--html", file)[1]).of_class("u")), 16)
        file.write_bytes(packed[:-1])
        self.assertEqual(show(file), (3, "", "%s: input: bad code file at %d\n" % (file, len(packed) - 1)))

    def test_a_refusal(self):
        self.loop.write_text("if x:\n    break\n")
        status, out, told = show(self.loop)
        self.assertEqual((status, out), (1, ""))
        self.assertTrue(told.startswith("%s:2:5: 'break' outside loop\n" % self.loop), told)
        self.assertEqual(show("--dot", self.loop)[:2], (1, ""))
        status, out, again = show("--html", self.loop)
        self.assertEqual((status, again), (1, told))
        self.assertIn("'break' outside loop", Page(out).ids["L2"]["text"])

    def test_wrong_words(self):
        for words, told in (
            ([], "show wants one file"),
            ([self.loop, "b.py"], "show takes one file, and 'b.py' is another"),
            (["--html", "--dot", self.loop], "-s, --html and --dot are three ways to show a file, and one is wanted"),
            (["-o", self.loop, self.loop], "-o %s is the file that is shown, and would be overwritten" % self.loop),
        ):
            status, out, said = show(*words)
            self.assertEqual((status, out, said.split("\n")[0]), (2, "", "pyc: " + told))
        self.assertEqual(self.loop.read_text(), LOOP)
        self.assertEqual(show(self.folder / "no.py")[0], 4)
        self.assertEqual(show("-o", self.folder / "no" / "page", self.loop)[0], 5)


# What is tried in a page: it is run in it, and gives a list.
TRIED = """
(function () {
  var out = [];
  function said(word, is) { out.push([word, !!is]); }
  function on(pane) { return document.querySelectorAll("#" + pane + " .on"); }
  function press(key) { document.activeElement.dispatchEvent(new KeyboardEvent("keydown", {key: key, bubbles: true, cancelable: true})); }
  // A window that is not in front tells no focus.
  function focus(it) { it.focus(); it.dispatchEvent(new FocusEvent("focusin", {bubbles: true})); }
  var unit = document.getElementById("c1u1");
  focus(unit);
  said("a unit joins its place", on("source").length === 1 && on("source")[0].dataset.place === unit.dataset.place);
  said("and the others of it", on("code").length === document.querySelectorAll('#code [data-place="' + unit.dataset.place + '"]').length);
  press("ArrowDown");
  said("an arrow goes to the next unit", document.activeElement.id === "c1u2");
  press("Enter");
  said("Enter goes to the source", document.activeElement.closest("#source"));
  press("Enter");
  said("and back", document.activeElement.closest("#code"));
  press("Escape");
  said("Escape lets go", on("code").length === 0);
  var place = document.querySelector("#source .p");
  place.dispatchEvent(new MouseEvent("mouseover", {bubbles: true}));
  said("a place joins its units", on("code").length > 0 && [].every.call(on("code"), function (it) { return it.dataset.place === place.dataset.place; }));
  said("one stop for the tabulator in a pane", ["source", "code"].every(function (it) { return document.querySelectorAll("#" + it + ' [data-place][tabindex="0"]').length === 1; }));
  var jump = document.querySelector(".edge.jump[data-from]");
  if (jump) {
    var from = document.getElementById(jump.dataset.from);
    focus(from);
    said("a jump is lit", jump.classList.contains("lit"));
    press("ArrowRight");
    said("and followed", document.activeElement.id === jump.dataset.to);
  }
  var use = document.querySelector(".v.free");
  if (use) {
    use.dispatchEvent(new MouseEvent("mouseover", {bubbles: true}));
    said("a free variable lights its cell", document.querySelector(".v.cell.on") && document.querySelector(".cellway.lit"));
  }
  said("nothing stands out at the side", document.documentElement.scrollWidth <= window.innerWidth);
  document.documentElement.setAttribute("data-tried", JSON.stringify(out));
})();
"""


@unittest.skipUnless(CHROMIUM, "there is no Chromium")
class InChromium(unittest.TestCase):
    def dump(self, path, width):
        """The page as Chromium has it in the end, and what it says in its console."""
        with tempfile.TemporaryDirectory() as profile:
            words = ["--headless=new", "--no-sandbox", "--disable-gpu", "--enable-logging=stderr", "--user-data-dir=" + profile, "--window-size=%d,900" % width]
            ended = subprocess.run([CHROMIUM, *words, "--virtual-time-budget=3000", "--dump-dom", path.as_uri()], stdout=subprocess.PIPE, stderr=subprocess.PIPE, timeout=120)
        if ended.returncode or not ended.stdout:
            self.skipTest("Chromium shows nothing here")
        console = [it for it in ended.stderr.decode("utf-8", "replace").split("\n") if "CONSOLE" in it]
        return ended.stdout.decode("utf-8", "replace"), console

    def test_pages_of_the_examples(self):
        # Both of what a page shows and draws is in these two.
        for name, width in (("closure.py", 1440), ("comprehension.py", 600)):
            with self.subTest(name=name), tempfile.TemporaryDirectory() as folder:
                text = view_page.page_of_view(view_of_example(ROOT / "examples" / name), "exec", "0")
                file = pathlib.Path(folder) / "page.html"
                file.write_text(text.replace("</body>", "<script>%s</script></body>" % TRIED), encoding="utf-8")
                dumped, console = self.dump(file, width)
                self.assertEqual(console, [])
                found = re.search(r'data-tried="([^"]*)"', dumped)
                self.assertIsNotNone(found, dumped[-300:])
                tried = json.loads(found[1].replace("&quot;", '"'))
                self.assertEqual([word for word, is_so in tried if not is_so], [])
                self.assertGreaterEqual(len(tried), 9)


if __name__ == "__main__":
    unittest.main()
