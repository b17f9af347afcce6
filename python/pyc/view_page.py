"""A file as one page for a browser, which takes nothing from elsewhere (docs/SHOW.md)."""
from __future__ import annotations

import os
from html import escape
from typing import Dict, Iterator, List, Optional, Tuple

from .graph import Block, Edge, Instruction
from .lanes import Line, lanes_of
from .refusals import Refusal, width_of
from .view_source import INSTEAD, Piece, pieces_of
from .views import Cell, Shown, View

# Heights of rows, in pixels; page.css has them once more.
ROW, GAP = 22, 16
SCOPE_ROW = 26
# How far lanes stand from one another, from the rows, and how wide all of them may be.
LANE, MARGIN, WIDEST = 9, 16, 150
# The height of the stack whose bar is whole; higher ones have it too.
HIGHEST = 8

FLAGS = {1: "names of its own", 2: "a generator", 8: "further positional arguments", 16: "further keywords", 32: "quick locals"}
TABLES = (("constants", "constants"), ("names", "names"), ("varnames", "local variables"), ("cells", "cells"), ("free", "free variables"), ("cell2arg", "parameters that cells are"))
LEAVING = {"ReturnValue": "returns", "ReturnConst": "returns", "Raise": "raises"}


def page_of_view(view: View, mode: str, level: str) -> str:
    """The page of a view."""
    places = {tuple(map(int, line.place.split(":"))) for it in view.codes for line in it.lines if line.row}
    parts = [
        "<!doctype html>",
        '<html lang="en">',
        "<head>",
        '<meta charset="utf-8">',
        '<meta name="viewport" content="width=device-width, initial-scale=1">',
        "<title>%s</title>" % text(view.name),
        "<style>\n%s</style>" % part("page.css"),
        "</head>",
        "<body>",
        *header(view, mode, level),
        '<main class="panes%s">' % ("" if view.source is not None and view.codes else " plain" if view.source is not None else " alone"),
    ]
    if view.source is not None:
        parts += source_pane(view.source, places, view)
    parts += code_pane(view)
    parts += scopes_pane(view.codes)
    parts += ["</main>", *(legend() if view.codes else ()), "<script>\n%s</script>" % part("page.js"), "</body>", "</html>"]
    return "\n".join(parts) + "\n"


def part(name: str) -> str:
    """A part of the page that stands beside this module as a file."""
    with open(os.path.join(os.path.dirname(os.path.abspath(__file__)), name), encoding="utf-8") as it:
        return it.read()


def text(value: str) -> str:
    """A text as the page holds it, without characters that would not be seen."""
    return escape(value.translate(INSTEAD))


def counted(count: int, word: str) -> str:
    return "%d %s%s" % (count, word, "" if count == 1 else "s")


def header(view: View, mode: str, level: str) -> Iterator[str]:
    """The head of the page: what is shown, in numbers, and ways to its parts."""
    if view.refusal is not None:
        facts = ["refused"]
    else:
        depth = max(it.code.max_stackdepth for it in view.codes)
        units = sum(len(it.lines) for it in view.codes)
        facts = [counted(len(view.codes), "code"), counted(units, "unit"), "depth %d" % depth]
    if view.source is not None:
        facts = ["mode %s" % mode, "level %s" % level, *facts]
    yield '<header class="top">'
    yield "<h1>%s</h1>" % text(view.name)
    yield '<p class="facts">%s</p>' % "".join("<span>%s</span>" % it for it in facts)
    yield '<nav aria-label="Parts of this page">'
    if view.source is not None:
        yield '<a href="#source">Source</a>'
    yield '<a href="#code">Code</a>'
    if view.codes:
        yield '<a href="#scopes">Scopes</a>'
        yield '<a href="#legend">Legend</a>'
    yield "</nav>"
    yield "</header>"


# The source.


def source_pane(lines: List[str], places: set, view: View) -> Iterator[str]:
    """The source, with what units have as their place, and a refusal at its own."""
    refusal = view.refusal
    yield '<section class="pane" id="source" aria-labelledby="source-title">'
    yield '<h2 id="source-title">Source</h2>'
    row_of_refusal, column = (refusal and refusal.place) or (0, 0)
    if refusal is not None and not 1 <= row_of_refusal <= len(lines):
        yield '<p class="refusal" role="note">%s</p>' % text(refusal.text)
    yield '<ol class="lines">'
    for row, pieces in enumerate(pieces_of(lines, places), 1):
        is_refused = row == row_of_refusal
        yield '<li id="L%d"%s><span class="nr">%d</span><code>%s</code>' % (
            row,
            ' class="refused"' if is_refused else "",
            row,
            "".join(piece_text(it, row) for it in pieces) or " ",
        )
        if is_refused:
            yield mark_of(lines[row - 1], column, refusal)
        yield "</li>"
    yield "</ol>"
    yield "</section>"


def piece_text(piece: Piece, row: int) -> str:
    """A piece of a line."""
    if piece.column:
        place = "%d:%d" % (row, piece.column)
        classes = " ".join(filter(None, ("p", piece.kind)))
        return '<span class="%s" data-place="%s" tabindex="-1">%s</span>' % (classes, place, escape(piece.text))
    return '<span class="%s">%s</span>' % (piece.kind, escape(piece.text)) if piece.kind else escape(piece.text)


def mark_of(line: str, column: int, refusal: Refusal) -> str:
    """The mark below the column of a refusal, the reason, and what kind it is."""
    before = line[: column - 1]
    blanks = "".join(it if it == "\t" else " " * width_of(it) for it in before)
    reason, note = text(refusal.text), text(refusal.note)
    return '<p class="refusal" role="note"><code>%s</code><span class="caret">^</span><strong>%s</strong><em>%s</em></p>' % (blanks, reason, note)


# The code.


def code_pane(view: View) -> Iterator[str]:
    """The codes, one below the other."""
    yield '<section class="pane" id="code" aria-labelledby="code-title">'
    yield '<h2 id="code-title">Code</h2>'
    if view.refusal is not None:
        place = "" if view.refusal.place is None else "%d:%d: " % view.refusal.place
        yield '<p class="empty">Nothing was compiled. <strong>%s%s</strong></p>' % (place, text(view.refusal.text))
    for shown in view.codes:
        yield from code_article(shown)
    yield "</section>"


def code_article(shown: Shown) -> Iterator[str]:
    """A code: what it is, its tables, and its blocks."""
    code = shown.code
    line = "" if code.first_line_number is None else "line %d" % code.first_line_number
    parameters = counted(code.arg_count + code.kwonlyarg_count, "parameter") if code.arg_count + code.kwonlyarg_count else ""
    flags = ", ".join(word for bit, word in FLAGS.items() if code.flags & bit)
    facts = [line, parameters, "depth %d" % code.max_stackdepth, counted(len(shown.lines), "unit"), counted(len(shown.blocks), "block")]
    yield '<article class="code" id="c%d" aria-labelledby="c%d-title">' % (shown.number, shown.number)
    yield '<h3 id="c%d-title"><span class="name">%s</span> <span class="kind">%s</span></h3>' % (shown.number, text(code.obj_name), shown.kind)
    yield '<p class="facts">%s</p>' % "".join("<span>%s</span>" % it for it in facts if it)
    yield from tables(shown, flags)
    yield from graph_of(shown)
    yield "</article>"


def tables(shown: Shown, flags: str) -> Iterator[str]:
    """The tables of a code, folded; as its listing has them."""
    yield '<details class="tables"><summary>Tables</summary><dl>'
    if flags:
        yield "<dt>flags</dt><dd>%d: %s</dd>" % (shown.code.flags, flags)
    for line in shown.head[1:]:
        word, _, entries = line.partition(": ")
        yield "<dt>%s</dt><dd><code>%s</code></dd>" % (dict(TABLES).get(word, word), text(entries))
    yield "</dl></details>"


class Layout:
    """Where the blocks of a code stand in its picture, in pixels from its top."""

    def __init__(self, shown: Shown) -> None:
        self.tops: Dict[int, int] = {}
        self.rows: Dict[int, float] = {}
        self.bottoms: Dict[int, int] = {}
        at = 0
        for block in shown.blocks:
            self.tops[block.start] = at
            for unit in range(block.start, block.end):
                self.rows[unit] = at + ROW / 2
                at += ROW
            # A block ends with a row that tells where it leads.
            at += ROW
            self.bottoms[block.start] = at
            at += GAP
        self.height = max(at - GAP, 0)


def graph_of(shown: Shown) -> Iterator[str]:
    """The blocks of a code, with the ways between them at their left."""
    layout = Layout(shown)
    crossing = [it for block in shown.blocks for it in block.edges if it.kind != "next"]
    # Where one line begins and another ends at a unit, they stand apart.
    lines = [Line(layout.rows[it.source] + 4.5, layout.rows[it.target] - 2.5, (it.target, it.kind)) for it in crossing]
    lanes = lanes_of(lines)
    count = max(lanes, default=-1) + 1
    step = min(LANE, WIDEST / count) if count else LANE
    width = int(count * step) + MARGIN + 4
    yield '<div class="graph" style="--gutter:%dpx">' % width
    yield '<svg class="edges" width="%d" height="%d" aria-hidden="true">' % (width + 40, layout.height)
    for block in shown.blocks:
        yield from (down(shown, layout, block, it, width) for it in block.edges if it.kind == "next")
    for edge, line, lane in zip(crossing, lines, lanes):
        yield across(shown, edge, line, int(width - MARGIN - lane * step) + 0.5, width - 2)
    yield "</svg>"
    yield '<ol class="blocks">'
    for block in shown.blocks:
        yield from block_rows(shown, block)
    yield "</ol>"
    yield "</div>"


def group(shown: Shown, edge: Edge, kind: str, path: str, tip: str) -> str:
    """An edge as a line with a tip."""
    ends = 'data-from="c%du%d" data-to="c%du%d"' % (shown.number, edge.source, shown.number, edge.target)
    return '<g class="edge %s" %s><path d="%s"/><path class="tip" d="%s"/></g>' % (kind, ends, path, tip)


def down(shown: Shown, layout: Layout, block: Block, edge: Edge, width: int) -> str:
    """The way to the block below."""
    x, top, end = width + 22.5, layout.bottoms[block.start], layout.tops[edge.target]
    return group(shown, edge, "next", "M%g %dV%d" % (x, top, end - 2), "M%g %dl-3.5 -6h7z" % (x, end - 1))


def across(shown: Shown, edge: Edge, line: Line, x: float, right: int) -> str:
    """The way to another block, whose lane is at x."""
    turn = 4 if line.end > line.begin else -4
    path = "M%d %gH%gQ%g %g %g %gV%gQ%g %g %g %gH%d" % (
        right, line.begin, x + 4, x, line.begin, x, line.begin + turn,
        line.end - turn, x, line.end, x + 4, line.end, right - 5,
    )  # fmt: skip
    kind = "jump back" if edge.kind == "jump" and line.end < line.begin else edge.kind
    return group(shown, edge, kind, path, "M%d %gl-6 -3.5v7z" % (right, line.end))


def block_rows(shown: Shown, block: Block) -> Iterator[str]:
    """A block: a row for each unit, and one that tells where it leads."""
    is_reached = block.start in shown.heights.before
    yield '<li class="block%s"><ol>' % ("" if is_reached else " dead")
    for instruction in block.instructions:
        for unit in range(instruction.start, instruction.following):
            yield unit_row(shown, unit, shown.heights.before.get(instruction.start), instruction)
    yield "</ol>"
    yield '<p class="ways">%s</p>' % ways(shown, block, is_reached)
    yield "</li>"


def ways(shown: Shown, block: Block, is_reached: bool) -> str:
    """Where a block leads."""
    last = block.instructions[-1]
    found = [] if is_reached else ["<span>not reached</span>"]
    for edge in block.edges:
        label = '<span class="when">%s</span> ' % edge.label if edge.label else ""
        back = " back" if edge.kind == "jump" and edge.target <= edge.source else ""
        found.append('<span class="way %s%s">%s<a href="#c%du%d">%d</a></span>' % (edge.kind, back, label, shown.number, edge.target, edge.target))
    if not block.edges:
        found.append('<span class="way">%s</span>' % LEAVING.get(last.name, "ends"))
    return "".join(found)


def unit_row(shown: Shown, unit: int, height: Optional[int], instruction: Instruction) -> str:
    """The row of a unit: the height before it, and the columns of its line in the listing."""
    line = shown.lines[unit]
    bar = ' style="--h:%.3g"' % min(height / HIGHEST, 1) if height else ""
    columns = [
        '<span class="h"%s>%s</span>' % (bar, "" if height is None else height),
        '<span class="at">%d</span>' % unit,
        '<span class="pl">%s</span>' % line.place,
        '<span class="op" title="%s">%s</span>' % (line.name, line.name) if len(line.name) > 17 else '<span class="op">%s</span>' % line.name,
        '<span class="by">%s</span>' % line.byte,
        meaning(shown, line.meaning, instruction),
    ]
    place = ' data-place="%s"' % line.place if line.row else ""
    return '<li class="u" id="c%du%d"%s tabindex="-1">%s</li>' % (shown.number, unit, place, " ".join(columns))


def meaning(shown: Shown, said: str, instruction: Instruction) -> str:
    """What the operand of a unit names, which leads there where it is a unit or a code."""
    goal = None
    if said and instruction.target is not None:
        goal = "c%du%d" % (shown.number, instruction.target)
    elif said and instruction.name in ("LoadConst", "ReturnConst") and instruction.operand in shown.children:
        goal = "c%d" % shown.children[instruction.operand]
    long = ' title="%s"' % text(said) if len(said) > 24 else ""
    inner = '<a href="#%s">%s</a>' % (goal, text(said)) if goal else text(said)
    return '<span class="ar"%s>%s</span>' % (long, inner)


# The scopes.


def scopes_pane(codes: List[Shown]) -> Iterator[str]:
    """The scopes as a tree, and the way of each free variable to the cell that it is."""
    if not codes:
        return
    rows: Dict[Tuple[int, int], int] = {}
    entries: List[str] = []
    for shown in codes:
        entries.append(scope_row(shown))
        for at, cell in enumerate(shown.cells):
            rows[shown.number, at] = len(entries)
            entries.append(cell_row(shown, at, cell))
    drawn = [((it.number, at), cell.binder) for it in codes for at, cell in enumerate(it.cells) if cell.binder is not None]
    lines = [Line(middle(rows[use]), middle(rows[binder]), binder) for use, binder in drawn]
    lanes = lanes_of(lines)
    width = (max(lanes, default=-1) + 1) * LANE + MARGIN
    yield '<section class="pane" id="scopes" aria-labelledby="scopes-title">'
    yield '<h2 id="scopes-title">Scopes</h2>'
    yield '<div class="tree" style="--gutter:%dpx">' % width
    yield '<ol class="scopes">'
    yield from entries
    yield "</ol>"
    yield '<svg class="edges" width="%d" height="%d" aria-hidden="true">' % (width, len(entries) * SCOPE_ROW)
    for (use, binder), line, lane in zip(drawn, lines, lanes):
        yield cell_edge(use, binder, line, MARGIN + lane * LANE - 5.5)
    yield "</svg>"
    yield "</div>"
    if not drawn:
        yield '<p class="empty">No scope uses a variable of another function.</p>'
    yield "</section>"


def middle(row: int) -> float:
    """The height of the middle of a row, between two pixels, so that a thin line is sharp."""
    return row * SCOPE_ROW + SCOPE_ROW / 2 + 0.5


def scope_row(shown: Shown) -> str:
    """The row of a scope: what it is, and the variables that are its own."""
    own = [it for it in shown.code.varnames if it not in shown.code.cellvars]
    line = shown.code.first_line_number
    said = '<span class="own" title="local variables">%s</span>' % text(" ".join(own)) if own else ""
    return '<li class="s" style="--d:%d"><a class="name" href="#c%d">%s</a> <span class="kind">%s</span>%s %s</li>' % (
        shown.depth, shown.number, text(shown.code.obj_name), shown.kind,
        "" if line is None else ' <span class="row">%d</span>' % line, said,
    )  # fmt: skip


def cell_row(shown: Shown, at: int, cell: Cell) -> str:
    """The row of a variable that scopes share, with the places of its uses."""
    uses = "".join('<span class="pl" data-place="%s" tabindex="-1">%s</span>' % (it, it) for it in cell.places[:8])
    more = '<span class="more">+%d</span>' % (len(cell.places) - 8) if len(cell.places) > 8 else ""
    return '<li class="v %s" id="s%dv%d" style="--d:%d"><span class="var">%s</span><span class="kind">%s</span><span class="uses">%s%s</span>%s</li>' % (
        "free" if cell.is_free else "cell", shown.number, at, shown.depth,
        text(cell.name), "free" if cell.is_free else "cell", uses, more, '<i class="leader"></i>',
    )  # fmt: skip


def cell_edge(use: Tuple[int, int], binder: Tuple[int, int], line: Line, x: int) -> str:
    """The line from a free variable to the cell that it is, whose lane is at x."""
    path = "M0 %gH%gQ%g %g %g %gV%gQ%g %g %g %gH7" % (
        line.begin, x - 4, x, line.begin, x, line.begin - 4, line.end + 4, x, line.end, x - 4, line.end,
    )  # fmt: skip
    ends = 'data-from="s%dv%d" data-to="s%dv%d"' % (*use, *binder)
    return '<g class="edge cellway" %s><path d="%s"/><path class="tip" d="M1 %gl6 -3.5v7z"/></g>' % (ends, path, line.end)


def legend() -> Iterator[str]:
    """What the marks of the page mean."""
    lines = (
        ("next", "M2 8.5H22", "to the block below"),
        ("jump", "M2 8.5H22", "a jump"),
        ("jump back", "M2 8.5H22", "a jump back"),
        ("raise", "M2 8.5H22", "to the handler of what is raised"),
        ("cellway", "M2 8.5H22", "a free variable to its cell"),
    )
    yield '<footer id="legend" aria-label="Legend">'
    yield '<ul class="legend">'
    yield '<li><span class="p sample">place</span> point at it, or at its units</li>'
    yield '<li><span class="h sample" style="--h:.5">3</span> height of the stack before a unit</li>'
    for kind, path, about in lines:
        yield '<li><svg width="30" height="16" aria-hidden="true"><g class="edge %s"><path d="%s"/><path class="tip" d="M28 8.5l-6 -3.5v7z"/></g></svg>%s</li>' % (kind, path, about)
    yield '<li class="keys"><kbd>↑</kbd> <kbd>↓</kbd> next place <kbd>Enter</kbd> other side <kbd>→</kbd> follow a jump <kbd>Esc</kbd> let go</li>'
    yield "</ul>"
    yield "</footer>"
