"""A file as graphs of blocks, for graphviz."""
from __future__ import annotations

from typing import Iterator

from .graph import Block
from .views import Shown, View

STYLES = {"next": "", "jump": " color=\"#2457c5\"", "raise": " color=\"#b4332a\" style=dashed"}


def dot_of_view(view: View) -> str:
    """A digraph: a cluster for each code, a node for each block with its units and their heights."""
    lines = ["digraph %s {" % quoted(view.name), "  node [shape=box fontname=monospace fontsize=10]", "  edge [fontname=monospace fontsize=9]"]
    for shown in view.codes:
        lines += ["  " + it for it in lines_of_code(shown)]
    return "\n".join([*lines, "}"]) + "\n"


def lines_of_code(shown: Shown) -> Iterator[str]:
    """The cluster of a code."""
    yield "subgraph cluster_%d {" % shown.number
    yield "  label=%s" % quoted("%s, depth %d" % (shown.code.obj_name, shown.code.max_stackdepth))
    for block in shown.blocks:
        yield "  %s [label=%s%s]" % (name_of(shown, block.start), label_of(shown, block), "" if block.start in shown.heights.before else " style=dotted")
    for block in shown.blocks:
        for edge in block.edges:
            label = " label=%s" % quoted(edge.label) if edge.label else ""
            words = (STYLES[edge.kind] + label).strip()
            yield "  %s -> %s%s" % (name_of(shown, block.start), name_of(shown, edge.target), " [%s]" % words if words else "")
    yield "}"


def name_of(shown: Shown, unit: int) -> str:
    """The name of the node of the block that begins at a unit."""
    return "c%du%d" % (shown.number, unit)


def label_of(shown: Shown, block: Block) -> str:
    """The label of a block: its units, each behind the height of the stack before it."""
    lines = []
    for instruction in block.instructions:
        height = shown.heights.before.get(instruction.start)
        for unit in range(instruction.start, instruction.following):
            lines.append("%2s | %s" % ("-" if height is None else height, shown.lines[unit].text))
    # Each line is set to the left.
    return '"%s"' % "".join(escaped(it) + "\\l" for it in lines)


def quoted(text: str) -> str:
    """A text as graphviz reads it."""
    return '"%s"' % escaped(text)


def escaped(text: str) -> str:
    return text.replace("\\", "\\\\").replace('"', '\\"')
