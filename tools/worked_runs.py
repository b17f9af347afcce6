"""The worked runs of docs/INSTRUCTIONS.md: each step of a program on the machine of tools/model, as rows of a table."""
from __future__ import annotations

import pathlib
import sys
from typing import Any, Dict, List, Optional, Tuple

TOP = pathlib.Path(__file__).resolve().parent.parent
sys.path.insert(0, str(TOP / "tools" / "model"))

import answers
import code_objects
import emit
import listing
import machine
import py2rows
from step_rows import event_text, outcome_text, script_of, value_text

# For each part of the page: a source, and the script of its run.
RUNS = {
    "run of a raise": ("try:\n    f()\nfinally:\n    g\n", "g1,r,g1"),
    "run of a break": ("while a:\n    try:\n        break\n    finally:\n        b\n", "g1,t,g1"),
    "run of a with": ("with a as x:\n    f()\n", "g1,g2,d,g1,r,g1,t"),
}
REASONS = {"Break": "break to %s", "Continue": "continue to %s", "Return": "return %s", "Raise": "raise %s"}


def value(it: Any) -> str:
    """A value of the stack or of the slot."""
    return "cells" if it[0] == "cells" else value_text(it)


def reason(it: Optional[Tuple[str, Any]]) -> str:
    """Why blocks are left; `none` where they were not."""
    if it is None:
        return "none"
    return REASONS[it[0]] % (it[1] if it[0] in ("Break", "Continue") else value(it[1]))


def block(it: Tuple[Any, ...]) -> str:
    """A block: its kind, its height, and what it keeps."""
    kind, height = it[0], it[1]
    if kind == "Loop":
        return "Loop %d" % height
    if kind in ("Except", "Finally"):
        return "%s %d, handler %d" % (kind, height, it[2])
    slot = "slot was %s" % ("empty" if it[2] is None else value(it[2]))
    return "%s %d, %s" % (kind, height, slot) + ("; %s" % reason(it[3]) if kind == "FinallyHandler" else "")


def instruction(code: code_objects.Code, unit: int, name: str, operand: int) -> str:
    """An instruction with its operand, as a listing shows them."""
    line = listing.listing(code).split("\n")
    found = next(it for it in line if it.startswith("%d " % unit) and " %s" % name in it)
    return found.split(" ", 2)[2]


class Steps(machine.Machine):
    """The model's machine, which keeps a row for each of its steps."""

    def watch(self, code: code_objects.Code, script: List[Any]) -> List[List[str]]:
        """Runs to the end; the rows of the steps, and the outcome as the last one."""
        self.code, self.script, self.rows = code, script, []  # type: ignore[attr-defined]
        outcome = self.run()
        self.rows.append(["", "", outcome_text(outcome), "", "", "", ""])
        return self.rows

    def step(self) -> None:
        unit, taken, listed = self.place, self.w.n, len(self.w.events)
        name, operand, _ = self.fetch(unit)
        self.rows.append(["%d" % unit, "`%s`" % instruction(self.code, unit, name, operand)])
        try:
            super().step()
        finally:
            self.rows[-1] += self.told(taken, listed)

    def told(self, taken: int, listed: int) -> List[str]:
        """What was listed and answered, and the stack, the blocks and the slot after it."""
        events = "`%s`" % event_text(self.w.events[listed], machine.KIND) if len(self.w.events) > listed else ""
        answer = "`%s`" % answers.show_answer(self.script[taken]) if self.w.n > taken else ""
        stack, blocks = ", ".join(map(value, self.stack)), "; ".join(map(block, self.blocks))
        return [events, answer, stack, blocks, "" if self.w.slot is None else value(self.w.slot)]


def run_text(source: str, script: str) -> str:
    """The table of a run."""
    code = emit.compile_top(py2rows.tree_of(source))
    tables = machine.Tables(code.constants, code.names, code.varnames, code.cellvars, code.freevars)
    count = len(code.instructions)
    steps = Steps(machine.fetcher(code), lambda a: a if a < count else None, tables, script_of(script), 0, None, code.max_stackdepth)
    lines = ["| Unit | Instruction | Listed | Answer | Stack after it | Blocks after it | Slot |", "|---|---|---|---|---|---|---|"]
    rows = steps.watch(code, script_of(script))
    last = rows.pop()
    lines += ["| " + " | ".join(row) + " |" for row in rows] + ["| | | `%s` | | | | |" % last[2]]
    return "\n".join(lines)


def parts() -> Dict[str, str]:
    """The parts of the page."""
    return {name: run_text(source, script) for name, (source, script) in RUNS.items()}
