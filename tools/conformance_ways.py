"""Which ways a run goes through instructions and blocks, on the machine of tools/model; and the scripts that go new ways.

A way is an instruction, or `leaving`, and a few words. `expected` lists all that there are, so that one without a case is
seen.
"""
from __future__ import annotations

import collections
import pathlib
import sys
from typing import Any, Dict, Iterator, List, NamedTuple, Optional, Set, Tuple

TOP = pathlib.Path(__file__).resolve().parent.parent
sys.path.insert(0, str(TOP / "tools" / "model"))

import answers
import code_objects
import instr
import machine
from instruction_words import WORDS

Way = Tuple[str, str]
Answer = Tuple[Any, ...]
REASONS = ("none", "break", "continue", "return", "raise")
FAULTS = {
    "too few values": "too few values", "cut above the present height": "leaving above the stack", "place outside the code": "no instruction",
    "height above max_stackdepth": "stack above the depth", "no loop": "no Loop", "PopBlock": "other block", "PopException": "other block",
    "no FinallyHandler on top": "other block",
}
# entries of the stack alone move
MOVES = ("Pop", "Rotate2", "Rotate3", "Duplicate", "Duplicate2")


def kept(block: Tuple[Any, ...]) -> str:
    """The reason that a FinallyHandler keeps."""
    return "none" if block[3] is None else block[3][0].lower()


def fault(why: str) -> str:
    """Why a run is wrong, in the words of the ways."""
    return FAULTS.get(why, "operand outside")


class Watched(machine.Machine):
    """The model's machine, which keeps the ways that it goes, each with the unit where it went so."""

    def __init__(self, *words: Any) -> None:
        super().__init__(*words)
        self.ways: List[Tuple[int, Way]] = []
        self.unit = 0
        self.askers: List[str] = []  # the instruction that took each answer

    def note(self, name: str, way: str) -> None:
        self.ways.append((self.unit, (name, way)))

    def step(self) -> None:
        self.unit = self.place
        if self.fetch(self.place) is None:
            self.note("any", "no instruction")
        super().step()

    def do(self, op: str, arg: int, nxt: int) -> None:
        try:
            self.do_noted(op, arg, nxt)
        finally:
            self.askers += [op] * (self.w.n - len(self.askers))

    def do_noted(self, op: str, arg: int, nxt: int) -> None:
        self.note_prefixes(nxt)
        at, before = len(self.ways), self.state(op, arg)
        try:
            super().do(op, arg, nxt)
            self.ways.insert(at, (self.unit, (op, self.done(op, before))))
        except machine.Done:
            self.ways.insert(at, (self.unit, (op, self.done(op, before))))
            raise
        except answers.Raise:
            self.note(op, self.raised(op, before))
            raise
        except answers.Stop:
            self.note(op, "unfit answer" if self.w.source(self.w.n, None, None) is not None else "no answer")
            raise
        except machine.Bad as bad:
            self.note("any" if fault(str(bad)) == "leaving above the stack" else op, fault(str(bad)))
            raise
        except machine.Leak:
            self.note(op, "cells")
            raise

    def note_prefixes(self, nxt: int) -> None:
        """How many prefixes the instruction has."""
        prefixes = nxt - self.unit - 1
        if prefixes:
            self.note("ExtendedArg", "%d in front" % prefixes if prefixes < 5 else "5 or more in front")

    def state(self, op: str, arg: int) -> Dict[str, Any]:
        """What the way of an instruction depends on."""
        top = self.blocks[-1] if self.blocks else None
        on_top = [entry[0] == "cells" for entry in self.stack[-3:]]
        return {"arg": arg, "top": top, "slot": self.w.slot, "asked": self.w.n, "cells": on_top, "blocks": bool(self.blocks)}

    def raised(self, op: str, before: Dict[str, Any]) -> str:
        """The way of an instruction that raised."""
        if op == "Raise":
            kind = ("raises", "raises with a cause", "raises again")[before["arg"]]
            return kind + (", slot empty" if before["arg"] == 2 and before["slot"] is None else ", slot full" if before["arg"] == 2 else "")
        return "raises"

    def done(self, op: str, before: Dict[str, Any]) -> str:
        """The way of an instruction that did what it does."""
        asked, top = self.w.n > before["asked"], before["top"]
        if op in ("EndFinally", "WithCleanupStart", "WithCleanupFinish"):
            reason = kept(top)
            truth = "" if op != "WithCleanupFinish" else ", answer true" if self.last_answer() == answers.YES else ", answer false"
            return "reason %s%s" % (reason, truth)
        if op == "PopBlock":
            return top[0]
        if op in ("PopException", "EnterFinally"):
            old = top[2] if op == "PopException" else before["slot"]
            return "slot %s" % ("empty" if old is None else "full") + (" before" if op == "PopException" else "")
        if op in ("ReturnValue", "ReturnConst", "Break", "Continue"):
            cells = op == "ReturnValue" and before["cells"][-1]
            return "leaves" + (" with cells" if cells else "")
        if op.startswith("JumpIf"):
            return "true" if self.last_answer() == answers.YES else "false"
        if op == "ForIter":
            return "end" if self.last_answer() == answers.END else "next value"
        if op in MOVES:
            count = {"Rotate2": 2, "Duplicate2": 2, "Rotate3": 3}.get(op, 1)
            return "cells among them" if any(before["cells"][-count:]) else "values"
        if not asked and op in ("BuildTuple", "StoreLocal"):
            return "cells silently"
        return ("answered" if asked else "done") + (", a closure" if op == "MakeFunction" and before["arg"] & 1 else "")

    def last_answer(self) -> Optional[Answer]:
        return self.w.source(self.w.n - 1, None, None)

    def unwind(self, reason: Tuple[str, Any]) -> None:
        self.note_leaving(reason[0].lower(), list(self.blocks), self.w.slot)
        super().unwind(reason)

    def note_leaving(self, reason: str, blocks: List[Tuple[Any, ...]], slot: Any) -> None:
        """The blocks that a leaving pops, and the one that takes it."""
        if reason in ("break", "continue") and all(block[0] != "Loop" for block in blocks):
            return
        while blocks:
            block = blocks.pop()
            kind = block[0]
            if (kind == "Loop" and reason in ("break", "continue")) or (kind == "Except" and reason == "raise") or kind == "Finally":
                self.note("leaving", "%s: %s takes it" % (reason, kind))
                return
            told = kind
            if kind == "ExceptHandler":
                told += ", slot %s before" % ("empty" if block[2] is None else "full")
            if kind == "FinallyHandler":
                told += ", reason %s" % kept(block)
            self.note("leaving", "%s: past %s" % (reason, told))
        self.note("leaving", "%s: no block left" % reason)


def watched(code: code_objects.Code, source: Any, bound: int) -> Watched:
    """A run of a code, answered by a source, of so many steps at most."""
    units = len(code.instructions)
    tables = machine.Tables(code.constants, code.names, code.varnames, code.cellvars, code.freevars)
    run = Watched(machine.fetcher(code), lambda a: a if a < units else None, tables, source, 0, bound, code.max_stackdepth)
    run.outcome = run.run()
    if run.outcome == ("Wrong", "height above max_stackdepth"):
        run.note("any", "stack above the depth")
    return run


def watch(code: code_objects.Code, script: List[Answer]) -> Watched:
    """A run of a code over a script, with its ways and its outcome."""
    return watched(code, list(script), (len(script) + 1) * (2 * len(code.instructions) + 2))


# what there is
ASKING = ["raises", "no answer", "unfit answer"]


def looks_at(name: str) -> bool:
    """Whether an instruction takes or looks at a value."""
    return bool(WORDS[name].takes or WORDS[name].looks)


def ways_done(name: str) -> List[str]:
    """The ways of an instruction that does what it does."""
    if name == "MakeFunction":
        return ["answered", "answered, a closure"]
    if name in ("BuildTuple", "StoreLocal"):
        return ["answered", "cells silently"]
    if name == "EndFinally" or name == "WithCleanupStart":
        return ["reason " + it for it in REASONS]
    if name == "WithCleanupFinish":
        return ["reason %s, answer %s" % (it, truth) for it in REASONS for truth in ("true", "false")]
    if name == "PopBlock":
        return ["Loop", "Except", "Finally"]
    if name in ("PopException", "EnterFinally"):
        return ["slot empty", "slot full"] if name == "EnterFinally" else ["slot empty before", "slot full before"]
    if name in ("ReturnValue", "ReturnConst", "Break", "Continue"):
        return ["leaves"] + (["leaves with cells"] if name == "ReturnValue" else [])
    if name == "Raise":
        return ["raises", "raises with a cause", "raises again, slot empty", "raises again, slot full"]
    if name in MOVES:
        return ["values", "cells among them"]
    if name == "ForIter":
        return ["next value", "end"]
    return ["true", "false"] if name.startswith("JumpIf") else ["answered" if WORDS[name].event else "done"]


def ways_of(name: str) -> List[str]:
    """All ways of an instruction."""
    if name == "ExtendedArg":
        return ["%d in front" % count for count in (1, 2, 3, 4)] + ["5 or more in front"]
    ways = ways_done(name)
    if WORDS[name].event:
        ways += ASKING[name == "Raise":]
    if name in ("PopBlock", "PopException", "EndFinally", "WithCleanupStart", "WithCleanupFinish"):
        ways.append("other block")
    if name in ("Break", "Continue"):
        ways.append("no Loop")
    if looks_at(name):
        ways.append("too few values")
    if looks_at(name) and name not in MOVES and name != "ReturnValue":
        ways.append("cells")
    return ways + ["operand outside"]


def leavings() -> Iterator[str]:
    """All ways of a leaving through blocks."""
    for reason in REASONS[1:]:
        for kind in ("Loop", "Except", "Finally"):
            takes = kind == "Finally" or (kind == "Loop") == (reason in ("break", "continue")) and (kind == "Loop" or reason == "raise")
            yield "%s: %s" % (reason, kind + " takes it" if takes else "past " + kind)
        for slot in ("empty", "full"):
            yield "%s: past ExceptHandler, slot %s before" % (reason, slot)
        for other in REASONS:
            yield "%s: past FinallyHandler, reason %s" % (reason, other)
        if reason in ("return", "raise"):
            yield "%s: no block left" % reason


def expected() -> List[Way]:
    """All ways that there are."""
    out = [(name, way) for name in instr.NAME_OF for way in ways_of(name)]
    out += [("leaving", way) for way in leavings()]
    return out + [("any", way) for way in ("no instruction", "stack above the depth", "leaving above the stack")]


# scripts
CHOICES = {"truth": [answers.YES, answers.NO], "next": [("G", 1), answers.END], "raise": []}
# so many answers a script has at most, and so many steps a run that looks for one
LONGEST, STEPS = 40, 1500


def choices(fit: Tuple[Any, ...]) -> List[Answer]:
    """The answers that fit."""
    given = [answers.Gives(fit[1])] if fit[0] == "gives" else CHOICES[fit[0]]
    return [*given, answers.RAISED]


class Asker:
    """Answers a run: first from a script, then what is asked of a value by its choices in turn, but no exception.

    `fits` has what fits each answer that was taken, and `script` all answers.
    """

    def __init__(self, script: List[Answer]) -> None:
        self.script, self.fits = list(script), []  # type: List[Answer], List[Any]
        self.counts: Dict[str, int] = collections.Counter()

    def __call__(self, n: int, event: Any, fit: Any) -> Optional[Answer]:
        if fit is None or n >= LONGEST:
            return self.script[n] if n < min(len(self.script), LONGEST) else None
        self.fits.append(fit)
        key = "%s %s" % event[:2]
        if n == len(self.script):
            fitting = choices(fit)
            quiet = fitting[:-1] or fitting
            self.script.append(quiet[min(self.counts[key], len(quiet) - 1)])
        self.counts[key] += 1
        return self.script[n]


class Tried(NamedTuple):
    """A script that was run to its end, what fits each of its answers, and the run."""

    script: List[Answer]
    fits: List[Any]
    run: Watched


def tried(code: code_objects.Code, prefix: List[Answer]) -> Tried:
    """A script that begins so and goes on until the run ends."""
    asker = Asker(prefix)
    run = watched(code, asker, STEPS)
    return Tried(asker.script, asker.fits, run)


def explore(code: code_objects.Code, most: int) -> Iterator[Tried]:
    """Scripts whose runs go ways through units of the code that none before went; at most so many are tried."""
    queue: List[List[Answer]] = [[]]
    seen: Set[Any] = set()
    texts: Set[str] = set()
    for prefix in queue:
        it = tried(code, prefix)
        text = answers.show_script(it.script)
        if text in texts:
            continue
        texts.add(text)
        new = set(it.run.ways) - seen
        if new:
            seen |= new
            yield it
            for at in range(len(prefix), len(it.fits)):
                queue += [it.script[:at] + [other] for other in choices(it.fits[at]) if other != it.script[at]]
        if len(texts) >= most:
            return
