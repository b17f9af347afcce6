#!/usr/bin/env python3
"""A machine that passes the suite, written from docs/INSTRUCTIONS.md alone. The package pyc reads files of code for it,
and python/pyc/instructions.json is its table.

usage: machine.py                     the requests on standard input, the lines of each run on standard output
       machine.py SCRIPT [PLACE..]    one run of the file of code on standard input
"""
import collections
import json
import pathlib
import sys

sys.path.insert(0, str(pathlib.Path(__file__).resolve().parent.parent / "python"))
import pyc
from pyc import codefile
from pyc.code_object import Code

TABLE = json.loads((pathlib.Path(pyc.__file__).parent / "instructions.json").read_text("utf-8"))
ROWS, KINDS = {it["name"]: it for it in TABLE["instructions"]}, {it["kind"]: it for it in TABLE["operands"]}
ADDS = {"ListAppend": 1, "SetAdd": 1, "MapAdd": 2}
# entries of the stack before and after, the lowest first
MOVES = {"Nop": ("", ""), "Pop": ("a", ""), "Rotate2": ("ab", "ba"), "Rotate3": ("abc", "cab"), "Duplicate": ("a", "aa"), "Duplicate2": ("ab", "abab")}
CELLS = None  # what LoadClosure pushes; every other entry of the stack is the text of a value

Block = collections.namedtuple("Block", "kind height kept reason")  # kept: the handler's place, or what the slot was


class End(Exception):
    """The last line of a run."""


class Raised(Exception):
    """The exception of an answer."""


def quote(text, plain):
    return "'%s'" % "".join("\\" + c if c in "'\\" else c if plain(c) else "\\x%02x" % ord(c) for c in text)


def text_of(value):
    """A constant, or a name, as a line tells it."""
    if isinstance(value, str):
        return quote(value, lambda c: c >= " " and c != "\x7f")
    if isinstance(value, bytes):
        return "b" + quote(value.decode("latin-1"), lambda c: " " <= c <= "~")
    if isinstance(value, tuple):
        return "(%s%s)" % (", ".join(map(text_of, value)), "," if len(value) == 1 else "")
    return "<code %s>" % text_of(value.obj_name) if isinstance(value, Code) else str(value)


def count(values, operand):
    """How many values a column of the table says."""
    measure = {"n": operand, "bits": bin(operand).count("1"), "pair": operand % 256 + operand // 256, "raise": (1, 2, 0)[operand % 3]}
    return sum(it["count"]["base"] + it["count"]["times"] * measure[it["count"]["of"]] for it in values)


class Run:
    """A run of a code over answers."""

    def __init__(self, code, answers):
        texts = ["child" if isinstance(it, Code) else text_of(it) for it in code.constants]
        names, varnames, cells = (list(map(text_of, it)) for it in (code.names, code.varnames, code.cellvars + code.freevars))
        self.tables = {"Const": texts, "Name": names, "Var": varnames, "Cell": cells}
        self.units, self.depth = code.instructions, code.max_stackdepth
        self.answers, self.taken, self.lines = answers, 0, []
        self.place, self.stack, self.blocks, self.slot = 0, [], [], None

    def told(self):
        """The lines of the run."""
        try:
            for _ in range((len(self.answers) + 1) * (2 * len(self.units) + 2)):
                try:
                    self.step()
                except Raised as raised:
                    self.leave("raise", raised.args[0])
                self.want(len(self.stack) <= self.depth)
            raise End("going")
        except End as end:
            return [*self.lines, end.args[0]]

    def want(self, holds, word="wrong"):
        if not holds:
            raise End(word)

    # what is asked
    def ask(self, line, *fits):
        self.lines.append(line)
        self.want(self.taken < len(self.answers) and self.answers[self.taken] in (*fits, "r"), "stopped")
        self.taken += 1
        if self.answers[self.taken - 1] == "r":
            raise Raised("#%d.0" % (self.taken - 1))
        return self.answers[self.taken - 1]

    def given(self, line, gives):
        self.ask(line, "g%d" % gives if gives else "d")
        return ["#%d.%d" % (self.taken - 1, i) for i in range(gives)]

    def operation(self, name, detail, values, gives):
        return self.given("op " + name + (" " + detail if detail else "") + (": " + ", ".join(values) if values else ""), gives)

    # the stack
    def top(self, depth=0):
        self.want(depth < len(self.stack))
        self.want(self.stack[-1 - depth] is not CELLS, "leaked")
        return self.stack[-1 - depth]

    def pops(self, many):
        return [(self.top(), self.stack.pop())[0] for _ in range(many)][::-1]

    def pop_cells(self, many):
        for _ in range(many):
            self.want(self.stack)
            self.want(self.stack.pop() is CELLS, "leaked")

    def on_cells(self):
        return self.stack[-1:] == [CELLS]

    # leaving
    def leave(self, kind, what):
        while self.blocks:
            block = self.blocks.pop()
            if (block.kind, kind) == ("Loop", "continue"):
                self.blocks.append(block)
                self.place = what
                return
            self.want(block.height <= len(self.stack))
            del self.stack[block.height:]
            if (block.kind, kind) == ("Loop", "break"):
                self.place = what
                return
            if (block.kind, kind) == ("Except", "raise") or block.kind == "Finally":
                return self.handle(block, kind, what)
            if block.kind.endswith("Handler"):
                self.slot = block.kept
        self.want(kind in ("return", "raise"))
        raise End(("returned " if kind == "return" else "raised ") + what)

    def handle(self, block, kind, what):
        reason = (kind, what) if block.kind == "Finally" else None
        self.blocks.append(Block(block.kind + "Handler", block.height, self.slot, reason))
        self.place = block.kept
        if kind == "raise":
            self.slot = what
        if block.kind == "Except":
            self.stack.append(what)

    # a step
    def fetch(self):
        operand, name = 0, "ExtendedArg"
        while name == "ExtendedArg":
            self.want(self.place < len(self.units))
            name, byte = self.units[self.place]
            operand, self.place = (operand * 256 + byte) % 2**32, self.place + 1
        return ROWS[name], name, operand

    def detail(self, kind, operand):
        """What a line says of an operand, which is to be in its range."""
        if kind in self.tables or KINDS[kind]["cases"]:
            table = self.tables.get(kind, KINDS[kind]["cases"])
            self.want(operand < len(table))
            return table[operand]
        self.want(operand < (len(self.units) if kind == "Label" else KINDS[kind]["below"]))
        return "" if kind in ("None", "Label") else str(operand)

    def step(self):
        row, name, operand = self.fetch()
        detail = self.detail(row["operand"], operand)
        if row["lists"] in ("load", "store", "delete"):
            self.access(name, row["lists"], detail)
        elif name in MOVES:
            self.move(*MOVES[name])
        elif name in ADDS:
            values = self.pops(ADDS[name])
            self.operation(name, "", [self.top(operand), *values], 0)
        elif name.startswith("JumpIf"):
            self.jump_if(name, operand)
        elif name in ("Break", "Continue"):
            self.want(any(block.kind == "Loop" for block in self.blocks))
            self.leave(name.lower(), operand)
        elif row["closes"]:
            self.close(name, row["closes"].replace(",", "").split())
        elif hasattr(self, "do_" + name):
            getattr(self, "do_" + name)(operand, detail)
        elif row["opens"]:
            self.blocks.append(Block(row["opens"], len(self.stack), operand, None))
        else:
            values = self.pops(count(row["takes"], operand))
            self.stack += self.operation(name, detail, values, count(row["gives"], operand))[::-1 if row["first_on_top"] else 1]

    def access(self, name, lists, detail):
        if (name, detail) == ("StoreLocal", "'__classcell__'") and self.on_cells():
            self.stack.pop()
        else:
            self.stack += self.given(" ".join([lists, detail, *self.pops(lists == "store")]), int(lists == "load"))

    def move(self, before, after):
        self.want(len(before) <= len(self.stack))
        entries = {it: self.stack.pop() for it in reversed(before)}
        self.stack += [entries[it] for it in after]

    def jump_if(self, name, operand):
        [value] = self.pops(1)
        if (self.ask("truth " + value, "t", "f") == "t") == ("True" in name):
            self.place = operand
            self.stack += [value] if name.endswith("OrPop") else []

    def close(self, name, kinds):
        self.want(self.blocks and self.blocks[-1].kind in kinds)
        block = self.blocks.pop()
        if block.kind.endswith("Handler"):
            self.slot = block.kept
        dropped = name == "WithCleanupFinish" and self.ask("truth " + self.pops(1)[0], "t", "f") == "t"
        if block.reason and not (dropped and block.reason[0] == "raise"):
            self.leave(*block.reason)

    def do_LoadConst(self, operand, detail):
        self.stack.append(detail)

    def do_LoadClosure(self, operand, detail):
        self.stack.append(CELLS)

    def do_BuildTuple(self, operand, detail):
        if operand and self.on_cells():
            self.pop_cells(operand)
            self.stack.append(CELLS)
        else:
            self.stack += self.operation("BuildTuple", detail, self.pops(operand), 1)

    def do_MakeFunction(self, operand, detail):
        values = self.pops(2)
        self.pop_cells(operand % 2)
        others = self.pops(bin(operand >> 1).count("1"))
        self.stack += self.operation("MakeFunction", str(operand - operand % 2), others + values, 1)

    def do_ImportFrom(self, operand, detail):
        self.stack += self.operation("ImportFrom", detail, [self.top()], 1)

    def do_Raise(self, operand, detail):
        values = self.pops((1, 2, 0)[operand])
        if detail == "Reraise" and self.slot is not None:
            raise Raised(self.slot)
        self.ask("op Raise " + detail + (": " + ", ".join(values) if values else ""))

    def do_ReturnConst(self, operand, detail):
        self.leave("return", detail)

    def do_ReturnValue(self, operand, detail):
        self.want(self.stack)
        self.leave("return", self.stack.pop() or "None")

    def do_Jump(self, operand, detail):
        self.place = operand

    def do_ForIter(self, operand, detail):
        if self.ask("next " + self.top(), "g1", "e") == "e":
            self.stack.pop()
            self.place = operand
        else:
            self.stack.append("#%d.0" % (self.taken - 1))

    def do_SetupWith(self, operand, detail):
        leaver, entered = self.operation("SetupWith", "", self.pops(1), 2)
        self.stack.append(leaver)
        self.blocks.append(Block("Finally", len(self.stack), operand, None))
        self.stack.append(entered)

    def do_EnterFinally(self, operand, detail):
        self.blocks.append(Block("FinallyHandler", len(self.stack), self.slot, None))

    def do_WithCleanupStart(self, operand, detail):
        self.want(self.blocks and self.blocks[-1].kind == "FinallyHandler")
        kind, what = self.blocks[-1].reason or ("none", None)
        self.stack[-1:] = self.operation("WithCleanupStart", "", [self.top(), what if kind == "raise" else "None"], 1)


def run(data, places, script):
    """The lines of the run of a file's code, from the code at these places."""
    code = codefile.read(data)
    for place in places:
        code = code.constants[int(place)]
    return "\n".join(Run(code, script.split(",") if script else []).told()) + "\n"


def main():
    if len(sys.argv) > 1:
        sys.stdout.buffer.write(run(sys.stdin.buffer.read(), sys.argv[2:], sys.argv[1]).encode("utf-8"))
        return
    kept = {}
    for line in sys.stdin:
        word, _, rest = line.rstrip("\n").partition(" ")
        kept[word] = rest
        if word == "run":
            places = kept["begin"].split(",") if kept["begin"] else []
            sys.stdout.buffer.write((run(bytes.fromhex(kept["code"]), places, rest) + "\n").encode("utf-8"))


if __name__ == "__main__":
    main()
