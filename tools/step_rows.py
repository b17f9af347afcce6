#!/usr/bin/env python3
"""Writes crates/step_vectors/stdout: what the machine of tools/model does on the codes of crates/step_vectors/stdin,
each over its script of answers.

usage: step_rows.py

A line of stdin is a code as py_codefile spells it, in hexadecimal digits, and, after a space, a script, as
`Script::parse` of py_answers reads it; without a script there is no space. Each run gives its lines, as `push_trace` of
py_answers writes them, and an empty line. Standard output gets the text.
"""
import argparse
import pathlib
import sys

TOP = pathlib.Path(__file__).resolve().parent.parent
sys.path.insert(0, str(TOP / "python"))
sys.path.insert(0, str(TOP / "tools" / "model"))
import code_objects
import machine
from pyc import codefile
from pyc.code_object import Code
from shapes import constant_text, quote

USAGES = {"Load": "load ", "Store": "store ", "Delete": "delete "}
SINGLE = {None: ("none",), False: ("false",), True: ("true",), ...: ("ellipsis",)}


def constant(value):
    """A constant as the model has it."""
    if isinstance(value, tuple):
        return "tuple", tuple(map(constant, value))
    if isinstance(value, Code):
        return "code", code_of(value)
    if value is None or value is ... or isinstance(value, bool):
        return SINGLE[value]
    return type(value).__name__, value


def code_of(code):
    """A code as the model has it."""
    return code_objects.Code(**dict(vars(code), constants=tuple(map(constant, code.constants))))


def value_text(v):
    if v[0] == "c":
        return constant_text(v[1])
    return "#%d.%d" % (v[1], v[2]) if v[0] == "g" else "child" if v[0] == "child" else "None"


def operation_text(event, kinds):
    _, name, detail, operands = event[:4]
    if name == "MakeFunction":
        # the closure is not told
        cells = detail & 1
        detail, operands = detail - cells, operands[:-3] + operands[-2:] if cells else operands
    told = "" if detail is None or kinds[name] == "Label" else " " + (quote(detail) if kinds[name] == "Name" else str(detail))
    return "op " + name + told + (": " + ", ".join(map(value_text, operands)) if operands else "")


def event_text(event, kinds):
    if event[0] == "access":
        return USAGES[event[1]] + quote(event[2]) + (" " + value_text(event[3]) if event[3] is not None else "")
    if event[0] == "op":
        return operation_text(event, kinds)
    return event[0] + " " + value_text(event[1])


def outcome_text(outcome):
    name = outcome[0].lower()
    return name + (" " + value_text(outcome[1]) if name in ("returned", "raised") else "")


def lines(run, kinds):
    """The lines of a run: what is silent is not told."""
    for i, event in enumerate(run.w.events):
        if i not in run.silent:
            yield event_text(event, kinds)
    yield outcome_text(run.outcome)


def answer(word):
    if word[0] == "g":
        return "G", int(word[1:])
    return {"d": ("D",), "e": ("E",), "r": ("R",), "t": ("T", True), "f": ("T", False)}[word]


def script_of(text):
    """The answers that a script is written of."""
    return [answer(word) for word in text.split(",")] if text else []


def main():
    argparse.ArgumentParser(description=__doc__, formatter_class=argparse.RawDescriptionHelpFormatter).parse_args()
    for line in (TOP / "crates/step_vectors/stdin").read_text(encoding="ascii").splitlines():
        digits, _, script = line.partition(" ")
        code = code_of(codefile.read(bytes.fromhex(digits)))
        run = machine.machine(code, script_of(script))
        sys.stdout.write("\n".join(lines(run, machine.KIND)) + "\n\n")


if __name__ == "__main__":
    main()
