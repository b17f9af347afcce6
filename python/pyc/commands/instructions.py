"""The command `instructions`: writes the table of instructions."""
from __future__ import annotations

import json
import pkgutil
from typing import Any, Dict, List

from .. import ends
from ..errors import DONE, WrongWords
from ..options import Command, Option, parse

COMMAND = Command(
    "instructions",
    "",
    "Writes the table of instructions.",
    (Option(("--json",), "write it as JSON, with the cases of operands and the flags"),),
    "A line has the number, the name, the kind of the operand, the change of the height of the stack where the next instruction follows and where it jumps, and what is taken from the top of the stack down, and given. docs/INSTRUCTIONS.md says what each instruction does.",
)

OF = {"n": "n", "bits": "flags", "pair": "before + after"}


def table_text() -> str:
    """The table as JSON."""
    return (pkgutil.get_data("pyc", "instructions.json") or b"").decode("utf-8")


def amount_text(amount: Dict[str, Any]) -> str:
    """A number that an operand decides, as an entry of the table has it."""
    base, times = amount["base"], amount["times"]
    if amount["of"] == "raise":
        return "-1, -2 or 0"
    if times == 0:
        return str(base)
    factor = OF[amount["of"]] if abs(times) == 1 else "%d%s" % (abs(times), OF[amount["of"]])
    if base == 0:
        return ("-" if times < 0 else "") + factor
    return "%d - %s" % (base, factor) if times < 0 else "%s %s %d" % (factor, "+" if base > 0 else "-", abs(base))


def values_text(values: List[Dict[str, Any]], operand: str) -> str:
    """Values of the stack, the top first; `operand` is the kind of the operand."""
    told = []
    for value in values:
        counted = value["count"]["times"] and value["count"]["of"] in ("n", "pair") and operand != "Bit"
        told.append("%s %s" % (amount_text(value["count"]), value["what"]) if counted else value["what"])
    return "; ".join(told)


def line(row: Dict[str, Any]) -> str:
    """The line of an instruction."""
    change = amount_text(row["next"]) if not row["leaves"] else "(%s)" % amount_text(row["next"])
    if row["operand"] == "Label":
        change += ", jump %s" % amount_text(row["jump"])
    operand = "" if row["operand"] == "None" else row["operand"]
    takes, gives = (values_text(row[way], row["operand"]) for way in ("takes", "gives"))
    told = "; ".join(verb + values for verb, values in (("takes ", takes), ("gives ", gives)) if values)
    return ("%2d %-22s %-10s %-14s %s" % (row["number"], row["name"], operand, change, told)).rstrip()


def main(words: list[str]) -> int:
    """Writes the table as text or as JSON."""
    given = parse(COMMAND, words)
    if given.files:
        raise WrongWords("instructions takes no file, and '%s' is one" % given.files[0])
    text = table_text()
    if not given.json:
        text = "\n".join(map(line, json.loads(text)["instructions"])) + "\n"
    ends.write(text)
    return DONE
