"""The command `rows`: writes the rows of a Python source, which the program reads (docs/ROWS.md)."""
from __future__ import annotations

from .. import ends, refusals, sources
from ..errors import DONE, Refused, WrongWords
from ..options import Command, Option, parse

MODES = ("exec", "eval", "single", "block", "func_type")

COMMAND = Command(
    "rows",
    "[FILE]",
    "Writes the rows of a Python source on standard output. Without FILE, or for -, the source is standard input.",
    (Option(("-m", "--mode"), "what the parser of Python is asked for (exec): exec, a file that is run; eval, one expression; single, what is entered at a prompt; block, a file whose last value is given; func_type, the comment that gives a function its type", "MODE", MODES, "exec"),),
    "What is no Python, and what rows have no word for, is told as FILE:ROW:COL: TEXT; the status is then 1, and nothing is written.",
)


def main(words: list[str]) -> int:
    """Writes the rows of the file that the words name."""
    given = parse(COMMAND, words)
    if len(given.files) > 1:
        raise WrongWords("rows takes one file, and '%s' is another" % given.files[1])
    file = given.files[0] if given.files else "-"
    try:
        text = sources.rows_of(sources.name_of(file), sources.bytes_of(file), given.mode)
    except Refused as refused:
        ends.say(refusals.told(refused.refusal, ends.width(), ends.is_coloured()))
        return refused.status
    ends.write(text + b"\n")
    return DONE
