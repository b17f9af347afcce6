"""The command `show`: a file with its source beside its code, as text, as a page or as graphs."""
from __future__ import annotations

import os
from typing import List, Optional

from .. import ends, files, refusals, view_dot, view_text, views
from ..building import found_program, shown
from ..codefile import MAGIC
from ..errors import DONE, WORDS, WRITE, Failed, WrongWords
from ..options import Command, Option, parse
from ..sources import bytes_of, name_of, text_of_name
from ..freshness import Recipe
from .compile import LEVEL, MODE

COMMAND = Command(
    "show",
    "FILE",
    "Shows a source beside its code. As text each line of the source stands above its units, with >> before the goals of "
    "jumps. FILE is a source, - for standard input, or a file of code, which is verified first.",
    (
        Option(("-s", "--text"), "as text, which is what is done without an option"),
        Option(("--html",), "as a page for a browser, which takes nothing from elsewhere"),
        Option(("--dot",), "as graphs of blocks for graphviz: show --dot m.py | dot -Tsvg"),
        Option(("-o", "--output"), "write to FILE, and not on standard output", "FILE"),
        MODE,
        LEVEL,
        Option(("--program",), "compile by this program", "FILE"),
    ),
    "A source that is refused is told as elsewhere, with status 1; a page is written of it too, with the refusal at its "
    "place. docs/SHOW.md says more.",
)


def main(words: List[str]) -> int:
    """Shows what the words say, and gives the status."""
    given = parse(COMMAND, words)
    if len(given.files) != 1:
        raise WrongWords("show wants one file" if not given.files else "show takes one file, and '%s' is another" % given.files[1])
    if given.text + given.html + given.dot > 1:
        raise WrongWords("-s, --html and --dot are three ways to show a file, and one is wanted")
    file = given.files[0]
    output = None if given.output == "-" else given.output
    if output is not None and is_same(output, file):
        raise WrongWords("-o %s is the file that is shown, and would be overwritten" % output)
    given.program = found_program(given.program)
    view = view_of(given, name_of(file), bytes_of(file))
    status = DONE
    if view.refusal is not None:
        ends.say(refusals.told(view.refusal, ends.width(), ends.is_coloured()))
        status = view.refusal.status
    if status == DONE or given.html:
        write(output, text_of(given, view))
    return status


def is_same(one: str, other: str) -> bool:
    """Whether two paths are of one file."""
    return os.path.exists(one) and os.path.exists(other) and os.path.samefile(one, other)


def view_of(given, name: str, data: bytes) -> views.View:
    """What is shown of the bytes of a file. Raises as the functions of `views` do."""
    if data.startswith(MAGIC):
        return views.view_of_code(shown(name), data, given.program)
    path = text_of_name(name)
    if path is None:
        raise Failed("%s: the name is not UTF-8\n" % shown(name), WORDS)
    return views.view_of_source(Recipe("code", given.mode, given.level, given.program, "", ""), path, data)


def text_of(given, view: views.View) -> str:
    """What is written of a view."""
    if given.html:
        # The page is large, and the other ways do without it.
        from ..view_page import page_of_view

        return page_of_view(view, given.mode, given.level)
    return view_dot.dot_of_view(view) if given.dot else view_text.text_of_view(view)


def write(file: Optional[str], text: str) -> None:
    """Writes a text to a file, or on standard output. Raises Failed where it is not taken."""
    if file is None:
        return ends.write(text)
    try:
        with files.replacing(file) as out:
            out.write(text.encode("utf-8"))
    except OSError as error:
        raise Failed("%s: %s\n" % (shown(file), error.strerror), WRITE) from None
