"""What is told of all commands: the overview of --help, and the man page."""
from __future__ import annotations

from typing import List, Sequence

from .options import CALLED, HELP, Command, Option, heads_of, in_two_columns, paragraphs_of, usage_of

STATUSES = (
    ("0", "done"),
    ("1", "refused, with the place and the reason; of lint, that something was found"),
    ("2", "wrong words"),
    ("3", "the input is not the rows of a tree, or no file of a code that verifies"),
    ("4", "a read failed, or a file is not there"),
    ("5", "a write failed"),
    ("6", "no memory"),
    ("127", "the program could not be built, or there is no Python of 3.8 or later"),
)


def overview(commands: Sequence[Command]) -> str:
    """The text of --help where no command is named."""
    main = commands[0]
    lines = ["usage: " + usage_of(main), "       %s MODE LEVEL PATH <ROWS" % CALLED, "       %s COMMAND [WORD..]" % CALLED]
    lines += [*paragraphs_of(main.about), ""]
    lines += in_two_columns([(heads_of(it), it.about) for it in (*main.options, HELP)])
    lines += ["", "Commands (each tells its words by --help; a file of such a name is written ./NAME):", ""]
    lines += in_two_columns([(it.name, it.about.partition(". ")[0].rstrip(".") + ".") for it in commands[1:]])
    lines += paragraphs_of(main.more)
    lines += ["", "Status, of several files the highest:", "", *in_two_columns(STATUSES)]
    return "\n".join(lines) + "\n"


def escaped(text: str) -> str:
    """A text as the man page has it."""
    text = text.replace("\\", "\\e").replace("-", "\\-")
    return "\\&" + text if text[:1] in (".", "'") else text


def option_lines(option: Option) -> List[str]:
    """An option in the man page."""
    names = ", ".join("\\fB%s\\fR" % escaped(it) for it in option.names)
    return [".TP", names + (" \\fI%s\\fR" % escaped(option.value) if option.value else ""), escaped(option.about)]


def more_lines(text: str) -> List[str]:
    """Paragraphs in the man page."""
    lines = []
    for paragraph in text.split("\n\n") if text else ():
        if paragraph.startswith(" "):
            lines += [".PP", ".nf", *map(escaped, paragraph.split("\n")), ".fi"]
        else:
            lines += [".PP", escaped(" ".join(paragraph.split()))]
    return lines


def man_page(commands: Sequence[Command], version: str) -> str:
    """The text of pyc.1."""
    main = commands[0]
    lines = [
        '.TH PYC 1 "" "pyc %s" "User Commands"' % escaped(version),
        ".SH NAME",
        "pyc \\- compiles Python sources by a program that is proved",
        ".SH SYNOPSIS",
        ".B pyc\n[\\fIOPTION\\fR..] \\fIFILE\\fR..",
        ".br",
        ".B pyc\n\\fIMODE LEVEL PATH\\fR <\\fIROWS\\fR",
        ".br",
        ".B pyc\n\\fICOMMAND\\fR [\\fIWORD\\fR..]",
        ".SH DESCRIPTION",
        escaped(main.about),
        *more_lines(main.more),
        ".SH OPTIONS",
    ]
    for option in (*main.options, HELP):
        lines += option_lines(option)
    lines.append(".SH COMMANDS")
    for command in commands[1:]:
        lines += [".SS " + escaped("%s %s" % (command.name, command.words)), escaped(command.about)]
        for option in command.options:
            lines += option_lines(option)
        lines += more_lines(command.more)
    lines.append(".SH EXIT STATUS")
    for status, about in STATUSES:
        lines += [".TP", status, escaped(about)]
    return "\n".join(lines) + "\n"
