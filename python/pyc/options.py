"""The table of options: what each command takes. From it the words are parsed, and --help, the manual and completions made.

A module of `commands/` has a row of the table as `COMMAND`. Its `main(words)` calls `parse(COMMAND, words)`, which gives a
namespace: a value for each option by its key (its longest name, with _ for -), and `files`, the other words.
"""
from __future__ import annotations

import getopt
import types
from typing import Dict, Iterable, List, NamedTuple, Optional, Sequence, Tuple, Union

from .errors import WrongWords

# How the command is called here: by `pyc`, or in a checkout by its starter.
CALLED = "pyc"


class Option(NamedTuple):
    """An option: its names, what it does, and the word that follows it, where one does."""

    names: Tuple[str, ...]
    about: str
    # What the word behind it is called in --help; empty where it takes none and is true or false.
    value: str = ""
    # The words that may follow; empty where any may.
    choices: Tuple[str, ...] = ()
    default: Optional[str] = None
    # Whether it may stand several times, and its value is a list.
    many: bool = False

    @property
    def key(self) -> str:
        """The name under which `parse` gives its value."""
        return max(self.names, key=len).lstrip("-").replace("-", "_")


class Command(NamedTuple):
    """A command: its name, the words behind it as its usage shows them, what it does, and its options."""

    name: str
    words: str
    about: str
    options: Tuple[Option, ...] = ()
    # Paragraphs that --help tells behind the options, with empty lines between them. One that begins with a blank is
    # an example, and is told as it stands.
    more: str = ""
    # Whether the first word that is no option ends the options, as the words of a program that is run are its own.
    is_first_last: bool = False


HELP = Option(("-h", "--help"), "tell this, and do nothing else")


class HelpWanted(Exception):
    """The words ask for help on a command."""

    def __init__(self, command: Command):
        super().__init__(command.name)
        self.command = command


def parse(command: Command, words: Sequence[str]) -> types.SimpleNamespace:
    """The values of the options and the files. Raises WrongWords, and HelpWanted for -h and --help."""
    by_name = {name: option for option in (*command.options, HELP) for name in option.names}
    short = "".join(name[1] + ":" * bool(it.value) for name, it in by_name.items() if not name.startswith("--"))
    long = [name[2:] + "=" * bool(it.value) for name, it in by_name.items() if name.startswith("--")]
    read = getopt.getopt if command.is_first_last else getopt.gnu_getopt
    try:
        found, files = read(list(words), short, long)
    except getopt.GetoptError as error:
        raise WrongWords(fault_of(error) + like(error, by_name)) from None
    values: Dict[str, Union[None, bool, str, List[str]]] = {
        it.key: [] if it.many else it.default if it.value else False for it in command.options
    }
    for name, value in found:
        option = by_name[name]
        if option is HELP:
            raise HelpWanted(command)
        if option.choices and value not in option.choices:
            raise WrongWords("%s is followed by %s, and not by '%s'" % (name, one_of(option.choices), value))
        values[option.key] = values[option.key] + [value] if option.many else value if option.value else True
    return types.SimpleNamespace(files=files, **values)


def fault_of(error: getopt.GetoptError) -> str:
    """Which word is wrong, and why."""
    name = ("--" if len(error.opt) > 1 else "-") + error.opt
    if "not a unique" in error.msg:
        return "%s may be several options" % name
    if "must not" in error.msg:
        return "%s is followed by no word" % name
    return "%s wants a word after it" % name if "requires" in error.msg else "there is no option %s" % name


def like(error: getopt.GetoptError, names: Iterable[str]) -> str:
    """The option that may be meant by one that there is not."""
    if "not recognized" not in error.msg or len(error.opt) < 2:
        return ""
    import difflib

    found = difflib.get_close_matches("--" + error.opt, [it for it in names if it.startswith("--")], 1, 0.75)
    return "; %s is one" % found[0] if found else ""


def one_of(words: Sequence[str]) -> str:
    """Words of which one is wanted."""
    return words[0] if len(words) == 1 else "%s or %s" % (", ".join(words[:-1]), words[-1])


# How wide --help is, and where what an option does begins.
WIDTH, INDENT = 100, 22


def usage_of(command: Command) -> str:
    """The line that says how a command is called; `compile` is meant where no command is named."""
    name = command.name if command.name != "compile" else ""
    return " ".join(filter(None, (CALLED, name, "[OPTION..]" if command.options else "", command.words)))


def heads_of(option: Option) -> str:
    """The names of an option, with the word behind it."""
    return ", ".join(option.names) + (" " + option.value if option.value else "")


def in_two_columns(pairs: Sequence[Tuple[str, str]]) -> List[str]:
    """Lines of which each has a name, and what is told of it behind or below."""
    import textwrap

    lines = []
    for head, about in pairs:
        told = textwrap.wrap(about, WIDTH - INDENT)
        if len(head) > INDENT - 4:
            lines.append("  " + head)
        else:
            lines.append("  %-*s%s" % (INDENT - 2, head, told.pop(0)))
        lines += [" " * INDENT + it for it in told]
    return lines


def paragraphs_of(text: str) -> List[str]:
    """The lines of paragraphs, each behind an empty line."""
    import textwrap

    lines = []
    for paragraph in text.split("\n\n") if text else ():
        lines += ["", *(paragraph.split("\n") if paragraph.startswith(" ") else textwrap.wrap(paragraph, WIDTH))]
    return lines


def help_of(command: Command) -> str:
    """The text of --help of one command: usage, what it does, and what each option does."""
    lines = ["usage: " + usage_of(command), *paragraphs_of(command.about), ""]
    lines += in_two_columns([(heads_of(it), it.about) for it in (*command.options, HELP)])
    return "\n".join(lines + paragraphs_of(command.more)) + "\n"
