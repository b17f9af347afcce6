"""From the words of a call to the command that they name.

A command is a module of `commands/` with a `COMMAND` (options.py) and a function `main(words)`, which gives the status.
A module that is not there is no command, and the word is then a file.
"""
from __future__ import annotations

import importlib
import os
import sys
from types import ModuleType
from typing import Dict, List, Optional, Sequence

from . import ends, options, quick
from .errors import DONE, WORDS, Error, Failed, NoProgram, WrongWords

# The commands in the order in which they are told, and the module of each.
MODULES: Dict[str, str] = {
    "compile": "compile",
    "run": "run",
    "lint": "lint",
    "console": "console",
    "build": "build",
    "show": "show",
    "rows": "rows",
    "names": "names",
    "pack": "over_rows",
    "unpack": "over_rows",
    "step": "over_rows",
    "sample": "over_rows",
    "instructions": "instructions",
    "completions": "completions",
    "manual": "manual",
}
# The words that are no commands, and begin the words of the program itself.
MODES = ("exec", "eval", "single", "block")
HERE = os.path.dirname(os.path.abspath(__file__))


def command(name: str) -> Optional[ModuleType]:
    """The module of a command; None where there is none of that name."""
    module = "over_rows" if name in MODES else MODULES.get(name)
    if module is None or not os.path.exists(os.path.join(HERE, "commands", module + ".py")):
        return None
    return importlib.import_module("pyc.commands." + module)


def commands() -> List[options.Command]:
    """The rows of the table, of all commands that are there."""
    return [row_of(name, module) for name, module in ((it, command(it)) for it in MODULES) if module is not None]


def row_of(name: str, module: ModuleType) -> options.Command:
    """The row of the table of a command."""
    if hasattr(module, "COMMANDS"):
        return module.COMMANDS[name]
    # A module without a row parses its words by itself.
    about = (module.__doc__ or "").split("\n")[0].partition(": ")[2]
    return getattr(module, "COMMAND", options.Command(name, "WORD..", about[:1].upper() + about[1:]))


def main(words: Sequence[str]) -> int:
    """Does what the words of a call say, and gives its status."""
    ends.open_ends()
    quick.teller = ends.say
    try:
        return called(list(words))
    except options.HelpWanted as wanted:
        return told_or_failed(lambda: help_of(wanted.command))
    except WrongWords as wrong:
        ends.say("pyc: %s\npyc: '%s --help' lists the words\n" % (wrong, " ".join([options.CALLED, *asked(words)])))
        return WORDS
    except NoProgram as missing:
        return without_program(missing, words)
    except (Error, Failed) as fault:
        ends.say(str(fault) if isinstance(fault, Failed) else "%s\n" % fault)
        return fault.status
    except KeyboardInterrupt:
        return 130
    finally:
        ends.flush()


def called(words: List[str]) -> int:
    """Calls the command that the words name, or `compile` where they name none."""
    module = command(words[0]) if words else None
    if module is not None:
        if len(words) > 1 and words[1] in options.HELP.names and words[0] in MODULES:
            # Also where what the command wants is not there.
            raise options.HelpWanted(row_of(words[0], module))
        return module.main(words if hasattr(module, "COMMANDS") else words[1:])
    if "--run" in words:
        from .commands import compile

        rest = compile.words_of_run(words)
        if rest is not None:
            return importlib.import_module("pyc.commands.run").main(rest)
    return importlib.import_module("pyc.commands.compile").main(words)


def asked(words: Sequence[str]) -> List[str]:
    """The name of the command that the words name, where they name one."""
    return [words[0]] if words and words[0] in MODULES and command(words[0]) else []


def told_or_failed(text) -> int:
    """Writes a text on standard output. The status."""
    try:
        ends.write(text())
    except Failed as failed:
        ends.say(str(failed))
        return failed.status
    return DONE


def help_of(wanted: options.Command) -> str:
    """The text of --help: of a command, or of all where none is named."""
    if wanted.name != "compile":
        return options.help_of(wanted)
    from .manual import overview

    return overview(commands())


def without_program(missing: NoProgram, words: Sequence[str]) -> int:
    """What is done where the program is not there: in a checkout it is built, and the call is made anew. Cargo builds it
    without proof; where there is no cargo, it is proved."""
    from . import program

    if not program.is_checkout():
        ends.say("pyc: %s\n" % missing)
        return missing.status
    if quick.is_possible() and quick.build() is not None:
        return main(words)
    builder = os.path.join(program.ROOT, "tools", "build.py")
    starter = os.path.join(program.ROOT, "pyc.sh")
    os.execv(sys.executable, [sys.executable, builder, "--then", starter, "pyc", *words])
    raise AssertionError("execv does not return")
