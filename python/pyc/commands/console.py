"""The command `console`: a prompt at which what is entered is compiled by the program, and runs on the machine."""
from __future__ import annotations

import code
import os
import sys
import types
from typing import Any, List, Optional

from .. import ends, program, refusals, rows
from ..errors import DONE, MISSING, REFUSED, Error, Refused
from ..options import Command, Option, parse
from ..sources import bytes_of

COMMAND = Command(
    "console",
    "[ARG..]",
    "Opens a prompt. What is entered is compiled by the program, and runs on a machine in Python over Python's own "
    "objects. The arguments are those of sys.argv. Python 3.11 or later.",
    (
        Option(("-i",), "run FILE.py before the prompt, with the same names", "FILE.py"),
        Option(("-c",), "run TEXT, and open no prompt", "TEXT"),
        Option(("-O", "--level"), "the level of optimisation (0)", "LEVEL", ("0", "1", "2"), "0"),
        Option(("-q", "--quiet"), "tell nothing before the first prompt"),
    ),
    "At the prompt :help tells what :code, :names and :quit do. ^C ends a line or what runs, ^D leaves. Lines are kept in "
    "~/.pyc_history, or in the file that PYC_HISTORY names.\n\n"
    "Status: that with which what was entered leaves, else 0; of -c 1 where the text is refused or raises; 2 wrong words; "
    "4 FILE.py is not read; 127 Python is older.",
    is_first_last=True,
)

HELP = """\
:code         the listing of the last entry
:code NAME    the listing of a function or a class that was entered, as :code A.f
:names        what the report on names tells of all that was entered
:help         this
:quit         leave, as ^D does
"""


def main(words: List[str]) -> int:
    """Opens the prompt, or runs a text. The status."""
    given = parse(COMMAND, words)
    if sys.version_info < (3, 11):
        ends.say("pyc console: Python 3.11 or later is wanted, and this is %d.%d\n" % sys.version_info[:2])
        return MISSING
    text = text_of_file(given.i) if given.i else None
    console = Console(program.find(), int(given.level))
    sys.argv = [given.i or ("" if given.c is None else "-c"), *given.files]
    set_path(os.path.dirname(os.path.abspath(given.i)) if given.i else "")
    is_done = True
    if text is not None:
        console.locals["__file__"] = os.path.abspath(given.i)
        is_done = console.enter(text, given.i, "exec")
    if given.c is not None:
        return DONE if console.enter(given.c + "\n", "<string>", "exec") and is_done else REFUSED
    console.open(given.quiet)
    return DONE


def set_path(folder: str) -> None:
    """Puts a folder first where modules are looked for, in the place of that of this package, where a path of it was called."""
    package = os.path.dirname(os.path.dirname(os.path.dirname(os.path.abspath(__file__))))
    if sys.path and os.path.realpath(sys.path[0]) == os.path.realpath(package):
        del sys.path[0]
    sys.path.insert(0, folder)


def text_of_file(file: str) -> str:
    """The text of a file. Raises Failed where it is not read, and Refused where its bytes are none."""
    data = bytes_of(file)
    try:
        return rows.text_of(data)
    except rows.Fault as fault:
        raise Refused(refusals.refusal(file, fault.place, str(fault))) from None


def own_main() -> types.ModuleType:
    """A module for what is entered, which takes the place of this package's own as `__main__`."""
    made = types.ModuleType("__main__")
    made.__dict__.update({"__builtins__": __import__("builtins"), "__annotations__": {}})
    sys.modules["__main__"] = made
    return made


class Console(code.InteractiveConsole):
    """The prompt. Lines, incomplete input and ^C are those of Python's own `code` module."""

    def __init__(self, path: str, level: int) -> None:
        from ..session import Session

        names = own_main().__dict__
        super().__init__(names, "<stdin>")
        self.session = Session(path, level, names)

    def open(self, is_quiet: bool) -> None:
        """Reads and runs entries until the input ends."""
        history = History(self.locals)
        banner = "pyc on the objects of Python %s. :help tells more, ^D leaves." % sys.version.split()[0]
        try:
            self.interact("" if is_quiet else banner, "")
        except Leave:
            pass
        finally:
            history.keep()

    def push(self, line: str, *more: Any, **named: Any) -> bool:
        """Takes a line; whether the entry is not at its end. A line that begins an entry with : is a command."""
        if not self.buffer and line.startswith(":"):
            self.command(line[1:].split())
            return False
        return super().push(line, *more, **named)

    def raw_input(self, prompt: str = "") -> str:
        """The next line, with `readline` at a terminal; elsewhere the prompt goes to standard error."""
        if sys.stdin.isatty():
            return input(prompt)
        self.write(prompt)
        line = sys.stdin.readline()
        if not line:
            raise EOFError
        return line.rstrip("\n")

    def runsource(self, source: str, filename: str = "<stdin>", symbol: str = "single") -> bool:
        """Runs an entry once it is complete; whether it is not."""
        try:
            is_complete = self.compile(source, filename, symbol) is not None
        except (OverflowError, SyntaxError, ValueError):
            is_complete = None
        if is_complete is None:
            self.show_fault(source + "\n", filename, symbol)
        elif is_complete and any(line.strip() and not line.lstrip().startswith("#") for line in source.split("\n")):
            self.enter(source + "\n", self.session.next_name(), symbol)
        return is_complete is False

    def show_fault(self, text: str, name: str, mode: str) -> None:
        """Tells why Python does not read a text, with a mark where that is, also at the end of a line."""
        try:
            compile(text, name, mode)
        except (OverflowError, SyntaxError, ValueError):
            self.showsyntaxerror(name)

    def enter(self, text: str, name: str, mode: str) -> bool:
        """Compiles a text and runs it; what it is refused for, or raises, is told. Whether it ended well."""
        from ..session import trace_of

        try:
            self.session.run(text, name, mode)
            return True
        except Refused as refused:
            self.write(refusals.told(refused.refusal, ends.width(), ends.is_coloured()))
        except Error as fault:
            self.write("%s\n" % fault)
        except SystemExit:
            raise
        except BaseException as error:
            sys.last_type, sys.last_value, sys.last_traceback = type(error), error, error.__traceback__
            if sys.excepthook is sys.__excepthook__:
                self.write(trace_of(error))
            else:
                sys.excepthook(type(error), error, error.__traceback__)
        return False

    def command(self, words: List[str]) -> None:
        """Does a command of the prompt."""
        name, given = (words or [""])[0], words[1:]
        if name in ("quit", "q") and not given:
            raise Leave
        if name == "names" and not given:
            self.write("".join(it + "\n" for it in self.session.findings()))
        elif name == "code" and len(given) < 2:
            self.write(self.listing(given[0] if given else None))
        else:
            self.write(HELP if name == "help" and not given else "there is no command :%s\n%s" % (" ".join(words), HELP))

    def listing(self, name: Optional[str]) -> str:
        """The listing of what has this name, or of the last entry."""
        entries = self.session.entries
        try:
            if name is not None:
                return self.session.listings_of(name)
            return self.session.listing(entries[-1]) if entries else "nothing was entered\n"
        except (LookupError, Error) as error:
            return "%s\n" % error.args[0]

    def write(self, data: str) -> None:
        """Writes on standard error, behind what was printed."""
        sys.stdout.flush()
        sys.stderr.write(data)
        sys.stderr.flush()


class Leave(Exception):
    """The prompt is left."""


class History:
    """The lines of earlier prompts, and the completion of names, where a terminal and `readline` are there."""

    def __init__(self, names: Any) -> None:
        self.file = os.environ.get("PYC_HISTORY", os.path.join(os.path.expanduser("~"), ".pyc_history"))
        self.readline: Any = None
        if not sys.stdin.isatty():
            return
        try:
            import readline
            import rlcompleter
        except ImportError:
            return
        self.readline = readline
        readline.set_completer(rlcompleter.Completer(names).complete)
        readline.parse_and_bind("tab: complete")
        try:
            readline.read_history_file(self.file)
        except OSError:
            pass

    def keep(self) -> None:
        """Keeps the last thousand lines."""
        if self.readline is None or not self.file:
            return
        self.readline.set_history_length(1000)
        try:
            self.readline.write_history_file(self.file)
        except OSError:
            pass
