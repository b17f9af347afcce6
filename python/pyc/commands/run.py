"""The command `run`: compiles a program and runs it, on a machine over CPython's own objects (docs/RUNNING.md)."""
from __future__ import annotations

import importlib.util
import os
import sys
import types
from importlib.machinery import SourceFileLoader
from typing import TYPE_CHECKING, Any, List, Sequence

from .. import ends, program, refusals, sources
from ..errors import MISSING, READ, REFUSED, Failed, Refused, WrongWords
from ..options import Command, Option, parse
from .compile import LEVEL

if TYPE_CHECKING:
    from ..machine.mains import Main

COMMAND = Command(
    "run",
    "FILE [ARG..] | - [ARG..] | -c TEXT [ARG..] | -m MODULE [ARG..]",
    "Compiles a Python program and runs it, on a machine over Python's own objects. FILE is a source or a file of code; - is "
    "standard input. Words behind it are the program's. Python 3.11 or later.",
    (
        Option(("-c",), "run this text", "TEXT"),
        Option(("-m",), "run this module, or the package's __main__", "MODULE"),
        LEVEL,
        Option(("--import",), "compile the module NAME and those within it, too", "NAME", many=True),
        Option(("--texts",), "compile what the program hands to eval, exec and compile, too"),
        Option(("--literals",), "make a call of each literal that rows have no word for, as a float"),
        Option(("--no-cache",), "keep no code for the next run, and take none that was kept"),
        Option(("--program",), "compile by this program", "FILE"),
        Option(("--model",), "compile by tools/model, which no proof is about"),
    ),
    "The status is that of the program that runs; 1 where it is refused, 130 where it ends by KeyboardInterrupt.",
    True,
)

# The refusals of literals that --literals runs: floats, complex and wide numbers, surrogates.
OF_LITERALS = ("R104", "R105", "R106", "R107")


def main(words: List[str]) -> int:
    """Runs a program. The status is that with which it ends."""
    if sys.version_info < (3, 11):
        ends.say("pyc run: Python 3.11 or later is wanted, and this is %d.%d\n" % sys.version_info[:2])
        return MISSING
    end = end_of_options(words)
    found = parse(COMMAND, words[:end])
    found.files += words[end:]
    if found.c is not None and found.m is not None:
        raise WrongWords("-c and -m are two programs")
    if found.c is None and found.m is None and not found.files:
        raise WrongWords("no file is named")
    from ..machine import mains

    try:
        main = prepared(found)
    except Refused as refused:
        ends.say(refusals.told(refused.refusal, ends.width(), ends.is_coloured()))
        if refused.code in OF_LITERALS and not found.literals:
            ends.say("pyc: --literals runs it: such a literal becomes a call of a built-in that gives its value\n")
        return refused.status
    return mains.run(main)


def end_of_options(words: Sequence[str]) -> int:
    """How many of the words are options: those behind -c TEXT and -m MODULE are the program's, and so is a file."""
    with_value = {name for option in COMMAND.options if option.value for name in option.names}
    at = 0
    while at < len(words) and words[at].startswith("-") and words[at] not in ("-", "--"):
        is_last = words[at][:2] in ("-c", "-m")
        at += 2 if words[at] in with_value else 1
        if is_last:
            return min(at, len(words))
    return min(at + (words[at : at + 1] == ["--"]), len(words))


def prepared(found: types.SimpleNamespace) -> Main:
    """The program that the words name, compiled. Raises Failed where it is not there, or is refused."""
    from ..machine import hooks
    from ..machine.mains import Main
    from ..machine.sources import Compiler, Importer

    path = None if found.model else found.program or program.find()
    if path is not None and not os.access(path, os.X_OK):
        raise Failed("%s: there is no program\n" % path, READ)
    compiler = Compiler(path, int(found.level), found.literals, not found.no_cache)
    if found.texts:
        hooks.text_of = compiler.of_text
    if getattr(found, "import"):
        sys.meta_path.insert(0, Importer(compiler, getattr(found, "import")))
    if found.m is not None:
        return of_module(compiler, found.m, found.files)
    if found.c is not None:
        data = found.c.encode("utf-8", "surrogateescape")
        return Main(compiler.code(data, "<string>"), {}, ["-c", *found.files], "")
    name = found.files[0]
    data = sources.bytes_of(name)
    if name == "-":
        return Main(compiler.code(data, "<stdin>"), {}, found.files, "")
    path = os.path.abspath(name)
    attributes = {"__file__": path, "__cached__": None, "__loader__": SourceFileLoader("__main__", path)}
    return Main(compiler.code(data, path, name=name), attributes, found.files, os.path.dirname(os.path.realpath(path)))


def of_module(compiler: Any, name: str, words: List[str]) -> Main:
    """A module, or the `__main__` of a package, as a program."""
    from ..machine.mains import Main, begin, shown

    begin(os.getcwd())
    try:
        spec = importlib.util.find_spec(name)
        if spec is not None and spec.submodule_search_locations is not None:
            name += ".__main__"
            spec = importlib.util.find_spec(name)
    except (ImportError, ValueError, AttributeError) as error:
        raise Failed("pyc run: %s\n" % error, REFUSED) from None
    if spec is None or not isinstance(spec.loader, SourceFileLoader):
        raise Failed("pyc run: there is no source of a module %s\n" % name, REFUSED)
    path = spec.origin
    attributes = {"__file__": path, "__cached__": spec.cached, "__loader__": spec.loader, "__spec__": spec, "__package__": spec.parent}
    with shown():
        return Main(compiler.code(spec.loader.get_data(path), path), attributes, [path, *words], os.getcwd())
