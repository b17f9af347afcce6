"""A program as the main module: where it begins, and how it ends."""
from __future__ import annotations

import builtins
import contextlib
import os
import sys
import types
from typing import Any, Callable, Iterator, NamedTuple, Optional

from . import bodies
from .blocks import trim

# The folder in which this package stands, and the package's name.
AROUND = os.path.dirname(os.path.dirname(os.path.dirname(os.path.abspath(__file__))))
PACKAGE = __name__.partition(".")[0]


class Main(NamedTuple):
    """A program that is run: its code, what its module has besides its names, its words, and where it looks for modules
    first."""

    code: types.CodeType
    attributes: dict[str, Any]
    words: list[str]
    place: str


# The modules of this package, once they are hidden: a program may have others of these names.
HIDDEN: dict[str, types.ModuleType] = {}


def taken(is_own: Callable[[str], bool]) -> dict[str, types.ModuleType]:
    """Modules of such names, which are taken out of the list of modules."""
    return {name: sys.modules.pop(name) for name in [it for it in sys.modules if is_own(it)]}


def is_of_package(name: str) -> bool:
    """Whether a module of this name would be one of this package."""
    return name.partition(".")[0] == PACKAGE


@contextlib.contextmanager
def shown() -> Iterator[None]:
    """Within, the modules of this package are found again, and none of the program's of these names."""
    if not HIDDEN:
        yield
        return
    of_program = taken(is_of_package)
    sys.modules.update(HIDDEN)
    try:
        yield
    finally:
        HIDDEN.update(taken(is_of_package))
        sys.modules.update(of_program)


def begin(place: str) -> None:
    """Makes a place the first where modules are looked for, in place of that of this package, and hides this package."""
    if sys.path and (not sys.flags.safe_path or sys.path[0] == AROUND):
        del sys.path[0]
    sys.path.insert(0, place)
    HIDDEN.update(taken(is_of_package))


def run(program: Main) -> int:
    """Runs a program as the main module. The status."""
    module = types.ModuleType("__main__")
    vars(module).update(__annotations__={}, __builtins__=builtins, **program.attributes)
    if not HIDDEN:
        begin(program.place)
    sys.modules["__main__"] = module
    sys.argv = program.words
    try:
        bodies.execute(program.code, vars(module))
    except SystemExit:
        raise
    except BaseException as error:
        return told(error)
    finally:
        settle()
    return 0


def settle() -> None:
    """Sees that the command finds no standard output which the program has closed, or has put something else in place of."""
    if getattr(sys.stdout, "closed", False) or not callable(getattr(sys.stdout, "flush", None)):
        sys.stdout = None


def told(error: BaseException) -> int:
    """Tells an exception with which a program ends. The status."""
    trim_chain(error)
    sys.last_type, sys.last_value, sys.last_traceback = type(error), error, error.__traceback__
    if sys.version_info >= (3, 12):
        sys.last_exc = error
    sys.excepthook(type(error), error, error.__traceback__)
    return 130 if isinstance(error, KeyboardInterrupt) else 1


def trim_chain(error: Optional[BaseException]) -> None:
    """Takes the functions of this package out of the tracebacks of an exception, its cause, its context and its parts."""
    seen: list[BaseException] = []
    waiting: list[Any] = [error]
    while waiting:
        it = waiting.pop()
        if isinstance(it, BaseException) and not any(it is other for other in seen):
            seen.append(it)
            trim(it)
            waiting += [it.__cause__, it.__context__, *getattr(it, "exceptions", ())]
