"""What Python answers from the frame that calls: `locals()` and the like, and the texts that a program runs.

The code of a program is that of the frame, but a function has the machine's own names beside its variables, and texts
may be compiled by the program too (`--texts`). So a code that names one of these built-ins asks `hooked` for what it calls.
"""
from __future__ import annotations

import builtins
import sys
import types
from typing import Any, Callable, Optional, Union

from . import bodies

# A code that has none of these names calls no built-in that is hooked.
NAMES = frozenset("locals vars dir eval exec compile".split())

# The machine's own variables in a function.
OWN = (".stack", ".blocks", ".at")

# From a text, its path and its mode to its code; None where Python is to compile it. Set where `--texts` is asked for.
text_of: Optional[Callable[[str, Any, str], Optional[types.CodeType]]] = None

# By the number of a code of Python: it, and the code that the program made of the same text.
COMPILED: dict[int, tuple[types.CodeType, types.CodeType]] = {}


def names_of(frame: types.FrameType) -> Any:
    """What `locals()` answers in a frame."""
    names = frame.f_locals
    if frame.f_code.co_flags & 0x01:
        return {name: value for name, value in names.items() if name not in OWN}
    return names


def hook_locals() -> Any:
    return names_of(sys._getframe(1))


def hook_vars(*arguments: Any) -> Any:
    return vars(*arguments) if arguments else names_of(sys._getframe(1))


def hook_dir(*arguments: Any) -> list[str]:
    return dir(*arguments) if arguments else sorted(names_of(sys._getframe(1)))


def run_text(frame: types.FrameType, source: Any, mode: str, globals: Any, locals: Any, **named: Any) -> Any:
    """Runs a text, or a code of one, for a frame."""
    if globals is None:
        globals, locals = frame.f_globals, names_of(frame) if locals is None else locals
    elif locals is None:
        locals = globals
    code = COMPILED.get(id(source), (None, None))[1]
    if isinstance(source, str) and text_of is not None and type(globals) is dict:
        code = text_of(source.lstrip(" \t") if mode == "eval" else source, "<string>", mode)
        if code is not None:
            compile(source.lstrip(" \t") if mode == "eval" else source, "<string>", mode, 0, True)  # for its warnings
    if code is None:
        return (builtins.eval if mode == "eval" else builtins.exec)(source, globals, locals, **named)
    return bodies.execute(code, globals, locals)


def hook_eval(source: Any, globals: Any = None, locals: Any = None, /) -> Any:
    return run_text(sys._getframe(1), source, "eval", globals, locals)


def hook_exec(source: Any, globals: Any = None, locals: Any = None, /, **named: Any) -> None:
    run_text(sys._getframe(1), source, "exec", globals, locals, **named)


def hook_compile(source: Any, filename: Any, mode: str, flags: int = 0, *more: Any, **named: Any) -> Any:
    made = compile(source, filename, mode, flags, *more, **named)
    if text_of is not None and isinstance(source, str) and not flags and not more and not named:
        code = text_of(source, filename, mode)
        if code is not None:
            COMPILED[id(made)] = made, code
    return made


HOOKS: dict[int, Callable] = {
    id(builtins.locals): hook_locals,
    id(builtins.vars): hook_vars,
    id(builtins.dir): hook_dir,
    id(builtins.eval): hook_eval,
    id(builtins.exec): hook_exec,
    id(builtins.compile): hook_compile,
}


def hooked(called: Any) -> Any:
    """What is called in place of a built-in that answers from the frame that calls it; else the same."""
    return HOOKS.get(id(called), called)
