"""pyc: compiles Python sources by the proved program.

    >>> import pyc
    >>> code = pyc.compile("f(a + 1)", "m.py")
    >>> [unit.name for unit in code.units][:3]
    ['LoadNameAny', 'LoadNameAny', 'LoadConst']

`compile` gives a `Code`, `names` the report on names, and `run` runs a code. `python -m pyc` is the command. What this
package does beside calling the program is tested and not proved.
"""
from __future__ import annotations

from typing import TYPE_CHECKING, Any, List

if TYPE_CHECKING:
    from .api import compile, names, run
    from .code_object import Code, Unit
    from .codefile import BadCode
    from .errors import Ended, Error, NoProgram, OutOfMemory, Refused
    from .report import NameItem

# The names of the package, by the modules that have them. A module is imported when a name of it is asked for.
PUBLIC = {
    "compile": "api",
    "names": "api",
    "run": "api",
    "Code": "code_object",
    "Unit": "code_object",
    "NameItem": "report",
    "BadCode": "codefile",
    "Error": "errors",
    "Refused": "errors",
    "NoProgram": "errors",
    "OutOfMemory": "errors",
    "Ended": "errors",
}

__all__ = tuple(PUBLIC)


def __getattr__(name: str) -> Any:
    """A public name, from its module."""
    if name not in PUBLIC:
        raise AttributeError("module 'pyc' has no attribute %r" % name)
    import importlib

    value = getattr(importlib.import_module("." + PUBLIC[name], __name__), name)
    globals()[name] = value
    return value


def __dir__() -> List[str]:
    return sorted([*globals(), *PUBLIC])
