"""The reference machine: it runs codes over CPython's own objects (docs/RUNNING.md). No proof is about it.

`instructions.py` says what each instruction does. `execute` runs a code.
"""
from __future__ import annotations

from typing import Any, Optional

from ..code_object import Code


def execute(code: Code, globals: dict, locals: Optional[Any] = None) -> Any:
    """Runs a code with these names, and gives what it answers; what it raises is raised.

    The code is not verified: one that no compiler made may end with any exception.
    """
    from . import bodies, translation

    return bodies.execute(translation.linked(translation.translated(code)), globals, locals)
