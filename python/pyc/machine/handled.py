"""The exception that is handled: what `sys.exception()` answers, and what becomes the context of one that is raised.

CPython keeps it in a slot of the thread, or of the generator that runs. A handler of a program is run by the machine
without an `except` clause of Python around it, so the machine sets the slot by a function of CPython's C interface.
"""
from __future__ import annotations

import ctypes
import sys

SET_HANDLED = ctypes.pythonapi.PyErr_SetHandledException
SET_HANDLED.argtypes = [ctypes.py_object]
SET_HANDLED.restype = None


def set_handled(error: BaseException | None) -> None:
    """Sets the exception that is handled; None where there is to be none."""
    SET_HANDLED(error)


def own_handled() -> BaseException | None:
    """The exception that this thread or generator handles itself; None where only one that waits for it does."""
    seen = sys.exception()
    if seen is None:
        return None
    SET_HANDLED(None)
    is_own = sys.exception() is not seen
    SET_HANDLED(seen if is_own else None)
    return seen if is_own else None
