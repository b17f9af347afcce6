"""The three ends of a call: what it reads and writes beside files."""
from __future__ import annotations

import os
import sys
from typing import Union

from .errors import WRITE, Failed

# How wide a line of a source is shown where standard error is no terminal, and how wide at least where it is one.
WIDTH, LEAST_WIDTH = 100, 40


def open_ends() -> None:
    """Opens the ends that the caller has closed, so that no file takes their place; what is done there fails."""
    for number in range(3):
        try:
            os.fstat(number)
        except OSError:
            reading, writing = os.pipe()
            os.dup2(reading if number == 0 else writing, number)
            for it in {reading, writing} - {number}:
                os.close(it)


def write(data: Union[bytes, str]) -> None:
    """Writes on standard output. Raises Failed where it is closed or full."""
    if sys.stdout is not sys.__stdout__:
        # A program that calls this one has put something in its place.
        sys.stdout.write(data if isinstance(data, str) else data.decode("utf-8"))
        return
    try:
        # What print has kept back comes first. A stream of its own keeps nothing back that could fail once more at the end.
        if sys.stdout is not None:
            sys.stdout.flush()
        with open(1, "wb", closefd=False) as out:
            out.write(data.encode("utf-8", "backslashreplace") if isinstance(data, str) else data)
    except OSError as error:
        raise Failed("standard output: %s\n" % error.strerror, WRITE) from None


def say(text: str) -> None:
    """Writes on standard error; where that is closed nobody hears it."""
    if sys.stderr is not sys.__stderr__:
        sys.stderr.write(text)
        return
    try:
        with open(2, "wb", closefd=False) as out:
            out.write(text.encode("utf-8", "backslashreplace"))
    except OSError:
        pass


def is_coloured() -> bool:
    """Whether colours are told on standard error: it is a terminal, and nothing speaks against them."""
    return not os.environ.get("NO_COLOR") and os.environ.get("TERM") != "dumb" and os.isatty(2)


def width() -> int:
    """How many columns a line on standard error has."""
    try:
        return max(os.get_terminal_size(2).columns, LEAST_WIDTH)
    except OSError:
        return WIDTH


def flush() -> None:
    """Writes what print has kept back; where that fails, nothing more is tried."""
    try:
        if sys.stdout is not None:
            sys.stdout.flush()
    except OSError:
        os._exit(WRITE)
