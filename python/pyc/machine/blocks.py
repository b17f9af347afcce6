"""Blocks: what a code has open, and how it is left by a raise, a `break`, a `continue` and a return.

A block is opened by an instruction (`SetupLoop`, `SetupExcept`, `SetupFinally`, `SetupWith`, `EnterFinally`), or by
what enters a handler. Blocks stand in a list, the innermost last.
"""
from __future__ import annotations

import os
import sys
import types

from .handled import own_handled, set_handled

# The kinds of blocks. A code that is left by an exception out of a handler has one of the last kind for a moment.
LOOP, EXCEPT, FINALLY = "Loop", "Except", "Finally"
EXCEPT_HANDLER, FINALLY_HANDLER, LEFT = "ExceptHandler", "FinallyHandler", "Left"

# The ways on which blocks are left, but for a raise.
BREAK, CONTINUE, RETURN = "break", "continue", "return"

# What stands for a value that is not there, and the unit that stands for no unit: the code is left.
UNSET = type("Unset", (), {})()
NOWHERE = -1


class Block:
    """An open block: its kind, how many values lie below it, where its handler begins, and why a handler runs: for an
    exception, before which another was handled, or since blocks are left on a way (with its value)."""

    __slots__ = ("kind", "height", "handler", "error", "previous", "is_entered", "way", "value")

    def __init__(self, kind, height, handler=None, error=None, previous=UNSET, way=None, value=None):
        self.kind, self.height, self.handler = kind, height, handler
        # Whether the exception of a handler is the one that is handled.
        self.error, self.previous, self.is_entered = error, previous, False
        self.way, self.value = way, value


def take(stack: list, blocks: list[Block]) -> int:
    """The unit where the handler begins that takes the exception which is being handled. Its block is open then.

    NOWHERE where no block takes it and no handler was left; where one was left, a block LEFT is open. Until the last step
    all blocks are as they were, so that ^C may come at any time.
    """
    error = sys.exception()
    trim(error)
    previous, left = UNSET, len(blocks)
    while left:
        left -= 1
        block = blocks[left]
        if block.kind == EXCEPT or block.kind == FINALLY:
            kind = EXCEPT_HANDLER if block.kind == EXCEPT else FINALLY_HANDLER
            handler = Block(kind, block.height, error=error, previous=previous)
            stack[block.height :] = [error] if block.kind == EXCEPT else []
            blocks[left:] = [handler]
            return block.handler
        if block.is_entered:
            previous = block.previous
    if previous is UNSET:
        return NOWHERE
    blocks[:] = [Block(LEFT, 0, error=error, previous=previous, value=(error.__context__, error.__traceback__))]
    return 0


def enter(blocks: list[Block]) -> None:
    """Begins a handler: its exception, where it runs for one, is the one that is handled from now on."""
    block = blocks[-1]
    if block.error is not None:
        if block.previous is UNSET:
            block.previous = own_handled()
        block.is_entered = True
        set_handled(block.error)


def raise_left(blocks: list[Block]) -> None:
    """Raises the exception of a block LEFT, with what was handled before the handlers that were left."""
    set_handled(blocks[-1].previous)
    raise blocks[-1].error


def again(blocks: list[Block]) -> None:
    """Gives the exception of a block LEFT the context and the traceback that it had before it was raised again."""
    block = blocks.pop()
    block.error.__context__, block.error.__traceback__ = block.value


def leave(stack: list, blocks: list[Block], way: str, value: object) -> int:
    """Leaves blocks on a way, whose value is the unit where it leads, or what is returned. The unit that comes next.

    NOWHERE where the code is left; what is returned is on top of the stack then.
    """
    while blocks:
        block = blocks[-1]
        if block.kind == LOOP and way == CONTINUE:
            return value
        if block.kind == FINALLY:
            handler = Block(FINALLY_HANDLER, block.height, way=way, value=value)
            del stack[block.height :]
            blocks[-1] = handler
            return block.handler
        close(blocks)
        del stack[block.height :]
        if block.kind == LOOP and way == BREAK:
            return value
    if way != RETURN:
        raise SystemError("%s without a loop" % way)
    stack.append(value)
    return NOWHERE


def close(blocks: list[Block]) -> Block:
    """Takes the innermost block away. Behind a handler of an exception the one before it is handled again."""
    block = blocks[-1]
    if block.is_entered:
        set_handled(block.previous)
    return blocks.pop()


def go_on(stack: list, blocks: list[Block], following: int) -> int:
    """Closes a finally handler that no exception entered. The unit that comes next, which is `following` where no way
    led through the handler."""
    block = blocks.pop()
    return following if block.way is None else leave(stack, blocks, block.way, block.value)


def trim(error: BaseException) -> None:
    """Takes the functions of this package out of a traceback."""
    before, at = None, error.__traceback__
    while at is not None:
        if not at.tb_frame.f_code.co_filename.startswith(PACKAGE):
            before = at
        elif before is None:
            error.__traceback__ = at.tb_next
        else:
            before.tb_next = at.tb_next
        at = at.tb_next


# The folder of this package, whose functions are none of a program's.
PACKAGE = os.path.join(os.path.dirname(os.path.dirname(os.path.abspath(__file__))), "")


def room(calls: int = 6) -> None:
    """Raises RecursionError where calls cannot go as deep as those of this module, so that later they can."""
    if calls:
        room(calls - 1)
