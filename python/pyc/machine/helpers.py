"""What the lines of the instructions call by words in capitals: built-ins, and functions for what Python has no words for.

These functions call no code of the program where that can be had, and raise nothing of their own: an error is given, or
UNSET, and raised where the instruction stands. So a traceback has the program's functions alone.
"""
from __future__ import annotations

import builtins
import operator
import sys
import types
import typing
from typing import Any, Iterator, Mapping, Optional, Union

from . import blocks, hooks
from .blocks import UNSET, Block
from .bodies import function_of

# The operands of MakeFunction.
CLOSURE, ANNOTATIONS, KEYWORD_DEFAULTS, DEFAULTS, TYPE_PARAMETERS = 0x01, 0x02, 0x04, 0x08, 0x10


def mro(cls: type) -> tuple[type, ...]:
    """A class and its bases, whatever its metaclass says of them."""
    return type.__dict__["__mro__"].__get__(cls)


def matches(error: BaseException, classes: Any) -> Any:
    """Whether an exception is of a class or of one of a tuple of classes. UNSET where one is no class of exceptions."""
    wanted = classes if isinstance(classes, tuple) else (classes,)
    for it in wanted:
        if not (isinstance(it, type) and BaseException in mro(it)):
            return UNSET
    return any(it in mro(type(error)) for it in wanted)


def contents(cell: types.CellType) -> Any:
    """What a cell holds; UNSET where it is empty."""
    try:
        return cell.cell_contents
    except ValueError:
        return UNSET


def name_or_contents(names: Mapping, name: str, cell: types.CellType) -> Any:
    """The value of a name, or what the cell holds where there is no such name; UNSET where that is empty."""
    try:
        return names[name]
    except KeyError:
        pass
    return contents(cell)


def unbound(name: str, is_free: bool) -> NameError:
    """The error of an empty cell."""
    text = "cannot access %s variable '%s' where it is not associated with a value%s"
    if is_free:
        return NameError(text % ("free", name, " in enclosing scope"), name=name)
    return UnboundLocalError(text % ("local", name, ""), name=name)


def called_text(called: Any) -> str:
    """How an error names what is called."""
    qualname, module = getattr(called, "__qualname__", None), getattr(called, "__module__", None)
    if qualname is None:
        return str(called)
    return "%s()" % qualname if module in (None, "builtins") else "%s.%s()" % (module, qualname)


def keywords(stack: list, count: int) -> Union[dict, TypeError]:
    """Takes mappings from the stack. A dict of what they hold, or the error of one that is no mapping or of a key.

    What is called with them lies below them and a tuple of arguments."""
    found: dict = {}
    at = len(stack) - count
    called = stack[at - 2] if at > 1 else None
    for mapping in stack[at:]:
        if not hasattr(mapping, "keys"):
            return TypeError("%s argument after ** must be a mapping, not %s" % (called_text(called), type(mapping).__name__))
        for key in mapping.keys():
            if key in found:
                return TypeError("%s got multiple values for keyword argument '%s'" % (called_text(called), key))
            found[key] = mapping[key]
    del stack[at:]
    return found


def named(stack: list, count: int) -> Union[dict, TypeError]:
    """Takes names and arguments from the stack, and puts the arguments without names there, as a list. The others by
    their names, or the error of a name that stands twice."""
    names = stack.pop()
    at, found = len(stack) - len(names), {}
    for name, value in zip(names, stack[at:]):
        if name in found:
            return TypeError("got multiple values for keyword argument '%s'" % name)
        found[name] = value
    del stack[at:]
    at = len(stack) - count + len(names)
    stack[at:] = [stack[at:]]
    return found


def set_up_annotations(names: Any) -> None:
    """Stores a dict under `__annotations__`, where there is nothing of that name."""
    try:
        names["__annotations__"]
    except KeyError:
        names["__annotations__"] = {}


def of_class(cls: type, name: str) -> Any:
    """What a class, or one of its bases, has under a name; UNSET where none has it."""
    for it in mro(cls):
        if name in it.__dict__:
            return it.__dict__[name]
    return UNSET


def bound(value: Any, instance: Any) -> Any:
    """What a class has under a name, as the method of an object."""
    get = of_class(type(value), "__get__")
    return value if get is UNSET else get(value, instance, type(instance))


def exit_and_enter(manager: Any) -> tuple:
    """The exit and the enter of a context manager; UNSET and the error of an object that is none."""
    cls = type(manager)
    enter, leave = of_class(cls, "__enter__"), of_class(cls, "__exit__")
    if enter is UNSET or leave is UNSET:
        missed = "" if enter is UNSET else " (missed __exit__ method)"
        return UNSET, TypeError("'%s' object does not support the context manager protocol%s" % (cls.__name__, missed))
    return bound(leave, manager), bound(enter, manager)


def exit_arguments(opened: list[Block]) -> tuple:
    """What an exit is called with in the innermost handler."""
    error = opened[-1].error
    return (None, None, None) if error is None else (type(error), error, error.__traceback__)


class Once:
    """`yield from` asks for an iterator; the code has asked already (GetIter)."""

    __slots__ = ("iterator",)

    def __init__(self, iterator: Iterator):
        self.iterator = iterator

    def __iter__(self) -> Iterator:
        return self.iterator


def once(iterator: Iterator) -> Any:
    """An iterator for `yield from`, which takes a generator as it is."""
    return iterator if type(iterator) is types.GeneratorType else Once(iterator)


def make(names: dict, stack: list, flags: int) -> types.FunctionType:
    """Takes what MakeFunction takes from the stack. The function, whose module has these names."""
    qualname, code = stack.pop(), stack.pop()
    cells = stack.pop() if flags & CLOSURE else ()
    annotations = stack.pop() if flags & ANNOTATIONS else None
    parameters = stack.pop() if flags & TYPE_PARAMETERS else None
    keyword_defaults = stack.pop() if flags & KEYWORD_DEFAULTS else None
    function = function_of(code, names, stack.pop() if flags & DEFAULTS else None, cells, parameters)
    function.__qualname__ = qualname
    if keyword_defaults is not None:
        function.__kwdefaults__ = keyword_defaults
    if annotations is not None:
        function.__annotations__ = annotations
    if parameters is not None:
        function.__type_params__ = parameters
    return function


def builtin(names: dict, name: str) -> Any:
    """A built-in, as a module with these names has it."""
    found = names.get("__builtins__", builtins)
    return found[name] if isinstance(found, dict) else getattr(found, name)


def bound_of(limit: Any, name: str) -> tuple[list, dict]:
    """The arguments with which a type parameter with a bound is made."""
    return ([name, *limit], INFERRED) if isinstance(limit, tuple) else ([name], {"bound": limit, **INFERRED})


def module_within(module: Any, name: str) -> Any:
    """The module of a name within another, where it is loaded; else UNSET."""
    return sys.modules.get("%s.%s" % (getattr(module, "__name__", None), name), UNSET)


def no_name(module: Any, name: str) -> ImportError:
    """The error of a name that is imported from a module and is not there."""
    package, path = getattr(module, "__name__", None), getattr(module, "__file__", None)
    whole, where = package or "<unknown module name>", path or "unknown location"
    if getattr(getattr(module, "__spec__", None), "_initializing", False):
        text = "cannot import name '%s' from partially initialized module '%s' (most likely due to a circular import) (%s)"
    else:
        text = "cannot import name '%s' from '%s' (%s)"
    return ImportError(text % (name, whole, where), name=package, path=path)


def import_star(names: Any, module: Any) -> None:
    """Stores the public names of a module."""
    public = getattr(module, "__all__", None)
    for name in [it for it in vars(module) if not it.startswith("_")] if public is None else public:
        names[name] = getattr(module, name)


def check(stack: list, most: int) -> None:
    """Raises SystemError where the stack is higher than its code says."""
    if len(stack) > most:
        raise SystemError("%d values on a stack of %d" % (len(stack), most))


INFERRED: dict = {"infer_variance": True} if sys.version_info >= (3, 12) else {}

BUILT_IN = (ascii, format, getattr, globals, iter, len, locals, next, repr, set, slice, str, tuple, type)
OF_BLOCKS = (blocks.again, blocks.close, blocks.enter, blocks.go_on, blocks.leave, blocks.raise_left, blocks.room, blocks.take)
OWN = (
    builtin,
    check,
    contents,
    exit_and_enter,
    exit_arguments,
    import_star,
    keywords,
    make,
    matches,
    module_within,
    name_or_contents,
    named,
    no_name,
    once,
    set_up_annotations,
    unbound,
)
CONSTANTS = "LOOP EXCEPT FINALLY EXCEPT_HANDLER FINALLY_HANDLER LEFT BREAK CONTINUE RETURN UNSET"
INPLACE = "IADD ISUB IMUL IMATMUL ITRUEDIV IFLOORDIV IMOD IPOW ILSHIFT IRSHIFT IOR IXOR IAND"

# What each word in capitals stands for.
HELPERS: dict[str, Any] = {
    **{it.__name__.upper(): it for it in (*BUILT_IN, *OF_BLOCKS, *OWN, hooks.hooked)},
    **{it: getattr(blocks, it) for it in CONSTANTS.split()},
    **{it: getattr(operator, it.lower()) for it in INPLACE.split()},
    "BLOCK": Block,
    "BOUND": bound_of,
    "INFERRED": INFERRED,
    "JOIN": "".join,
    "SYSTEM": sys,
    "TYPE_ALIAS": getattr(typing, "TypeAliasType", None),
    "TYPE_ERROR": TypeError,
    "TYPE_VAR": typing.TypeVar,
}
