"""What a program finds of its own frames: names, lines, variables, who calls, and what tracebacks hold."""
import inspect
import logging
import sys
import traceback
import warnings

warnings.showwarning = lambda message, category, filename, lineno, *more: print(message, category.__name__, lineno)


def own(names):
    """The names of the program among those of a frame: the machine has some of its own, which begin with a dot."""
    return sorted(it for it in names if it[0] != ".")


def here():
    frame = sys._getframe(1)
    return frame.f_code.co_name, frame.f_lineno, own(frame.f_locals), frame.f_back and frame.f_back.f_code.co_name


class Owner:
    print(here()[:2])
    kept = sys._getframe().f_locals is locals()

    def method(self, first, *rest, **named):
        inner = [here()[:2] for _ in range(1)]
        return here(), inner, super().__init__

    @property
    def line(self):
        return inspect.currentframe().f_lineno


def closed(first):
    def within():
        nonlocal first
        first += 1
        return sorted(locals()), locals()["first"], dir(), sorted(vars())
    return within


def numbers(count):
    for number in range(count):
        yield here()[:2]


print(Owner().method(1, 2, key=3)[0], Owner.kept, Owner().line)
print(closed(1)(), list(numbers(2)))
found = numbers(2)
print(found.gi_code.co_name, found.gi_frame.f_lineno, found.__qualname__, next(found), found.gi_frame.f_lineno)
numbers.__name__ = "renamed"
print(numbers(1).__name__)
warnings.warn("here")


def warned():
    warnings.warn("there", DeprecationWarning, stacklevel=2)


warned()
logging.basicConfig(format="%(funcName)s %(lineno)d %(message)s", stream=sys.stdout)


def logs():
    logging.warning("logged")


logs()


def fails(count):
    if not count:
        return {}["key"]
    return fails(count - 1)


def catches():
    try:
        fails(2)
    except KeyError as error:
        return error


error = catches()
print([(it.name, it.lineno, it.line) for it in traceback.extract_tb(error.__traceback__)])
print([it.f_code.co_name for it, _ in traceback.walk_tb(error.__traceback__)])
print(own(error.__traceback__.tb_frame.f_locals), error.__traceback__.tb_next.tb_lineno)
print(own(fails.__code__.co_varnames), fails.__code__.co_argcount, fails.__code__.co_firstlineno, closed.__code__.co_cellvars)
print(closed(1).__code__.co_freevars, inspect.signature(Owner.method), inspect.getsource(fails).count("\n"))
print([it.function for it in inspect.stack()][0], eval("sorted(locals())[:1]"), "found" in dir())
