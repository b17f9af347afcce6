"""Which exception is handled, in functions, generators, handlers that are left on any way, and behind them."""
import sys


def now():
    return type(sys.exception()).__name__


def left(way):
    for turn in range(2):
        try:
            raise KeyError(turn)
        except KeyError:
            if way == "break":
                break
            if way == "continue":
                continue
            if way == "return":
                return now()
            if way == "raise":
                raise ValueError(turn)
        finally:
            print("finally", now())
    return now()


for way in ("break", "continue", "return", "no way"):
    print(way, left(way), now())
try:
    left("raise")
except ValueError as error:
    print(now(), repr(error.__context__))
print(now())


def numbers():
    print("first", now())
    try:
        raise KeyError("of the generator")
    except KeyError:
        yield now()
        yield now()
    print("behind", now())
    yield now()
    try:
        yield 1
    except ValueError as error:
        print("thrown", now(), repr(error.__context__))
        yield now()


found = numbers()
try:
    raise TypeError("around")
except TypeError:
    print(next(found), now())
print(next(found), now())
try:
    raise IndexError("other")
except IndexError:
    print(next(found), now())
next(found)
print(found.throw(ValueError(2)), now())


def deep(depth):
    try:
        raise KeyError(depth)
    except KeyError:
        if depth:
            deep(depth - 1)
        print(depth, sys.exception())


deep(3)
print(now())


class Manager:
    def __init__(self, drops):
        self.drops = drops

    def __enter__(self):
        return now()

    def __exit__(self, *words):
        print("exit", words[0], now())
        return self.drops


with Manager(True) as name:
    print(name)
    raise KeyError(1)
print(now())
try:
    with Manager(False):
        raise KeyError(2)
except KeyError:
    print(now())


def ended():
    try:
        return 1 // 0
    except ZeroDivisionError:
        try:
            return now()
        finally:
            print("in finally", now())


print(ended(), now())


def ended_in_generator():
    try:
        yield 1
    finally:
        print("closed", now())


it = ended_in_generator()
next(it)
try:
    raise KeyError(3)
except KeyError:
    it.close()
    print(now())
print(now())
