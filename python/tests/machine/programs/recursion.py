"""Calls that go too deep, in functions with handlers of every kind."""
import sys


def with_handler():
    try:
        return with_handler()
    except ValueError:
        return None


def in_handler(count):
    try:
        1 // 0
    except ZeroDivisionError:
        in_handler(count + 1)


def with_finally(count):
    try:
        with_finally(count + 1)
    finally:
        ended.append(count)


class Manager:
    def __enter__(self):
        return self

    def __exit__(self, *words):
        return False


def with_manager():
    with Manager():
        with_manager()


def numbers():
    try:
        yield from numbers()
    finally:
        pass


ended = []
for function in (with_handler, lambda: in_handler(0), lambda: with_finally(0), with_manager, lambda: list(numbers())):
    try:
        function()
    except RecursionError as error:
        print(type(error.__context__), sys.exception() is error)
    print(sys.exception())
print(len(ended) > 900, ended[-1])
sys.setrecursionlimit(20000)


def depth(count):
    try:
        return depth(count - 1) + 1 if count else 0
    finally:
        count -= 1


print(depth(15000))
