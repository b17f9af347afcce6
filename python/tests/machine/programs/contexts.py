"""What errors have as their contexts, where an instruction raises them: nothing that the machine handled meanwhile."""
import os


def told(error):
    print(type(error).__name__, error, repr(error.__context__), repr(error.__cause__), error.__suppress_context__)


def raised(function):
    try:
        function()
    except Exception as error:
        told(error)


try:
    no_name
except NameError as error:
    told(error)


def local():
    if 0:
        name = 1
    return name


def free():
    def inner():
        return later
    value = inner()
    later = value


def of_module():
    return no_global


class Body:
    try:
        no_name
    except NameError as error:
        told(error)
    try:
        del no_name
    except NameError as error:
        told(error)


def of_class(later=0):
    class Within:
        def method(self):
            return __class__
        try:
            print(missing)
        except NameError as error:
            told(error)
    missing = later


def with_nothing():
    with 5:
        pass


def without_exit():
    class Enter:
        __enter__ = None
    with Enter():
        pass


def three_of_two():
    a, b, c = 1, 2


def two_of_three():
    a, b = 1, 2, 3


def of_number():
    a, b = 5


def of_few():
    a, b, *c = [1]


def not_a_mapping():
    return {**1}


def twice():
    return local(**{"a": 1}, **{"a": 2})


def no_mapping():
    return local(**5)


def no_class():
    try:
        1 // 0
    except 5:
        pass


def no_exception():
    raise 5


def no_cause():
    raise KeyError(1) from 5


def nothing_handled():
    raise


def import_module():
    import no_such_module


def import_name():
    from os import no_such_name


def not_iterable():
    for item in 5:
        pass


def within():
    try:
        {}["key"]
    except KeyError:
        return no_global


def within_twice():
    try:
        try:
            raise KeyError(1)
        finally:
            raise ValueError(2)
    except ValueError as error:
        raise TypeError(3)


def caused():
    try:
        [][0]
    except IndexError as error:
        raise KeyError(1) from error


def dropped():
    try:
        [][0]
    except IndexError:
        raise KeyError(1) from None


def again():
    try:
        raise KeyError(1)
    except KeyError as first:
        try:
            raise ValueError(2)
        except ValueError as second:
            print(repr(second.__context__))
        raise


for function in (local, free, of_module, of_class, with_nothing, without_exit, three_of_two, two_of_three, of_number, of_few):
    raised(function)
for function in (not_a_mapping, twice, no_mapping, no_class, no_exception, no_cause, nothing_handled, import_module, import_name):
    raised(function)
for function in (not_iterable, within, within_twice, caused, dropped, again):
    raised(function)
try:
    1 // 0
except ZeroDivisionError:
    raised(nothing_handled)
    raised(of_module)
