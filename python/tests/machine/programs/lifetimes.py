"""When objects end: once nothing has them, at the latest with the program."""


class Told:
    def __init__(self, name):
        self.name = name

    def __del__(self):
        print("end of", self.name)

    def __add__(self, other):
        return self.name + other.name

    def __enter__(self):
        return self

    def __exit__(self, *words):
        print("exit of", self.name)


def local():
    kept = Told("kept")
    print(Told("left") + Told("right"))
    Told("dropped")
    for number in range(2):
        again = Told("turn %d" % number)
    print("before the return")


local()
with Told("manager"):
    print("body")
try:
    raise KeyError(Told("in an error"))
except KeyError:
    print("handled")
print("behind the handler")
print([Told("in a list")][0].name)
lasting = Told("of the module")
print("last line")
