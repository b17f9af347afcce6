"""How many ways there are to place queens on a board so that none attacks another: permutations by a generator."""


def permutations(items):
    """All orders of some items."""
    if not items:
        yield ()
        return
    for at, item in enumerate(items):
        for rest in permutations(items[:at] + items[at + 1 :]):
            yield (item,) + rest


def queens(size):
    """The orders of columns in which no two queens share a diagonal."""
    columns = range(size)
    for order in permutations(tuple(columns)):
        if size == len({order[row] + row for row in columns}) == len({order[row] - row for row in columns}):
            yield order


print(len(list(queens(7))))
