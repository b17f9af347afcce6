rows = [[1, 2], [3, 4]]
print([x * y for x, y in rows if x > 1], {x: (last := y) for x, y in rows}, last)
