"""How often the head of a list is turned, at most, over all orders of its numbers: loops, slices and subscripts."""


def fannkuch(size):
    """The most turns of any order of the numbers below the size, and a sum over all orders."""
    order = list(range(size))
    counts = [0] * size
    most, checksum, sign, left = 0, 0, 1, size
    while True:
        while left != 1:
            counts[left - 1] = left
            left -= 1
        turned = list(order)
        turns = 0
        while turned[0]:
            first = turned[0]
            turned[: first + 1] = turned[first::-1]
            turns += 1
        if turns > most:
            most = turns
        checksum += sign * turns
        sign = -sign
        while left != size:
            order.insert(left, order.pop(0))
            counts[left] -= 1
            if counts[left] > 0:
                break
            left += 1
        else:
            return most, checksum


print(fannkuch(8))
