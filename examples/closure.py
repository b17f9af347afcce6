def counter(start):
    def count():
        nonlocal start
        start += 1
        return start

    return count


count = counter(10)
print(count(), count())
