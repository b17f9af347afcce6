def read(table, key):
    try:
        return table[key]
    except KeyError as error:
        print("no", error)
        return None
    finally:
        print("read")


print(read({"a": 1}, "a"), read({}, "b"))
