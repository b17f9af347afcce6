def area(width, height=1, *, unit="m"):
    """The area of a rectangle, with its unit."""
    return str(width * height) + " " + unit


print(area(2, unit="cm"))
