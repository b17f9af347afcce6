class Shape:
    """What has a name."""

    def __init__(self, name):
        self.name = name


class Square(Shape):
    def __init__(self, side):
        super().__init__("square")
        self.side = side


print(Square(2).name)
