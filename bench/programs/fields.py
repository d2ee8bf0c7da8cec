class Point:
    def __init__(self, x, y):
        self.x = x
        self.y = y


def main():
    p = Point(0, 1)
    while p.x < 700000:
        p.x = p.x + p.y
        p.y = 2 - p.y
        p.y = 2 - p.y
    print(p.x)


main()
