class Counter:
    def next(self, x):
        return x + 1


def main():
    c = Counter()
    i = 0
    while i < 1000000:
        i = c.next(i)
    print(i)


main()
