def made(k):
    class One:
        def m(self):
            return k

    return One()


def main():
    all = [made(k) for k in (1, 3, 2, 4, 8, 7, 6, 5)]
    total = 0
    for i in range(600000):
        total = total + all[i & 7].m()
    print(total)


main()
