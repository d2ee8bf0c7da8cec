class A:
    def m(self):
        return 1


class B:
    def m(self):
        return 2


class C:
    def m(self):
        return 3


class D:
    def m(self):
        return 4


def main():
    all = [A(), C(), B(), D()]
    total = 0
    for i in range(600000):
        total = total + all[i & 3].m()
    print(total)


main()
