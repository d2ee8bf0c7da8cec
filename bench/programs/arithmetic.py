def main():
    a = 1
    b = 7
    for i in range(500000):
        a = (a * 31 + b) & 65535
        b = (b ^ (a << 3)) % 10007 + (i >> 2)
    print(a)
    print(b)


main()
