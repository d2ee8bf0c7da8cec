def main():
    all = []
    x = 12345
    for i in range(900):
        x = (x * 1103515245 + 12345) & 2147483647
        all.append(x)
    for i in range(1, len(all)):
        item = all[i]
        j = i - 1
        while j >= 0 and all[j] > item:
            all[j + 1] = all[j]
            j = j - 1
        all[j + 1] = item
    print(all[0])
    print(all[899])


main()
