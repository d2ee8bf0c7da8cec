def main():
    all = []
    for i in range(1000):
        all.append(i)
    total = 0
    for turn in range(500):
        i = 0
        while i < len(all):
            total = total + all[i]
            i += 1
    print(total)


main()
