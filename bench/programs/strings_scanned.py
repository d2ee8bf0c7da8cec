def main():
    text = 'the quick brown fox jumps over the lazy dog'
    total = 0
    for turn in range(10000):
        i = 0
        while i < len(text):
            total = total + ord(text[i])
            i += 1
    print(total)


main()
