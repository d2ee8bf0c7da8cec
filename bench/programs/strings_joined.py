def main():
    length = 0
    for turn in range(2000):
        text = ''
        for i in range(60):
            text = text + f'x{i}'
        length = length + len(text)
    print(length)


main()
