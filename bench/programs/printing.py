def main():
    for i in range(100000):
        print(f'line {i}')


main()
