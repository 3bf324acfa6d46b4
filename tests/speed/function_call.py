def next_of(n):
    return (n + 7) % 1000003


def main():
    total = 0
    for i in range(1, TURNS + 1):
        total = next_of(total)
    print(total)


main()
