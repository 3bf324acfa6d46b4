def main():
    total = 0

    def add(n):
        nonlocal total
        now = total + n
        total = now % 1000003

    for i in range(1, TURNS + 1):
        add(i)
    print(total)


main()
