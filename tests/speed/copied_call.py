def main():
    total = 0

    def add(n, sum_so_far):
        return (sum_so_far + n) % 1000003

    for i in range(1, TURNS + 1):
        total = add(i, total)
    print(total)


main()
