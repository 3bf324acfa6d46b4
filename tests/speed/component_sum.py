class Total:
    pass


def main():
    x = Total()
    x.sum = 0
    for i in range(1, TURNS + 1):
        x.sum = (x.sum + i) % 1000003
    print(x.sum)


main()
