class Total:
    def __init__(self):
        self.sum = 0


def main():
    x = Total()
    for i in range(1, TURNS + 1):
        x.sum = (x.sum + i) % 1000003
    print(x.sum)


main()
