class Pair:
    def __init__(self):
        self.first = 0
        self.second = 0


def main():
    all = []
    for i in range(1, TURNS + 1):
        x = Pair()
        all.append(x)
        x.first = i
    print(x.first)


main()
