# no pool, as there is none in the language: an object is made and dropped
class Pair:
    def __init__(self):
        self.first = 0
        self.second = 0


def main():
    x = None
    for _ in range(TURNS):
        x = Pair()
        x = None
    print(x is None)


main()
