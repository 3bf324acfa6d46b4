def main():
    adjusted = finalized = 0

    class Handle:
        def __init__(self, number):
            self.number = number

        def adjust(self):
            nonlocal adjusted
            adjusted = adjusted + 1

        def finalize(self):
            nonlocal finalized
            finalized = finalized + 1

        def assign(self, source):
            if self is not source:
                number = source.number
                self.finalize()
                self.number = number
                self.adjust()

    source, target = Handle(7), Handle(0)
    for i in range(1, TURNS + 1):
        target.assign(source)
    print(adjusted, finalized, target.number)


main()
