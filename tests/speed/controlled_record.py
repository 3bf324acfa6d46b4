def main():
    sum = 0

    class Guard:
        def __enter__(self):
            self.number = 1
            return self

        def __exit__(self, *failure):
            nonlocal sum
            sum = sum + self.number

    for i in range(1, TURNS + 1):
        with Guard() as g:
            pass
    print(sum)


main()
