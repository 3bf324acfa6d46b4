def main():
    count = 0

    class Guard:
        def __enter__(self):
            self.number = 0
            return self

        def __exit__(self, *failure):
            nonlocal count
            count = count + 1

    for i in range(1, TURNS + 1):
        with Guard() as g:
            pass
    print(count)


main()
