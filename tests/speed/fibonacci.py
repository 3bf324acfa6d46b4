def fib(n):
    if n < 2:
        return n
    return fib(n - 1) + fib(n - 2)


def main():
    total = 0
    for i in range(1, TURNS + 1):
        total = (total + fib(10)) % 1000003
    print(total)


main()
