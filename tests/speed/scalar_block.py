def main():
    total = 0
    for i in range(1, TURNS + 1):
        x = i
        total = x
    print(total)


main()
