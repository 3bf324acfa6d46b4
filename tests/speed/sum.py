def main():
    total = 0
    for i in range(1, TURNS + 1):
        total = (total + i) % 1000003
    print(total)


main()
