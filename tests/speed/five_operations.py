def main():
    s, t = 1, 0
    for i in range(1, TURNS + 1):
        s = (s * 3 + i) % 1000003
        if s > 500000:
            t = t + 1
    print(s, t)


main()
