def main():
    class Lost(Exception):
        pass

    handled = 0
    for i in range(1, TURNS + 1):
        try:
            raise Lost
        except Lost:
            handled = handled + 1
    print(handled)


main()
