def f(x, y):
    z = x + y
    return z % 1000003


def main():
    s = 0
    for i in range(20000000):
        s = f(s, i)
    print(s & 255)


main()
