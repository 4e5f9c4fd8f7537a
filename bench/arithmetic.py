def main():
    s = 0
    c = 0
    for i in range(20000000):
        t = s + i
        s = t % 1000003
        if s == 7:
            c = c + 1
    print(s & 255)


main()
