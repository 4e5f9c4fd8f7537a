def main():
    a = [0] * 1024
    s = 0
    for i in range(20000000):
        j = i & 1023
        a[j] = a[j] + i
        s = s ^ a[j]
    print(s & 255)


main()
