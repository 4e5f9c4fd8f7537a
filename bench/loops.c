/* The loops `arithmetic`, `arrays` and `calls`, for comparison: words are checked as those of the language are. */
#include <stdint.h>
#include <stdio.h>
#include <stdlib.h>
#include <string.h>

static int64_t add(int64_t a, int64_t b) {
    int64_t sum;
    if (__builtin_add_overflow(a, b, &sum)) abort();
    return sum;
}

static int64_t arithmetic(void) {
    int64_t s = 0, c = 0;
    for (int64_t i = 0; i < 20000000; i++) {
        int64_t t = add(s, i);
        s = t % 1000003;
        if (s == 7) c = add(c, 1);
    }
    return s;
}

static int64_t arrays(void) {
    static int64_t a[1024];
    int64_t s = 0;
    for (int64_t i = 0; i < 20000000; i++) {
        int64_t j = i & 1023;
        a[j] = add(a[j], i);
        s ^= a[j];
    }
    return s;
}

static __attribute__((noinline)) int64_t f(int64_t x, int64_t y) {
    return add(x, y) % 1000003;
}

static int64_t calls(void) {
    int64_t s = 0;
    for (int64_t i = 0; i < 20000000; i++) s = f(s, i);
    return s;
}

int main(int count, char **words) {
    if (count != 2) return 2;
    int64_t s = !strcmp(words[1], "arithmetic") ? arithmetic() : !strcmp(words[1], "arrays") ? arrays() : calls();
    printf("%d\n", (int)(s & 255));
    return 0;
}
