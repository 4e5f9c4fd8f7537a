/* Unpacks PackBits (`unpack`), decodes HUF1 (`unhuff`) or runs a LEX1 machine (`lex MACHINE`) over standard input, for comparison. */
#include <stdio.h>
#include <stdlib.h>
#include <string.h>

static unsigned char *read_all(FILE *file, size_t *size) {
    size_t room = 1 << 20, got;
    unsigned char *data = malloc(room);
    *size = 0;
    while ((got = fread(data + *size, 1, room - *size, file)) > 0) {
        *size += got;
        if (*size == room) data = realloc(data, room *= 2);
    }
    return data;
}

static void unpack(const unsigned char *data, size_t size) {
    for (size_t at = 0; at < size;) {
        unsigned header = data[at++];
        if (header < 128) {
            for (unsigned i = 0; i <= header && at < size; i++) putchar_unlocked(data[at++]);
        } else if (header > 128 && at < size) {
            for (unsigned i = 0; i < 257 - header; i++) putchar_unlocked(data[at]);
            at++;
        }
    }
}

static void unhuff(const unsigned char *data, size_t size) {
    static int code[65536];
    unsigned word = 0, held = 1;
    unsigned long count = (unsigned long)data[260] << 24 | data[261] << 16 | data[262] << 8 | data[263], done = 0;
    for (int length = 1; length < 16; length++, word *= 2)
        for (int symbol = 0; symbol < 256; symbol++)
            if (data[4 + symbol] == length) code[(1u << length) + word++] = symbol + 1;
    for (size_t at = 264; at < size; at++)
        for (int bit = 7; bit >= 0; bit--) {
            held = held * 2 + (data[at] >> bit & 1);
            if (code[held]) {
                if (done++ == count) return;
                putchar_unlocked(code[held] - 1);
                held = 1;
            }
        }
}

static void lex(const unsigned char *machine, const unsigned char *data, size_t size) {
    unsigned state = 0, classes = machine[5];
    for (size_t at = 0; at < size; at++) {
        const unsigned char *entry = machine + 262 + 2 * (state * classes + machine[6 + data[at]]);
        if (entry[1]) {
            putchar_unlocked(entry[1]);
            for (int shift = 24; shift >= 0; shift -= 8) putchar_unlocked(at >> shift & 255);
        }
        state = entry[0];
    }
}

int main(int count, char **words) {
    size_t size, length;
    unsigned char *data = read_all(stdin, &size);
    if (count == 2 && !strcmp(words[1], "unpack")) unpack(data, size);
    else if (count == 2 && !strcmp(words[1], "unhuff")) unhuff(data, size);
    else if (count == 3 && !strcmp(words[1], "lex")) lex(read_all(fopen(words[2], "rb"), &length), data, size);
    else return 2;
    return 0;
}
