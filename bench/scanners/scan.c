/* Decoders of examples/ over standard input, for comparison. */
#include <stdio.h>
#include <stdlib.h>
#include <string.h>

static int first(int byte) {
    if (byte < 128) return 0;
    if (byte > 193 && byte < 224) return 1;
    if (byte == 224) return 4;
    if (byte == 237) return 5;
    if (byte > 223 && byte < 240) return 2;
    if (byte == 240) return 6;
    if (byte == 244) return 7;
    if (byte > 240 && byte < 244) return 3;
    return 8;
}

static int after(int state, int byte) {
    int low = 128, high = 191, rest = state - 1;
    if (state > 3) rest = state / 2 - 1;
    if (state == 4) low = 160;
    if (state == 5) high = 159;
    if (state == 6) low = 144;
    if (state == 7) high = 143;
    if (state == 0 || state == 8) return first(byte);
    return byte >= low && byte <= high ? rest : 8;
}

static int utf8(void) {
    int byte, state = 0;
    long number = 0, at = 0;
    for (; (byte = getchar_unlocked()) != EOF; at++) {
        if (state == 0) number++;
        state = after(state, byte);
        if (state == 8) break;
    }
    printf("%ld\n", state == 0 ? number : at);
    return state != 0;
}

static int csv(void) {
    int byte, state = 0;
    while ((byte = getchar_unlocked()) != EOF) {
        int cell = byte + 1;
        if (state == 1) {
            if (byte == 34) cell = 0;
        } else {
            if (byte == 34) cell = state / 2 * 35;
            if (byte == 44) cell = 32;
            if (byte == 10) cell = 31;
            if (byte == 13) cell = 0;
        }
        state = byte == 34 ? 2 - (state + 1) % 2 : state == 1;
        if (cell > 0) putchar_unlocked(cell - 1);
    }
    return state == 1;
}

static int strings(void) {
    int byte, state = 0;
    while ((byte = getchar_unlocked()) != EOF) {
        if (state == 1 && byte == 34)
            putchar_unlocked(10);
        else if (state > 0)
            putchar_unlocked(byte);
        if (state == 2)
            state = 1;
        else if (byte == 34)
            state = 1 - state;
        else if (byte == 92)
            state = 2 * state;
    }
    return state > 0;
}

static int pcx(void) {
    int byte, count = 0;
    while ((byte = getchar_unlocked()) != EOF) {
        if (count > 0) {
            for (int i = 192; i < count; i++) putchar_unlocked(byte);
            count = 0;
        } else if (byte >= 192) {
            count = byte;
        } else {
            putchar_unlocked(byte);
        }
    }
    return count > 0;
}

/* The length of a symbol's code in the Huffman code of HPACK, or 0. */
static int length_of(int symbol) {
    static const char *letters[16] = {[5] = "012aceiost", [6] = " %-./3456789=A_bdfghlmnpru", [8] = "&*,;XZ", [10] = "!\"()?", [11] = "'+|", [12] = "#>", [13] = "$@[]~", [14] = "^}", [15] = "<`{"};
    if (symbol == 0) return 13;
    if (symbol < 32 || symbol == 92 || symbol == 127) return 0;
    for (int length = 5; length < 16; length++)
        if (letters[length] && strchr(letters[length], symbol)) return length;
    return 7;
}

static int hpack(void) {
    static unsigned char symbol[65536];
    int byte, code = 0, bits = 1;
    for (int length = 1; length < 16; length++, code *= 2)
        for (int letter = 0; letter < 128; letter++)
            if (length_of(letter) == length) symbol[(1 << length) + code++] = letter + 1;
    while ((byte = getchar_unlocked()) != EOF)
        for (int place = 7; place >= 0; place--) {
            bits = bits > 0 ? 2 * bits + (byte >> place & 1) : 0;
            if (bits > 65535) bits = 0;
            if (symbol[bits] > 0) {
                putchar_unlocked(symbol[bits] - 1);
                bits = 1;
            }
        }
    return bits == 0 || bits > 255 || ((bits + 1) & bits) > 0;
}

static int six(int byte) {
    if (byte >= 65 && byte <= 90) return byte - 65;
    if (byte >= 97 && byte <= 122) return byte - 71;
    if (byte >= 48 && byte <= 57) return byte + 4;
    if (byte == 43) return 62;
    return byte == 47 ? 63 : -1;
}

static int base64(void) {
    int byte, count = 0, bits = 0;
    while ((byte = getchar_unlocked()) != EOF) {
        if (byte == 61) {
            count = 0;
        } else if (byte != 10) {
            int value = six(byte);
            if (value < 0) return 1;
            bits = (bits << 6 | value) & 4095;
            count += 6;
            if (count >= 8) {
                count -= 8;
                putchar_unlocked(bits >> count & 255);
            }
        }
    }
    return 0;
}

/* A name is put out once its colon has come. */
static int headers(void) {
    static char name[4194304];
    int byte, length = 0, open = 1;
    while ((byte = getchar_unlocked()) != EOF) {
        if (open && byte > 32 && byte != 58) {
            name[length++] = byte;
        } else {
            if (open && byte == 58 && length > 0) {
                fwrite(name, 1, length, stdout);
                putchar_unlocked(10);
            }
            open = byte == 10;
            length = 0;
        }
    }
    return 0;
}

int main(int count, char **words) {
    static const struct {
        const char *name;
        int (*run)(void);
    } all[] = {{"utf8", utf8}, {"csv", csv}, {"strings", strings}, {"pcx", pcx}, {"hpack", hpack}, {"base64", base64}, {"headers", headers}};
    for (unsigned at = 0; count == 2 && at < sizeof all / sizeof *all; at++)
        if (!strcmp(words[1], all[at].name)) return all[at].run();
    return 2;
}
