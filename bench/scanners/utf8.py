"""Checks that standard input is UTF-8, as examples/utf8.spf does, and prints how many characters it has."""
import sys


def first(byte):
    if byte < 128:
        return 0
    if 193 < byte < 224:
        return 1
    if byte == 224:
        return 4
    if byte == 237:
        return 5
    if 223 < byte < 240:
        return 2
    if byte == 240:
        return 6
    if byte == 244:
        return 7
    if 240 < byte < 244:
        return 3
    return 8


def after(state, byte):
    low, high, rest = 128, 191, state - 1
    if state > 3:
        rest = state // 2 - 1
    if state == 4:
        low = 160
    if state == 5:
        high = 159
    if state == 6:
        low = 144
    if state == 7:
        high = 143
    if state == 0 or state == 8:
        return first(byte)
    return rest if low <= byte <= high else 8


def scan(data):
    state = number = 0
    for at, byte in enumerate(data):
        if state == 0:
            number += 1
        state = after(state, byte)
        if state == 8:
            return at, 1
    return (number, 0) if state == 0 else (len(data), 1)


shown, status = scan(sys.stdin.buffer.read())
print(shown)
sys.exit(status)
