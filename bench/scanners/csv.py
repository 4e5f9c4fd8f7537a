"""Turns CSV from standard input into delimited text, as examples/csv.spf does."""
import sys


def after(state, byte):
    if byte == 34:
        return 2 - (state + 1) % 2
    return 1 if state == 1 else 0


def written(state, byte):
    if state == 1:
        return 0 if byte == 34 else byte + 1
    if byte == 34:
        return state // 2 * 35
    if byte == 44:
        return 32
    if byte == 10:
        return 31
    if byte == 13:
        return 0
    return byte + 1


def scan(data):
    out = bytearray()
    state = 0
    for byte in data:
        cell = written(state, byte)
        state = after(state, byte)
        if cell > 0:
            out.append(cell - 1)
    return out, state


shown, last = scan(sys.stdin.buffer.read())
sys.stdout.buffer.write(shown)
sys.exit(1 if last == 1 else 0)
