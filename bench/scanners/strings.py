"""Prints the strings of a JSON text from standard input, one on a line, as examples/strings.spf does."""
import sys


def after(state, byte):
    if state == 2:
        return 1
    if byte == 34:
        return 1 - state
    if byte == 92:
        return 2 * state
    return state


def scan(data):
    out = bytearray()
    state = 0
    for byte in data:
        if state == 1 and byte == 34:
            out.append(10)
        elif state > 0:
            out.append(byte)
        state = after(state, byte)
    return out, state


shown, last = scan(sys.stdin.buffer.read())
sys.stdout.buffer.write(shown)
sys.exit(1 if last > 0 else 0)
