"""Runs a LEX1 machine, the file that is named, over standard input."""
import sys


def lex(machine, data):
    classes = machine[5]
    out = bytearray()
    state = 0
    for at, byte in enumerate(data):
        entry = 262 + 2 * (state * classes + machine[6 + byte])
        if machine[entry + 1]:
            out.append(machine[entry + 1])
            out += at.to_bytes(4, "big")
        state = machine[entry]
    return out


with open(sys.argv[1], "rb") as file:
    machine = file.read()
sys.stdout.buffer.write(lex(machine, sys.stdin.buffer.read()))
