"""Decodes a HUF1 file from standard input, bit by bit."""
import sys


def code_of(lengths):
    code, word = {}, 0
    for length in range(1, 16):
        for symbol in range(256):
            if lengths[symbol] == length:
                code[1 << length | word] = symbol
                word += 1
        word *= 2
    return code


def decode(data):
    code = code_of(data[4:260])
    count = int.from_bytes(data[260:264], "big")
    out = bytearray()
    held = 1
    for byte in data[264:]:
        for bit in range(7, -1, -1):
            held = held * 2 + (byte >> bit & 1)
            if held in code:
                if len(out) == count:
                    return out
                out.append(code[held])
                held = 1
    return out


sys.stdout.buffer.write(decode(sys.stdin.buffer.read()))
