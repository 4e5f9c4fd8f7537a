"""Unpacks a PackBits file from standard input."""
import sys


def unpack(data):
    out = bytearray()
    at = 0
    while at < len(data):
        header = data[at]
        if header < 128:
            out += data[at + 1:at + 2 + header]
            at += 2 + header
        elif header > 128:
            out += data[at + 1:at + 2] * (257 - header)
            at += 2
        else:
            at += 1
    return out


sys.stdout.buffer.write(unpack(sys.stdin.buffer.read()))
