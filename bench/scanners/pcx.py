"""Decodes the run-length code of PCX from standard input, as examples/pcx.spf does."""
import sys


def decode(data):
    out = bytearray()
    count = 0
    for byte in data:
        if count > 0:
            out += bytes([byte]) * (count - 192)
            count = 0
        elif byte >= 192:
            count = byte
        else:
            out.append(byte)
    return out, count


shown, left = decode(sys.stdin.buffer.read())
sys.stdout.buffer.write(shown)
sys.exit(1 if left > 0 else 0)
