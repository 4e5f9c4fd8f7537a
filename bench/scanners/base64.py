"""Decodes base 64 in lines from standard input, as examples/base64.spf does."""
import sys


def six(byte):
    if 65 <= byte <= 90:
        return byte - 65
    if 97 <= byte <= 122:
        return byte - 71
    if 48 <= byte <= 57:
        return byte + 4
    return {43: 62, 47: 63}.get(byte)


def decode(data):
    out = bytearray()
    count = bits = 0
    for byte in data:
        if byte == 61:
            count = 0
        elif byte != 10:
            value = six(byte)
            if value is None:
                return out, 1
            bits = (bits << 6 | value) & 4095
            count += 6
            if count >= 8:
                count -= 8
                out.append(bits >> count & 255)
    return out, 0


shown, status = decode(sys.stdin.buffer.read())
sys.stdout.buffer.write(shown)
sys.exit(status)
