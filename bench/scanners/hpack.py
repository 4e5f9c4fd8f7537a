"""Decodes a string in the fixed Huffman code of HPACK from standard input, bit by bit, as examples/hpack.spf does."""
import sys

BY_LENGTH = {5: "012aceiost", 6: " %-./3456789=A_bdfghlmnpru", 8: "&*,;XZ", 10: "!\"()?", 11: "'+|", 12: "#>", 13: "\0$@[]~", 14: "^}", 15: "<`{"}


def symbols():
    """The symbol of each code that has one, by a 1 followed by the code. A character that BY_LENGTH hasn't has 7 bits."""
    lengths = {ord(letter): length for length, letters in BY_LENGTH.items() for letter in letters}
    lengths = {symbol: lengths.get(symbol, 7) for symbol in [0, *range(32, 127)] if symbol != 92}
    found, code = {}, 0
    for length in range(1, 16):
        for symbol in sorted(lengths):
            if lengths[symbol] == length:
                found[1 << length | code] = symbol
                code += 1
        code *= 2
    return found


def decode(data):
    symbol = symbols()
    out = bytearray()
    bits = 1
    for byte in data:
        for place in range(7, -1, -1):
            bits = 2 * bits + (byte >> place & 1) if bits > 0 else 0
            if bits > 65535:
                bits = 0
            if bits in symbol:
                out.append(symbol[bits])
                bits = 1
    return out, bits


shown, left = decode(sys.stdin.buffer.read())
sys.stdout.buffer.write(shown)
sys.exit(1 if left == 0 or left > 255 or left + 1 & left else 0)
