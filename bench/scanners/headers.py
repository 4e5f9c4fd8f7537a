"""Lists the names of a message's header fields from standard input, as examples/headers.spf does."""
import sys


def names(data):
    out = bytearray()
    fresh = True
    for at, byte in enumerate(data):
        if fresh:
            end = at
            while end < len(data) and data[end] > 32 and data[end] != 58:
                end += 1
            if at < end < len(data) and data[end] == 58:
                out += data[at:end] + b"\n"
        fresh = byte == 10
    return out


sys.stdout.buffer.write(names(sys.stdin.buffer.read()))
