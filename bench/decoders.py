#!/usr/bin/env python3
"""Times `unpack`, `unhuff` and `lex` on 1, 2 and 4 workers, compared with the same decoders in CPython and in C, and prints a table.

The inputs are drawn from a seed as those of `spf demo` are, in SIZE and in twice SIZE. Megabytes of input a second, from the least wall-clock
time of RUNS whole runs; all outputs are compared. Last, the seconds of `demo lex 7 1000000 8`. Needs the built program (`./spf --build`), a C
compiler, `cc`, and idle cores. The first word may name the program that is timed in the place of crates/spf/out/spf.
"""

import os
import subprocess
import sys
import tempfile
import time

HERE = os.path.dirname(os.path.abspath(__file__))
SPF = sys.argv[1] if len(sys.argv) > 1 else os.path.join(HERE, "..", "crates", "spf", "out", "spf")
MACHINE = os.path.join(HERE, "..", "examples", "tokens.lex")
SEED, SIZE, RUNS = 7, 300_000, 5
WORKERS = [1, 2, 4]


def draws(seed):
    while True:
        seed = (seed * 6364136223846793005 + 1442695040888963407) % 2**64
        yield seed >> 32


def packed(size):
    drawn, out = draws(SEED), bytearray()
    while len(out) < size:
        draw = next(drawn)
        if draw % 2 == 0:
            count = draw // 2 % 128
            out.append(count)
            out += bytes(next(drawn) % 256 for _ in range(count + 1))
        else:
            out += bytes([257 - (2 + draw // 2 % 127), next(drawn) % 256])
    return bytes(out)


def coded(size):
    table = [0] * 8 + [1] * 4 + [2] * 2 + [3, 4]
    words = ["0", "10", "110", "1110", "1111"]
    drawn = draws(SEED)
    bits = "".join(words[table[next(drawn) % 16]] for _ in range(size))
    bits += "0" * (-len(bits) % 8)
    body = bytes(int(bits[at:at + 8], 2) for at in range(0, len(bits), 8))
    return b"HUF1" + bytes([1, 2, 3, 4, 4]) + bytes(251) + size.to_bytes(4, "big") + body


def letters(size):
    table = b'abcdefgh  \n"/*1+'
    drawn = draws(SEED)
    return bytes(table[next(drawn) % 16] for _ in range(size))


# a decoder, its input of a size, and the words between its name and the input
DECODERS = [("unpack", packed, []), ("unhuff", coded, []), ("lex", letters, [MACHINE])]


def seconds(command, data=None):
    """The least time of several runs, and their output."""
    best = None
    for _ in range(RUNS):
        start = time.perf_counter()
        done = subprocess.run(command, input=data, capture_output=True, check=True)
        took = time.perf_counter() - start
        best = took if best is None else min(best, took)
    return best, done.stdout


def row(name, data, between, compiled, folder):
    """Megabytes a second: in C, in CPython, and on each number of workers."""
    path = os.path.join(folder, "input")
    with open(path, "wb") as file:
        file.write(data)
    in_c, wanted = seconds([compiled, name] + between, data)
    in_python, output = seconds([sys.executable, os.path.join(HERE, "decoders", name + ".py")] + between, data)
    times = [in_c, in_python]
    for count in WORKERS:
        took, again = seconds([SPF, name] + between + [path, "--workers", str(count)])
        times.append(took)
        if again != wanted or output != wanted:
            sys.exit(f"{name}: another output")
    return [len(data) / took / 1e6 for took in times]


def main():
    with tempfile.TemporaryDirectory() as folder:
        compiled = os.path.join(folder, "decode")
        subprocess.run(["cc", "-O2", "-o", compiled, os.path.join(HERE, "decoders", "decode.c")], check=True)
        print("| Decoder | Bytes of input | C | CPython | " + " | ".join(f"{n} workers" if n > 1 else "1 worker" for n in WORKERS) + " |")
        print("|---|---|---|---|" + "---|" * len(WORKERS))
        for name, generate, between in DECODERS:
            for size in (SIZE, 2 * SIZE):
                data = generate(size)
                cells = [f"{rate:.2f}" for rate in row(name, data, between, compiled, folder)]
                print(f"| {name} | {len(data):,} | " + " | ".join(cells) + " |", flush=True)
    took, output = seconds([SPF, "demo", "lex", "7", "1000000", "8"])
    print(f"\ndemo lex 7 1000000 8: {took:.2f} seconds, {output.decode().strip()}")


if __name__ == "__main__":
    main()
