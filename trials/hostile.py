#!/usr/bin/env python3
"""Runs programs that strain the runtime, at its limits and one past them, on 1, 2 and 64 workers.

Each must give its answer, in any case the same on all numbers of workers, within two seconds and 128 MiB of memory. Needs the built program
(`./spf --build`); the first word may name it in the place of crates/spf/out/spf, and the second and third may be other bounds, for a machine
that is slow or busy. Prints the longest time and the most memory of each program's runs, and ends with status 1 where an answer is another
one or a bound is exceeded.
"""

import os
import subprocess
import sys
import tempfile
import time

HERE = os.path.dirname(os.path.abspath(__file__))
SPF = sys.argv[1] if len(sys.argv) > 1 else os.path.join(HERE, "..", "crates", "spf", "out", "spf")
WORKERS = ["1", "2", "64"]
SECONDS = float(sys.argv[2]) if len(sys.argv) > 2 else 2
MEBIBYTES = float(sys.argv[3]) if len(sys.argv) > 3 else 128


def stats(blocks, hits, misses, blind=0):
    return f"blocks {blocks} hits {hits} misses {misses} blind {blind}\n"


def counting(blocks):
    return f"main {{ specfold s = 0 for k in 0..{blocks} predict k {{ next s + 1; }} emit s & 255; }}"


def emitting(count):
    return f"main {{ for i in 0..{count} {{ emit 7; }} }}"


def nested(levels):
    return "main { emit " + "(" * levels + "1" + ")" * levels + "; }"


def chained(functions):
    """Functions each of which calls the one above it."""
    text = "fn f0(x) { return x + 1; } "
    for number in range(1, functions):
        text += f"fn f{number}(x) {{ return f{number - 1}(x); }} "
    return text + f"main {{ emit f{functions - 1}(1); }}"


# each block fills its span of the largest array that there may be
FILLING = """array a[4194304];
main {
  specfold s = 0 for k in 0..4096 predict 0 {
    fill a[1024 * k..1024 * k + 1024] = 0;
    a[1024 * k + (s & 1023)] = k + 1;
    next s + 1;
  }
  emit a[1023 * 1024 + 1023] >> 8;
}"""

# a wrong prediction would loop for 2^62 iterations, so its attempt has to be cancelled
ENDLESS = "main { specfold s = 1 for k in 0..64 predict 1 << 62 { for i in 0..s { } next 1; } emit s; }"

# an attempt from a wrong prediction comes to its iteration limit, and so does none from a right one
LIMITED = """main {
  specfold s = 0 for k in 0..16 predict 1 {
    let t = s;
    while t > 0 max 1000000 { t = t + 0; }
    next 0;
  }
  emit s;
}"""

# the name of a program, its text, how many bytes its input has, and the answer: the output (a byte and how often it
# comes, where it is long), the messages and the status
PROGRAMS = [
    ("4,096 blocks", counting(4096), 0, b"\0", stats(4096, 4095, 0), 0),
    ("4,097 blocks", counting(4097), 0, b"", "trap blocks line 1\n" + stats(0, 0, 0), 1),
    ("4,194,304 cells, filled by blocks", FILLING, 0, b"\4", stats(4096, 0, 4095), 0),
    ("4,194,305 cells", "array a[4194305]; main { }", 0, b"", "cells 4194305 over 4194304\n", 7),
    ("64 MiB of output", emitting(1 << 26), 0, (b"\7", 1 << 26), stats(0, 0, 0), 0),
    ("a byte more", emitting((1 << 26) + 1), 0, (b"\7", 1 << 26), "trap emit line 1\n" + stats(0, 0, 0), 1),
    ("predictions that would loop for 2^62 iterations", ENDLESS, 0, b"\1", stats(64, 0, 63), 0),
    ("predictions that run into an iteration limit", LIMITED, 0, b"\0", stats(16, 0, 15), 0),
    ("a trap in every attempt but the right one", "main { specfold s = 1 for k in 0..4096 predict 0 { next 1 / s; } emit s; }", 0, b"\1", stats(4096, 0, 4095), 0),
    ("a trap in the first block", "main { specfold s = 0 for k in 0..4096 predict 0 { next 1 / s; } emit s; }", 0, b"", "trap divide-by-zero line 1\n" + stats(1, 0, 0), 1),
    ("predictors that trap", "main { specfold s = 0 for k in 0..4096 predict 1 / 0 { next 0; } emit s; }", 0, b"\0", stats(4096, 4095, 0, 4095), 0),
    ("an input of 4 MiB", "main { emit input[len - 1]; }", 1 << 22, b"\0", stats(0, 0, 0), 0),
    ("a byte more of input", "main { }", (1 << 22) + 1, b"", "file INPUT over 4194304 bytes\n", 7),
    ("a text of 1 MiB", "main { }" + " " * ((1 << 20) - 8), 0, b"", stats(0, 0, 0), 0),
    ("a byte more of text", "main { }" + " " * ((1 << 20) - 7), 0, b"", "file PROGRAM over 1048576 bytes\n", 7),
    ("63 parentheses", nested(63), 0, b"\1", stats(0, 0, 0), 0),
    ("64 parentheses", nested(64), 0, b"", "text byte 75: too deep\n", 3),
    ("200 calls, one within the other", chained(200), 0, b"\2", stats(0, 0, 0), 0),
    ("257 functions", chained(257), 0, b"", "line 1: too large\n", 3),
]


def is_output(file, wanted):
    """Whether a file has an output. It is read in parts: what this script holds in memory would count as that of the runs it starts."""
    byte, count = wanted if isinstance(wanted, tuple) else (wanted, 1)
    file.seek(0)
    if len(byte) != 1:
        return file.read(1 << 16) == byte
    while count > 0:
        part = file.read(min(count, 1 << 16))
        if not part or part.count(byte) != len(part):
            return False
        count -= len(part)
    return file.read(1) == b""


def run(words, output):
    """Whether a run has this output, the messages, the status, the seconds and the mebibytes."""
    with tempfile.TemporaryFile() as out, tempfile.TemporaryFile() as err:
        start = time.perf_counter()
        process = subprocess.Popen([SPF] + words, stdout=out, stderr=err)
        _, status, used = os.wait4(process.pid, 0)
        took = time.perf_counter() - start
        err.seek(0)
        return is_output(out, output), err.read().decode(), os.waitstatus_to_exitcode(status), took, used.ru_maxrss / 1024


def main():
    bad = 0
    with tempfile.TemporaryDirectory() as folder:
        program, data = os.path.join(folder, "program"), os.path.join(folder, "input")
        for name, text, size, output, messages, status in PROGRAMS:
            with open(program, "w") as file:
                file.write(text)
            with open(data, "wb") as file:
                file.write(bytes(size))
            wanted = True, messages.replace("PROGRAM", program).replace("INPUT", data), status
            most, longest, wrong = 0, 0, None
            for workers in WORKERS:
                *got, took, memory = run(["run", program, data, "--workers", workers, "--stats"], output)
                most, longest = max(most, memory), max(longest, took)
                if tuple(got) != wanted:
                    wrong = f"on {workers} workers: status {got[2]}, {'the' if got[0] else 'another'} output, {got[1]!r}"
            if longest > SECONDS or most > MEBIBYTES:
                wrong = wrong or "over a bound"
            bad += wrong is not None
            print(f"{'WRONG' if wrong else 'ok':<6}{longest:>7.2f} s {most:>6.0f} MiB  {name}" + (f": {wrong}" if wrong else ""), flush=True)
    sys.exit(1 if bad else 0)


main()
