#!/usr/bin/env python3
"""Runs programs many times on many workers and compares each answer with that of one worker.

The programs store to arrays in each block, and their predictions are often wrong, so blocks are cancelled and run again in always different orders.
Output, messages and status must be the same each time. Needs the built program (`./spf --build`). The first word says how often each program
is run (1,000 if left out), the second may name the program that is tried in the place of crates/spf/out/spf. Ends with status 1 where an
answer is another one. The workers are eight, 64, and eight that share one core (by `taskset`).
"""

import os
import subprocess
import sys
import tempfile

HERE = os.path.dirname(os.path.abspath(__file__))
EXAMPLES = os.path.join(HERE, "..", "examples")
RUNS = int(sys.argv[1]) if len(sys.argv) > 1 else 1000
SPF = sys.argv[2] if len(sys.argv) > 2 else os.path.join(HERE, "..", "crates", "spf", "out", "spf")

# what is said of the workers, how many they are, and what is put before the command
SETTINGS = [("8 workers", "8", []), ("64 workers", "64", []), ("8 workers on one core", "8", ["taskset", "-c", "0"])]

# each block fills its span and stores one of its cells, which its carried value chooses
SCATTERED = """array out[128];
main {
  specfold s = 0 for k in 0..64 predict k & 1 {
    fill out[2*k..2*k + 2] = 0;
    out[2*k + (s & 1)] = 7 + s;
    next s + (s & 3) + 1;
  }
  for i in 0..128 { emit out[i] & 255; }
}"""

# each block iterates over its carried value, and no prediction is right
ITERATING = """array seen[200];
main {
  specfold s = 1 for k in 0..200 predict 0 {
    let t = s;
    for i in 0..50 { t = (t * 5 + i) % 1009; }
    seen[k] = t;
    next t;
  }
  for i in 0..200 { emit seen[i] & 255; }
}"""

# the fold traps in its last block; blocks that were attempted from wrong values trap elsewhere
TRAPPING = """array out[40];
main {
  specfold s = 40 for k in 0..40 predict 20 - k {
    out[k] = 1000 / s;
    next s - 1 - k / 39;
  }
  specfold t = 5 for k in 0..40 predict 0 {
    out[k] = 10 / (35 - k);
    next t + out[k];
  }
}"""

PAIR = """array out[2];
main {
  spec x = { let t = 3; for i in 0..1000 { t = (t * 7 + i) % 101; } give t; } predict 4 { out[0] = x; out[1] = x * x; }
  emit out[0];
  emit out[1] & 255;
}"""


def answer(words, before=()):
    done = subprocess.run([*before, SPF] + words, capture_output=True)
    return done.stdout, done.stderr, done.returncode


def runs(folder):
    """The words of each run, up to its options."""
    empty = os.path.join(EXAMPLES, "empty")
    for name, text in [("scattered", SCATTERED), ("iterating", ITERATING), ("trapping", TRAPPING), ("pair", PAIR)]:
        program = os.path.join(folder, name)
        with open(program, "w") as file:
            file.write(text)
        yield name, ["run", program, empty]
    for name, data in [("csv", "cities.csv"), ("quotes", "quotes.txt"), ("hpack", "hpack.bin")]:
        yield name, ["run", os.path.join(EXAMPLES, name + ".spf"), os.path.join(EXAMPLES, data)]


def main():
    bad = 0
    with tempfile.TemporaryDirectory() as folder:
        for name, words in runs(folder):
            wanted = answer(words + ["--workers", "1", "--stats", "--cells"])
            for said, workers, before in SETTINGS:
                others = sum(answer(words + ["--workers", workers, "--stats", "--cells"], before) != wanted for _ in range(RUNS))
                bad += others
                print(f"{name:<12}status {wanted[2]}, {RUNS} runs on {said}, {others} with another answer", flush=True)
    sys.exit(1 if bad else 0)


main()
