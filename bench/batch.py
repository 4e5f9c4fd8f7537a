#!/usr/bin/env python3
"""Runs batches over 200 files with each kind of host: how many guesses were right, and how much memory was taken.

The files are pieces of the examples' inputs, of 200 to 2,000 bytes, drawn from a fixed seed. The programs are examples/hosted.spf, whose
two passes ask host 0 for the phase of each block, and ONE_PASS, which goes once over a file and asks whether a block starts within
quotes. `python3 bench/batch.py [SPF]`; without a word it takes ./spf, which has to be built.
"""

import os
import random
import subprocess
import sys
import tempfile

TOP = os.path.realpath(os.path.join(os.path.dirname(__file__), ".."))
EXAMPLES = os.path.join(TOP, "examples")
INPUTS = ["phases.txt", "quotes.txt", "headers.txt", "utf8.txt", "cities.csv", "orders.json", "base64.txt", "count.c"]
KINDS = ["fixed:0", "last", "most", "table", "vote"]
FILES = 200
ONE_PASS = """
main {
  specfold quoted = 0 for k in 0..(len + 15) / 16 predict host 0 {
    let now = quoted;
    for i in 16 * k..16 * k + 16 {
      if i < len {
        if input[i] == 34 {
          now = 1 - now;
        }
      }
    }
    next now;
  }
  emit quoted;
}
"""


def pieces():
    """The contents of the files."""
    draw = random.Random(1)
    texts = []
    for name in INPUTS:
        with open(os.path.join(EXAMPLES, name), "rb") as file:
            texts.append(file.read())
    for _ in range(FILES):
        text = draw.choice(texts)
        size = draw.randint(200, 2000)
        start = draw.randrange(max(1, len(text) - size))
        yield text[start:start + size]


def run(spf, folder, program, kind, names):
    """The totals of a batch over these files, and the most memory that it took, in KB."""
    with open(os.path.join(folder, "list"), "w") as file:
        file.writelines(name + "\n" for name in names)
    words = ["/usr/bin/env", "python3", "-c", CHILD, spf, "--host", kind, "batch", program, "list"]
    done = subprocess.run(words, cwd=folder, stdout=subprocess.PIPE, stderr=subprocess.PIPE, check=True)
    totals, memory = done.stderr.decode().splitlines()
    return totals, int(memory)


CHILD = """
import resource, subprocess, sys
status = subprocess.run(sys.argv[1:], stdout=subprocess.DEVNULL).returncode
print(resource.getrusage(resource.RUSAGE_CHILDREN).ru_maxrss, file=sys.stderr)
sys.exit(status)
"""


def main():
    spf = os.path.realpath(sys.argv[1]) if len(sys.argv) > 1 else os.path.join(TOP, "spf")
    with tempfile.TemporaryDirectory() as folder:
        names = []
        for number, content in enumerate(pieces()):
            names.append(f"file{number}")
            with open(os.path.join(folder, names[-1]), "wb") as file:
                file.write(content)
        one_pass = os.path.join(folder, "one-pass.spf")
        with open(one_pass, "w") as file:
            file.write(ONE_PASS)
        for program in [os.path.join(EXAMPLES, "hosted.spf"), one_pass]:
            print(os.path.basename(program))
            for kind in KINDS:
                totals, memory = run(spf, folder, program, kind, names)
                _, alone = run(spf, folder, program, kind, names[:1])
                print(f"{kind:8} {totals}; {memory} KB, one file alone {alone} KB")


if __name__ == "__main__":
    main()
