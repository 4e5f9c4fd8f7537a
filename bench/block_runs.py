#!/usr/bin/env python3
"""Counts the instructions of block runs in the decoders of examples/: in order, and as attempts over lanes; prints a table.

All attempts of a run are counted, and shared out among its blocks: on one worker, an attempt from a wrong guess stops at its first poll,
since the block before it has been validated by then, and counts next to nothing. Counts are those of valgrind's callgrind. They don't vary
from run to run, and say nothing of what an instruction costs: a store of a lane takes longer than a plain one. The first word may name the
program that is measured in the place of crates/spf/out/spf. Needs valgrind and the built program (`./spf --build`).
"""

import os
import re
import subprocess
import tempfile

from inputs import DECODERS, EXAMPLES, repeated
from rounds import program

SPF = program()
SIZE = 20_000

# the functions whose calls perform blocks: in order, and over lanes
IN_ORDER = "spf_exec_machine::machine::fold_loop::"
ATTEMPTS = "spf_crew::mate::Mate::run::"


def counted(folder, words, function):
    """The instructions of a run's calls of a function, with all that they call; and what the run wrote on standard error."""
    counts = os.path.join(folder, "counts")
    command = ["valgrind", "--tool=callgrind", f"--callgrind-out-file={counts}", SPF, *words]
    done = subprocess.run(command, capture_output=True, text=True, errors="replace")
    listed = subprocess.run(["callgrind_annotate", "--inclusive=yes", "--threshold=100", counts], capture_output=True, text=True, errors="replace").stdout
    lines = [line for line in listed.splitlines() if re.search(rf"[ :]{function}", line)]
    return sum(int(line.split()[0].replace(",", "")) for line in lines), done.stderr


def main():
    print("| Decoder | Blocks | Mispredicted | In order, a block | Over lanes, a block | Ratio |\n|---|---|---|---|---|---|")
    with tempfile.TemporaryDirectory() as folder:
        data = os.path.join(folder, "data")
        for name in DECODERS:
            with open(data, "wb") as file:
                file.write(repeated(name, SIZE))
            path = os.path.join(EXAMPLES, name + ".spf")
            plain, _ = counted(folder, ["run", path, data, "--plain"], IN_ORDER)
            lanes, told = counted(folder, ["run", path, data, "--workers", "1", "--stats"], ATTEMPTS)
            blocks, hits, misses, blind = map(int, re.search(r"blocks (\d+) hits (\d+) misses (\d+) blind (\d+)", told).groups())
            print(f"| {name} | {blocks} | {misses + blind} | {plain / blocks:,.0f} | {lanes / blocks:,.0f} | {lanes / plain:.2f} |", flush=True)


main()
