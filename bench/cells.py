#!/usr/bin/env python3
"""Times the steps of lanes, compared with bare sequentially consistent accesses, and prints a table of nanoseconds a step.

A lane of `spf_cells` steps on its own words of a table that all lanes share. The program in cells/program makes these steps: it is proved and
built by `rt` in a temporary folder, over copies of the crates that it stands on (its files end in .txt, since the gate refuses any other place for them).
The program cells/bare.c makes the same accesses with gcc's __atomic_load_n and __atomic_store_n. Each of four lanes has 256 cells, once in one span and
once in 16 spans between those of the other lanes, and takes 64 of them in an order without a pattern; with one thread only the first lane steps.
Each time is the least of five, over 20 million steps a thread.
"""

import os
import shutil
import subprocess
import sys
import tempfile

HERE = os.path.dirname(os.path.abspath(__file__))
TOP = os.path.dirname(HERE)
CRATES = ["spf_ast", "spf_region", "spf_cells"]
STEPS = 20000 * 1024


def lay_out(folder):
    """The crates and the program, as a repository of its own."""
    with open(os.path.join(TOP, "crates.txt")) as lines:
        kept = [line for line in lines if line.split(":")[0].split(" ")[0] in CRATES]
    with open(os.path.join(folder, "crates.txt"), "w") as out:
        out.writelines(kept + ["cells_bench: atomic_table spf_region spf_cells\n"])
    shutil.copy(os.path.join(TOP, "HANDLES"), folder)
    for crate in CRATES:
        away = shutil.ignore_patterns("out", "must-fail")
        shutil.copytree(os.path.join(TOP, "crates", crate), os.path.join(folder, "crates", crate), ignore=away)
    program = os.path.join(HERE, "cells", "program")
    for at, _, names in os.walk(program):
        into = os.path.join(folder, "crates", "cells_bench", os.path.relpath(at, program))
        os.makedirs(into)
        for name in names:
            shutil.copy(os.path.join(at, name), os.path.join(into, name.removesuffix(".txt")))


def least(text):
    """The least nanoseconds of each kind of step, number of spans and number of threads, from lines such as `load 16 4 812345678`."""
    times = {}
    for line in text.splitlines():
        words = line.split()
        if len(words) == 4 and words[0] in ("load", "store", "poll"):
            key = (words[0], int(words[1]), int(words[2]))
            times[key] = min(int(words[3]), times.get(key, int(words[3])))
    return times


def main():
    with tempfile.TemporaryDirectory() as folder:
        lay_out(folder)
        lanes = subprocess.run(["rt", "run"], cwd=os.path.join(folder, "crates", "cells_bench"), capture_output=True, text=True)
        if lanes.returncode != 0:
            sys.exit(lanes.stdout + lanes.stderr)
        bare = os.path.join(folder, "bare")
        subprocess.run(["gcc", "-O2", "-march=x86-64-v2", "-pthread", os.path.join(HERE, "cells", "bare.c"), "-o", bare], check=True)
        times = least(lanes.stdout)
        times.update(least(subprocess.run([bare], check=True, capture_output=True, text=True).stdout))
    print(f"{'step':<8}{'threads':>8}{'bare':>10}{'1 span':>10}{'16 spans':>10}")
    for threads in (1, 4):
        for kind in ("load", "store", "poll"):
            row = [times[kind, spans, threads] / STEPS for spans in (0, 1, 16)]
            print(f"{kind:<8}{threads:>8}" + "".join(f"{nanoseconds:>10.2f}" for nanoseconds in row))


main()
