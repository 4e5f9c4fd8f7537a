#!/usr/bin/env python3
"""Times guesses of predictors that keep 4,096 entries, and what it takes to tell them something, and prints a table of nanoseconds a call.

The program in predictors/program makes one predictor of each kind, asks and tells it through a box, and writes the times. It is proved and built by `rt` in
a temporary folder, over copies of the crates that it depends on (its files end in .txt, since the gate refuses any other place for them). The first time
this takes as long as a check of all these crates. Each time is the least of five.
"""

import os
import shutil
import subprocess
import sys
import tempfile

HERE = os.path.dirname(os.path.abspath(__file__))
TOP = os.path.dirname(HERE)
CALLS = 4000000
NEEDED = "spf_ast spf_guess"
LIBRARIES = ["spf_ast_lemmas", "spf_ast", "spf_guess_statistics", "spf_guess"]


def lay_out(folder):
    """The crates and the program, as a repository of its own."""
    with open(os.path.join(TOP, "crates.txt")) as lines:
        rows = [line for line in lines if line.split(":")[0] in LIBRARIES]
    with open(os.path.join(folder, "crates.txt"), "w") as out:
        out.writelines(rows + [f"predictors_bench: {NEEDED}\n"])
    shutil.copy(os.path.join(TOP, "HANDLES"), folder)
    for name in LIBRARIES:
        away = shutil.ignore_patterns("out", "must-fail")
        shutil.copytree(os.path.join(TOP, "crates", name), os.path.join(folder, "crates", name), ignore=away)
    program = os.path.join(HERE, "predictors", "program")
    for at, _, files in os.walk(program):
        into = os.path.join(folder, "crates", "predictors_bench", os.path.relpath(at, program))
        os.makedirs(into)
        for file in files:
            shutil.copy(os.path.join(at, file), os.path.join(into, file.removesuffix(".txt")))


def least(text):
    """The least nanoseconds of each kind's guesses and tellings, from lines such as `table 28242407 33808609 17`."""
    times = {}
    for line in text.splitlines():
        words = line.split()
        if len(words) == 4 and words[0] in ("fixed", "last", "most", "table"):
            guesses, tellings = times.get(words[0], (int(words[1]), int(words[2])))
            times[words[0]] = (min(guesses, int(words[1])), min(tellings, int(words[2])))
    return times


def main():
    with tempfile.TemporaryDirectory() as folder:
        lay_out(folder)
        run = subprocess.run(["rt", "run"], cwd=os.path.join(folder, "crates", "predictors_bench"), capture_output=True, text=True)
    times = least(run.stdout)
    if run.returncode != 0 or not times:
        sys.exit(run.stdout + run.stderr)
    print("| Predictor | guess | tell |\n|---|---|---|")
    for name, (guesses, tellings) in times.items():
        print(f"| {name} | {guesses / CALLS:.1f} | {tellings / CALLS:.1f} |")


main()
