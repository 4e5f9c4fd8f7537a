#!/usr/bin/env python3
"""Times folds on several numbers of workers and prints four tables: right predictions, wrong ones, tiny blocks, and many workers on two cores.

Wall-clock times of whole runs, in rounds (rounds.py). Needs the built program (`./spf --build`), idle cores and, for the last table,
`taskset`. The first word may name the program that is timed in the place of crates/spf/out/spf.
"""

import os
import tempfile

from rounds import Rounds, program

SPF = program()
ROUNDS = 5

# 64 blocks of equal work; each carries the number of its successor
WORK = "main {{ specfold s = 0 for k in 0..64 predict {guess} {{ let t = s; for i in 0..{turns} {{ t = t * 5 + i & 1023; }} next s + 1 + t / 1024; }} emit s; }}"

# as many blocks as a fold may have, which do next to nothing
TINY = "main { specfold s = 0 for k in 0..4096 predict k { next s + 1; } emit s & 255; }"

RIGHT, WRONG = "k", "k + 1"
TURNS = 250_000
WORKERS = [1, 2, 4]


def command(folder, name, text, words, cores=None):
    """Runs a program on no input."""
    path, data = os.path.join(folder, name), os.path.join(folder, "empty")
    with open(path, "w") as file:
        file.write(text)
    open(data, "w").close()
    return ([] if cores is None else ["taskset", "-c", cores]) + [SPF, "run", path, data] + words


def on(count):
    return ["--workers", str(count)]


def main():
    with tempfile.TemporaryDirectory() as folder:
        right, wrong = (WORK.format(guess=guess, turns=TURNS) for guess in (RIGHT, WRONG))
        tasks = {"plain": command(folder, "right", right, ["--plain"])}
        for count in WORKERS:
            tasks[f"right {count}"] = command(folder, "right", right, on(count))
            tasks[f"wrong {count}"] = command(folder, "wrong", wrong, on(count))
        rounds = Rounds(tasks, ROUNDS)
        print("64 blocks\n\n| | plain |" + "".join(f" {count} |" for count in WORKERS) + "\n|---|---|" + "---|" * len(WORKERS))
        for name in ("right", "wrong"):
            print(f"| {name} predictions: seconds | {rounds.seconds('plain'):.2f} |" + "".join(f" {rounds.seconds(f'{name} {n}'):.2f} |" for n in WORKERS))
            print("| times as fast as one worker | |" + "".join(f" {rounds.ratio(f'{name} 1', f'{name} {n}'):.2f} |" for n in WORKERS))
            print("| times a plain run | 1 |" + "".join(f" {rounds.ratio(f'{name} {n}', 'plain'):.2f} |" for n in WORKERS))
            print("| processor time, times a plain run | 1 |" + "".join(f" {rounds.processor_ratio(f'{name} {n}', 'plain'):.2f} |" for n in WORKERS), flush=True)

        tasks = {f"nothing {n}": command(folder, "nothing", "main { emit 0; }", on(n)) for n in WORKERS}
        tasks |= {f"tiny {n}": command(folder, "tiny", TINY, on(n)) for n in WORKERS}
        rounds = Rounds(tasks, ROUNDS)
        print("\n4,096 tiny blocks\n\n| Workers | Microseconds a block |\n|---|---|")
        for n in WORKERS:
            print(f"| {n} | {(rounds.seconds(f'tiny {n}') - rounds.seconds(f'nothing {n}')) / 4096 * 1e6:.2f} |", flush=True)

        rounds = Rounds({n: command(folder, "right", right, on(n), "0,1") for n in (2, 64)}, ROUNDS)
        print(f"\n64 workers on two cores take {rounds.ratio(64, 2):.2f} times as long as 2.")


main()
