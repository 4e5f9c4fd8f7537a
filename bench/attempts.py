#!/usr/bin/env python3
"""Times folds by blocks on one worker, from right guesses, compared with plain runs, and prints two tables.

The first has nanoseconds an iteration of programs with two blocks, which are loops. The second has seconds of decoders of examples/ that
guess a constant, which is right on their inputs, so that guesses cost nothing. The time of an empty program is taken off. In rounds
(rounds.py). The first word may name the program that is timed in the place of crates/spf/out/spf. Needs the built program
(`./spf --build`) and idle cores.
"""

import os
import re
import tempfile

from rounds import HERE, Rounds, program

SPF = program()
ROUNDS = 5
BLOCKS = 2

# what an iteration does, how many a block makes, its first store, and its body
LOOPS = [
    ("loads a cell", 10_000_000, 1, "let x = a[k];"),
    ("stores a cell", 10_000_000, 0, "a[k] = i;"),
    ("loads a cell, adds and stores it", 10_000_000, 0, "a[k] = a[k] + i;"),
    (
        "decides, computes, loads and stores a cell",
        5_000_000,
        0,
        "let x = i % 7; let y = x * 3 + i / 5; if y % 2 == 0 { a[k] = a[k] + y; } else { a[k] = a[k] - x; }",
    ),
]

# a decoder, and an input at each of whose blocks it begins as at the start
DECODERS = [("utf8", b"Plain words, one after another. "), ("csv", b"one,two,three,four\n"), ("strings", b"12.5, true, false, null, "), ("pcx", b"plain bytes below 192")]
SIZE = 1_000_000


def command(folder, name, text, words, data=b""):
    """Runs a program on an input."""
    path, input = os.path.join(folder, name), os.path.join(folder, name + ".input")
    with open(path, "w") as file:
        file.write(text)
    with open(input, "wb") as file:
        file.write(data)
    return [SPF, "run", path, input] + words


def fold(iterations, first, body):
    """A fold of two blocks whose guesses are right."""
    loop = f"for i in 0..{iterations} {{ {body} }}"
    return f"array a[{BLOCKS}]; main {{ specfold s = 0 for k in 0..{BLOCKS} predict 0 {{ a[k] = {first}; {loop} next 0; }} }}"


def both(folder, text, data=b""):
    """A program run plainly and by blocks."""
    ways = (("plain", ["--plain"]), ("blocks", ["--workers", "1"]))
    return Rounds({way: command(folder, "program.spf", text, words, data) for way, words in ways}, ROUNDS)


def constant(name):
    """The text of a decoder, which guesses what it starts with."""
    with open(os.path.join(HERE, "..", "examples", name + ".spf")) as file:
        return re.sub(r"(specfold \w+ = (\d+) .*) predict look\([^{]*\) \{", r"\1 predict \2 {", file.read())


def main():
    with tempfile.TemporaryDirectory() as folder:
        empty = Rounds({"empty": command(folder, "empty.spf", "main { }", ["--plain"])}, ROUNDS).seconds("empty")
        print("| An iteration | Plain run | By blocks | Ratio |\n|---|---|---|---|")
        for name, iterations, first, body in LOOPS:
            rounds = both(folder, fold(iterations, first, body))
            unit = 1e9 / (iterations * BLOCKS)
            plain, blocks = ((rounds.seconds(way) - empty) * unit for way in ("plain", "blocks"))
            print(f"| {name} | {plain:.1f} | {blocks:.1f} | {rounds.ratio('blocks', 'plain', empty):.2f} |", flush=True)
        print("\n| Decoder | Plain run, seconds | By blocks | Ratio |\n|---|---|---|---|")
        for name, line in DECODERS:
            rounds = both(folder, constant(name), line * (SIZE // len(line)))
            plain, blocks = (rounds.seconds(way) - empty for way in ("plain", "blocks"))
            print(f"| {name} | {plain:.3f} | {blocks:.3f} | {rounds.ratio('blocks', 'plain', empty):.2f} |", flush=True)


main()
