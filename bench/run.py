#!/usr/bin/env python3
"""Times three loops, three decoder commands and the decoders of examples/ by `spf`, CPython, Lua 5.4, LuaJIT and C (-O2), in rounds
(rounds.py), by processor time.

Prints a table of seconds and of ratios, and for each group the geometric means. `spf` runs the loops and the examples, with the larger
blocks of inputs.py, by `--plain`, and the decoder commands on one worker. The outputs of the languages are compared. LuaJIT is left out
where it is not installed; where it writes something in another way than Lua 5.4, its script ends in .luajit.lua. Needs the built program
(`./spf --build`), `lua5.4`, `cc`, and idle cores. The first word may name the program that is timed in the place of crates/spf/out/spf.
"""

import math
import os
import shutil
import statistics
import subprocess
import sys
import tempfile

from decoders import MACHINE, coded, letters, packed
from inputs import DECODERS, program_text, repeated
from rounds import HERE, program, timed

SPF = program()
ROUNDS = 5
LUA = shutil.which("lua5.4") or sys.exit("lua5.4 is not found")
LUAJIT = shutil.which("luajit")
LANGUAGES = ["spf", "CPython", "Lua"] + ["LuaJIT"] * (LUAJIT is not None) + ["C"]
# the ratios that are shown: how many times as long the one language takes as the other
PAIRS = [(language, "spf") for language in LANGUAGES[1:-1]] + [("spf", "C")]


def compiled(folder, *source):
    path = os.path.join(folder, source[-1].removesuffix(".c"))
    subprocess.run(["cc", "-O2", "-o", path, os.path.join(HERE, *source)], check=True)
    return path


def tasks(folder):
    """The groups of tasks. A task has a name, an input, and a command for each language; only `spf` takes the input as a file."""
    loops, decode, scan = compiled(folder, "loops.c"), compiled(folder, "decoders", "decode.c"), compiled(folder, "scanners", "scan.c")

    def commands(spf, script, words, in_c):
        path = os.path.join(HERE, script)
        own = path + ".luajit.lua"
        return {
            "spf": [SPF] + spf,
            "CPython": [sys.executable, path + ".py"] + words,
            "Lua": [LUA, path + ".lua"] + words,
            "LuaJIT": [LUAJIT, own if os.path.exists(own) else path + ".lua"] + words,
            "C": in_c,
        }

    def held(name, data):
        path = os.path.join(folder, "of-" + name)
        with open(path, "wb") as file:
            file.write(data)
        return path

    empty = held("empty", b"")
    groups = {"loops": [], "commands": [], "examples": []}
    for name in ["arithmetic", "arrays", "calls"]:
        groups["loops"].append((name, b"", commands(["run", os.path.join(HERE, name + ".spf"), empty, "--plain"], name, [], [loops, name])))
    for name, data, words in [("unpack", packed(600_000), []), ("unhuff", coded(600_000), []), ("lex", letters(600_000), [MACHINE])]:
        spf = [name] + words + [held(name, data), "--workers", "1"]
        groups["commands"].append((name, data, commands(spf, os.path.join("decoders", name), words, [decode, name] + words)))
    for name in DECODERS:
        data = repeated(name, 500_000 if name == "hpack" else 1_000_000)
        spf = ["run", held(name + ".spf", program_text(name).encode()), held(name, data), "--plain"]
        groups["examples"].append((name, data, commands(spf, os.path.join("scanners", name), [], [scan, name])))
    return groups


def seconds(name, data, commands):
    """The seconds of each language, round by round. All runs compute on one thread."""
    times = {language: [] for language in LANGUAGES}
    outputs = {}
    for _ in range(ROUNDS):
        for language in LANGUAGES:
            _, used, (output, _, status) = timed(commands[language], data)
            times[language].append(used)
            outputs[language] = (output, status)
    if not data:
        # A loop of the language emits its last byte; the others print it as a number.
        output, status = outputs["spf"]
        outputs["spf"] = (f"{output[0]}\n".encode(), status)
    for language in LANGUAGES:
        if outputs[language] != outputs["spf"]:
            sys.exit(f"{name}: {language} gives another output")
    return times


def main():
    print("| | " + " | ".join(LANGUAGES + [f"{one} / {other}" for one, other in PAIRS]) + " |")
    print("|---" * (1 + len(LANGUAGES) + len(PAIRS)) + "|")
    with tempfile.TemporaryDirectory() as folder:
        for group, members in tasks(folder).items():
            ratios = []
            for name, data, commands in members:
                times = seconds(name, data, commands)
                ratios.append([statistics.median(a / b for a, b in zip(times[one], times[other])) for one, other in PAIRS])
                shown = [f"{statistics.median(times[language]):.3f}" for language in LANGUAGES] + [f"{ratio:.2f}" for ratio in ratios[-1]]
                print(f"| {name} | " + " | ".join(shown) + " |", flush=True)
            means = [math.exp(statistics.mean(math.log(row[i]) for row in ratios)) for i in range(len(PAIRS))]
            print(f"| {group}, geometric mean |" + " |" * len(LANGUAGES) + " " + " | ".join(f"{mean:.2f}" for mean in means) + " |", flush=True)


main()
