#!/usr/bin/env python3
"""Compares what `spf sim` and `spf replay` say of logs with what a plain reference says of them.

The reference is trials/reference: a reader of this repository can take it as the definition of logs, schedules and verdicts in Python. It shares
no code with the program, and is as slow as it is plain. Three things are tried over the programs of trials/reference/programs.py:

1. The reference alone: what it draws from the seeds 0 to 9 are speculative runs by its own verdict, and can be written and read back.
2. `sim` writes the reference's log for each of these seeds, byte for byte, with the statistics, and `replay` of it answers `yes`; so it is with the
   longest run and the longest file that there may be, and the next longer ones are refused.
3. Logs are damaged: a byte or a word changed, steps or sections exchanged, dropped or doubled, and others (trials/reference/damages.py). Of each
   `replay` must say what the reference says: `yes`, the first section that is wrong, or the byte at which it is not a log.

Needs the built program (`./spf --build`). The first word says how many logs are damaged (100,000 if left out), the second may name the program
that is tried in the place of crates/spf/out/spf. What is damaged how follows from the log's number, so each run tries the same. As many
processes work at once as there are cores. Ends with status 1 where an answer is another one.
"""

import collections
import multiprocessing
import os
import subprocess
import sys
import tempfile

HERE = os.path.dirname(os.path.abspath(__file__))
sys.path.insert(0, HERE)

from reference.damages import DAMAGES, pick
from reference.logs import NotLog, read_log, write_log
from reference.meaning import LOAD, STORE
from reference.programs import Example, PROGRAMS
from reference.runs import verdict
from reference.schedules import Draws, TooManySteps, schedule

COUNT = int(sys.argv[1]) if len(sys.argv) > 1 else 100_000
SPF = sys.argv[2] if len(sys.argv) > 2 else os.path.join(HERE, "..", "crates", "spf", "out", "spf")
SEEDS = range(10)
SECONDS = 60
CHUNK = 500
SHOWN = 5
MAX_LOG = 20_971_520


# ---- what is wanted

def lines(*texts):
    return "".join(text + "\n" for text in texts).encode()


def wanted_of_sim(expectation, seed):
    try:
        log = schedule(expectation.constructs, seed)
    except TooManySteps:
        return 7, b"", lines("steps over 1000000")
    trap = [f"trap {expectation.trap.kind} line {expectation.trap.line}"] if expectation.trap else []
    return len(trap), write_log(log), lines(*trap, expectation.statistics.line())


def wanted_of_replay(expectation, data):
    try:
        section = verdict(expectation.constructs, read_log(data))
    except NotLog as error:
        return 9, b"", lines(f"log byte {error.place}: not SPL1")
    return (0, lines("yes"), b"") if section is None else (10, lines(f"no section {section}"), b"")


def word_for(answer):
    return {0: "yes", 10: "no", 9: "not SPL1"}[answer[0]]


# ---- what is answered

class Tried:
    """A program of the reference, with its files, and what its runs come to."""

    def __init__(self, program, folder, number):
        self.name = program.name
        self.program = program
        self.expectation = program.expectation()
        self.files = [os.path.join(folder, f"{number}-{name}") for name in ("program", "input")]
        for name, content in zip(self.files, [program.text.encode(), program.input]):
            with open(name, "wb") as file:
                file.write(content)
        self.logs = []

    def answer(self, *words):
        """The status and what is written on both streams. A status below 0 is a signal."""
        hosts = [word for kind in self.program.hosts for word in ("--host", kind)]
        try:
            done = subprocess.run([SPF, *hosts, words[0], *self.files, *words[1:]], capture_output=True, timeout=SECONDS)
        except subprocess.TimeoutExpired:
            return None, b"", b"no answer in time"
        return done.returncode, done.stdout, done.stderr

    def log_file(self):
        """The file of the log that this process tries."""
        return f"{self.files[0]}-log-{os.getpid()}"

    def answer_of_replay(self, data):
        with open(self.log_file(), "wb") as file:
            file.write(data)
        return self.answer("replay", self.log_file())

    def ranges(self):
        """What the parts of the program's constructs may write, as `spf explain` says it."""
        said = subprocess.run([SPF, "explain", self.files[0]], capture_output=True, text=True).stdout.splitlines()
        parts = [line.split() for line in said]
        return [" ".join(words[2:]) for words in parts if words[0] in ("body", "producer", "consumer") and words[1] == "may"]


def shown(log):
    """A log as lines."""
    for number, steps in enumerate(log):
        yield f"section {number}, {len(steps)} steps"
        for block, event in steps:
            what = {LOAD: f"load of cell {event.cell}:", STORE: f"store to cell {event.cell}:"}.get(event.kind, "turn, which reads")
            yield f"  block {block}, {what} {event.content}"


def tell(what, tried, data, wanted, got):
    """An answer that isn't the one that is wanted, and its log."""
    print(f"WRONG: {what}, {tried.name}")
    print(f"  wanted status {wanted[0]}, {wanted[1][:200]!r}, {wanted[2]!r}")
    print(f"  got    status {got[0]}, {got[1][:200]!r}, {got[2]!r}")
    print(f"  the log, or its start: {data[:2000].hex()}")
    try:
        print("\n".join(f"  {line}" for line in list(shown(read_log(data)))[:100]))
    except NotLog as error:
        print(f"  no log from byte {error.place} on")


class Answers:
    """Counts answers, and tells the first ones that aren't those that are wanted."""

    def __init__(self):
        self.count = 0
        self.wrong = 0

    def add(self, what, tried, data, wanted, got):
        self.count += 1
        if got != wanted:
            self.wrong += 1
            if self.wrong <= SHOWN:
                tell(what, tried, data, wanted, got)

    def told(self, what):
        print(f"{what}: {self.count} answers, {self.wrong} otherwise than wanted", flush=True)
        return self.wrong


# ---- the trials

def try_reference(tried):
    """Whether the reference agrees with itself. Prints how long the logs are."""
    bad = 0
    for x in tried:
        x.logs = [schedule(x.expectation.constructs, seed) for seed in SEEDS]
        for log in x.logs:
            bad += verdict(x.expectation.constructs, log) is not None or read_log(write_log(log)) != log
        sizes = [sum(map(len, log)) for log in x.logs]
        print(f"{x.name:<56}{len(x.expectation.constructs)} sections, {min(sizes):>3} to {max(sizes):>3} steps, {x.expectation.statistics.line()}")
    print(f"the reference alone: {len(tried) * len(SEEDS)} logs of {len(tried)} programs, {bad} that it takes for none of a run", flush=True)
    return bad


def try_ranges(tried):
    """Whether blocks may write what the reference takes for granted."""
    bad = 0
    for x in tried:
        said, wanted = x.ranges(), [part for parts in x.program.writes for part in parts]
        if said != wanted:
            bad += 1
            print(f"WRONG: {x.name} may write {said} by `spf explain`, not {wanted}")
    print(f"cells of blocks: {len(tried)} programs, {bad} explained otherwise", flush=True)
    return bad


def try_schedules(tried):
    """Whether `sim` writes the reference's logs, and whether `replay` says yes to them."""
    answers = Answers()
    for x in tried:
        for seed in SEEDS:
            wanted = wanted_of_sim(x.expectation, seed)
            answers.add(f"sim from seed {seed}", x, wanted[1], wanted, x.answer("sim", str(seed)))
            answers.add(f"replay of seed {seed}", x, wanted[1], (0, lines("yes"), b""), x.answer_of_replay(wanted[1]))
    return answers.told("schedules")


def try_limits(folder):
    """Runs and files at the limits, and one past them."""
    answers = Answers()
    for steps in (1_000_000, 1_000_001):
        text = f"main {{ specfold s = 0 for k in 0..1 predict 0 {{ for i in 0..{steps} {{ }} next 1; }} emit s; }}"
        x = Tried(Example(f"{steps} steps", text, [[""]]), folder, f"limit-{steps}")
        wanted = wanted_of_sim(x.expectation, 3)
        answers.add("sim", x, wanted[1], wanted, x.answer("sim", "3"))
        if wanted[0] == 0:
            answers.add("replay", x, wanted[1], (0, lines("yes"), b""), x.answer_of_replay(wanted[1]))
    answers.add("replay of the longest file", x, b"", (9, b"", lines("log byte 0: not SPL1")), x.answer_of_replay(bytes(MAX_LOG)))
    too_long = 7, b"", lines(f"file {x.log_file()} over {MAX_LOG} bytes")
    answers.add("replay of a byte more", x, b"", too_long, x.answer_of_replay(bytes(MAX_LOG + 1)))
    return answers.told("limits")


def damaged(tried, number):
    """The damaged log of this number: what was done, of which program, and the bytes."""
    draws, kinds = Draws(number), list(DAMAGES.items())
    kind, damage = kinds[number % len(kinds)]
    while True:
        x = pick(draws, tried)
        data = damage(draws, pick(draws, x.logs))
        if data is not None:
            return kind, x, data


def try_damages(numbers):
    """What the damaged logs of these numbers are answered: how many of each kind and verdict, and those answered otherwise than wanted."""
    counts, wrong = collections.Counter(), []
    for number in numbers:
        kind, x, data = damaged(TRIED, number)
        wanted = wanted_of_replay(x.expectation, data)
        got = x.answer_of_replay(data)
        counts[kind, word_for(wanted)] += 1
        if got != wanted:
            wrong.append((f"log {number}, {kind}", TRIED.index(x), data, wanted, got))
    return counts, wrong


def try_all_damages(tried):
    counts, bad = collections.Counter(), 0
    chunks = [range(begin, min(begin + CHUNK, COUNT)) for begin in range(0, COUNT, CHUNK)]
    with multiprocessing.get_context("fork").Pool(os.cpu_count()) as pool:
        for found, wrong in pool.imap_unordered(try_damages, chunks):
            counts += found
            for what, index, *rest in wrong:
                bad += 1
                if bad <= SHOWN:
                    tell(what, tried[index], *rest)
    verdicts = ["yes", "no", "not SPL1"]
    for kind in DAMAGES:
        said = ", ".join(f"{counts[kind, word]:>5} {word}" for word in verdicts)
        print(f"{kind:<34}{sum(counts[kind, word] for word in verdicts):>6} logs: {said}")
    said = ", ".join(f"{sum(counts[kind, word] for kind in DAMAGES)} {word}" for word in verdicts)
    print(f"damaged: {COUNT} logs, {said}; {bad} answers otherwise than wanted")
    return bad


def main():
    global TRIED
    with tempfile.TemporaryDirectory() as folder:
        TRIED = [Tried(program, folder, number) for number, program in enumerate(PROGRAMS)]
        bad = try_reference(TRIED)
        if not os.access(SPF, os.X_OK):
            sys.exit(f"{SPF} is not there, so it was not tried")
        bad += try_ranges(TRIED) + try_schedules(TRIED) + try_limits(folder) + try_all_damages(TRIED)
    sys.exit(1 if bad else 0)


main()
