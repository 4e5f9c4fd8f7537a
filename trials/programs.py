#!/usr/bin/env python3
"""Compares runs of random programs with what they mean.

Each program is drawn from its number: a few arrays and functions, and in `main` assignments, stores, loops, choices, `break`, folds and pairs. A
plain evaluation in Python, trials/reference/meaning.py, gives the output and the trap. `spf run --plain` must give the same, and so must a run by
blocks on two workers where the checker accepts the program. One program in a hundred has an input of some KB, where answers of short functions
are looked up.

Needs the built program (`./spf --build`). The first word says how many programs are tried (10,000 if left out), the second may name the program
that is tried in the place of crates/spf/out/spf. Ends with status 1 where an answer is another one, and prints the program.
"""

import multiprocessing
import os
import random
import subprocess
import sys
import tempfile

HERE = os.path.dirname(os.path.abspath(__file__))
sys.path.insert(0, HERE)

from reference.meaning import Frame, Run, Trap, plainly
from reference.syntax import parse

COUNT = int(sys.argv[1]) if len(sys.argv) > 1 else 10_000
SPF = sys.argv[2] if len(sys.argv) > 2 else os.path.join(HERE, "..", "crates", "spf", "out", "spf")
SECONDS = 60
SHOWN = 3
UNREADABLE, REFUSED = 3, 4
SIGNS = ["+", "-", "*", "/", "%", "&", "|", "^", "<<", ">>"]
TESTS = ["==", "!=", "<", "<=", ">", ">="]


class Writer:
    """Writes one program. `names` are the locals that may be used, `free` those of them that may be assigned."""

    def __init__(self, draws):
        self.draws = draws
        self.lines = []
        self.count = 0
        self.arrays = []
        self.functions = []

    def line(self, depth, text):
        self.lines.append("  " * depth + text)

    def name(self):
        self.count += 1
        return f"x{self.count}"

    def chance(self, percent):
        return self.draws.randrange(100) < percent

    # ---- expressions

    def number(self):
        if self.chance(3):
            return str(self.draws.choice([2 ** 31, 2 ** 62, 2 ** 63 - 1]))
        return str(self.draws.choice([0, 1, 2, 3, 7, 10, 16, 34, 63, 64, 127, 128, 255, 256, 1000, self.draws.randrange(20)]))

    def byte(self, names, depth):
        """A byte of the input. Counters of loops are below 8, and most inputs have 8 bytes or more."""
        counters = [name for name in names if name.startswith("i")]
        return f"input[{self.draws.choice(counters) if counters and self.chance(80) else f'({self.value(names, depth - 1)}) & 7'}]"

    def cell(self, names, depth):
        array, size = self.draws.choice(self.arrays)
        return f"{array}[({self.value(names, depth - 1)}) & {size - 1}]"

    def call(self, names, depth):
        name, count = self.draws.choice(self.functions)
        given = [self.draws.choice(names) if names and self.chance(50) else self.value(names, depth - 1) for _ in range(count)]
        if count == 2 and self.chance(60):
            given[1] = self.byte(names, depth)
        return f"{name}({', '.join(given)})"

    def value(self, names, depth=3):
        kinds = ["number", "len"] + ["name"] * 4 * bool(names)
        if depth > 0:
            kinds += ["binary"] * 4 + ["minus", "byte"] + ["cell"] * bool(self.arrays) + ["call"] * bool(self.functions)
        match self.draws.choice(kinds):
            case "number":
                return self.number()
            case "len":
                return "len"
            case "name":
                return self.draws.choice(names)
            case "minus":
                return f"-({self.value(names, depth - 1)})"
            case "byte":
                return self.byte(names, depth)
            case "cell":
                return self.cell(names, depth)
            case "call":
                return self.call(names, depth)
        return self.binary(self.draws.choice(SIGNS[:2] * 3 + SIGNS[5:8] + SIGNS), names, depth)

    def binary(self, sign, names, depth):
        """An operator, mostly between operands with which it doesn't trap."""
        left, right = f"({self.value(names, depth - 1)})", f"({self.value(names, depth - 1)})"
        if self.chance(40):
            right = self.number()
        if self.chance(97):
            if sign in ("/", "%"):
                right = self.draws.choice(["1", "2", "3", "10", "256", f"(({right} & 7) + 1)"])
            if sign in ("<<", ">>"):
                left, right = f"({left} & 255)", self.draws.choice(["0", "1", "4", f"({right} & 15)"])
            if sign == "*":
                left, right = f"({left} & 4095)", f"({right} & 4095)"
        return f"{left} {sign} {right}"

    def test(self, names, depth=2):
        if depth > 0 and self.chance(35):
            return self.draws.choice([
                lambda: f"({self.test(names, depth - 1)}) && ({self.test(names, depth - 1)})",
                lambda: f"({self.test(names, depth - 1)}) || ({self.test(names, depth - 1)})",
                lambda: f"!({self.test(names, depth - 1)})",
            ])()
        right = self.number() if self.chance(60) else self.value(names, 1)
        return f"({self.value(names, 2)}) {self.draws.choice(TESTS)} ({right})"

    # ---- statements

    def block(self, depth, names, free, place, most):
        """Some statements. `place` says where they stand: in `main`, in a function or in a part, and whether in a loop."""
        names, free = list(names), list(free)
        for _ in range(self.draws.randrange(1, most + 1)):
            self.statement(depth, names, free, place)
        return names, free

    def statement(self, depth, names, free, place):
        kinds = ["let"] * 3 + ["assign"] * 4 * bool(free)
        if self.arrays and place["stores"]:
            kinds += ["store"] * 2 + ["fill"]
        if place["emits"]:
            kinds += ["emit"] * 3
        if depth < 5:
            kinds += ["if"] * 4 + ["for"] * 2 + ["while"]
        if place["loop"]:
            kinds += ["break"]
        if self.functions:
            kinds += ["do"]
        if self.draws.randrange(400) == 0:
            kinds = ["fail"]
        getattr(self, "write_" + self.draws.choice(kinds))(depth, names, free, place)

    def write_let(self, depth, names, free, place):
        value, name = self.value(names), self.name()
        self.line(depth, f"let {name} = {f'({value}) & 255' if self.chance(60) else value};")
        names.append(name)
        free.append(name)

    def write_assign(self, depth, names, free, place):
        value = self.value(names)
        self.line(depth, f"{self.draws.choice(free)} = {f'({value}) & 255' if self.chance(50) else value};")

    def write_store(self, depth, names, free, place):
        self.line(depth, f"{self.cell(names, 2)} = {self.value(names)};")

    def write_fill(self, depth, names, free, place):
        array, size = self.draws.choice(self.arrays)
        low = self.draws.randrange(size + 1)
        high = self.draws.randrange(low, size + 1) if self.chance(95) else size + 1
        self.line(depth, f"fill {array}[{low}..{high}] = {self.value(names, 2)};")

    def write_emit(self, depth, names, free, place):
        value = self.value(names)
        self.line(depth, f"emit ({value}) & 255;" if self.chance(95) else f"emit {value};")

    def write_fail(self, depth, names, free, place):
        self.line(depth, f"fail {self.draws.randrange(256)};")

    def write_break(self, depth, names, free, place):
        self.line(depth, f"if {self.test(names)} {{ break; }}")

    def write_do(self, depth, names, free, place):
        self.line(depth, f"{self.call(names, 2)};")

    def write_if(self, depth, names, free, place):
        self.line(depth, f"if {self.test(names)} {{")
        self.block(depth + 1, names, free, place, 3)
        if self.chance(50):
            self.line(depth, "} else {")
            self.block(depth + 1, names, free, place, 3)
        self.line(depth, "}")

    def write_for(self, depth, names, free, place):
        self.count += 1
        name, low = f"i{self.count}", self.draws.randrange(3)
        self.line(depth, f"for {name} in {low}..{self.draws.choice([str(low + self.draws.randrange(6)), f'({self.value(names, 1)}) & 7'])} {{")
        self.block(depth + 1, names + [name], free, dict(place, loop=True), 3)
        self.line(depth, "}")

    def write_while(self, depth, names, free, place):
        """A loop whose test may hold for ever, or more often one that counts down."""
        if self.chance(10):
            self.line(depth, f"while {self.test(names)} max {self.draws.randrange(1, 8)} {{")
        else:
            left = self.name()
            self.line(depth, f"let {left} = {self.draws.randrange(7)};")
            names.append(left)
            self.line(depth, f"while {left} > 0 && ({self.test(names)}) max 7 {{")
            self.line(depth + 1, f"{left} = {left} - 1;")
        self.block(depth + 1, names, free, dict(place, loop=True), 3)
        self.line(depth, "}")

    # ---- constructs of `main`

    def fold(self, names, free):
        """A fold each of whose blocks fills cells of its own, and stores to some of them."""
        carried, block = [self.name() for _ in range(self.draws.choice([1, 1, 1, 2, 3]))], self.name()
        row = lambda parts: parts[0] if len(parts) == 1 else f"({', '.join(parts)})"
        place = dict(stores=False, emits=False, loop=False)
        start = row([self.value(names, 1) for _ in carried])
        guess = row([self.draws.choice(["0", "1", self.value(names + [block], 1)]) for _ in carried])
        self.line(1, f"specfold {row(carried)} = {start} for {block} in 0..{self.draws.randrange(8)} predict {guess} {{")
        self.line(2, f"fill own[4 * {block}..4 * {block} + 4] = {self.draws.randrange(3)};")
        inner, _ = self.block(2, names + [block] + carried, [], place, 4)
        for _ in range(self.draws.randrange(3)):
            self.line(2, f"own[4 * {block} + {self.draws.randrange(4)}] = {self.value(inner, 2)};")
        after = [f"({self.value(inner, 2)}) & 15" if self.chance(70) else f"own[4 * {block} + 1]" for _ in carried]
        self.line(2, f"next {row(after)};")
        self.line(1, "}")
        names += carried
        free += carried

    def pair(self, names, free):
        carried, place = self.name(), dict(stores=False, emits=False, loop=False)
        self.line(1, f"spec {carried} = {{")
        inner, _ = self.block(2, names, [], place, 3)
        self.line(2, f"give {self.value(inner, 2)};")
        self.line(1, f"}} predict {self.draws.choice(['0', '1', self.value(names, 1)])} {{")
        self.block(2, names + [carried], [], place, 3)
        self.line(1, "}")
        names.append(carried)
        free.append(carried)

    # ---- programs

    def function(self):
        name, parameters = f"f{len(self.functions)}", [self.name() for _ in range(self.draws.choice([1, 2, 2, 2, 3]))]
        self.line(0, f"fn {name}({', '.join(parameters)}) {{")
        stores = self.chance(15)
        names, free = self.block(1, parameters, parameters, dict(stores=stores, emits=False, loop=False), 4)
        self.line(1, f"return {self.value(names, 2)};")
        self.line(0, "}")
        return name, len(parameters)

    def program(self):
        self.line(0, "version 2;")
        self.line(0, "array own[32];")
        for number in range(self.draws.randrange(3)):
            size = self.draws.choice([1, 8, 16])
            self.line(0, f"array a{number}[{size}];")
            self.arrays.append((f"a{number}", size))
        for _ in range(self.draws.randrange(4)):
            self.functions.append(self.function())
        self.line(0, "main {")
        names, free = [], []
        for _ in range(self.draws.randrange(1, 4)):
            names, free = self.block(1, names, free, dict(stores=True, emits=True, loop=False), 4)
            if self.chance(50):
                self.draws.choice([self.fold, self.fold, self.pair])(names, free)
        self.line(1, "for at in 0..32 {")
        self.line(2, "emit own[at] & 255;")
        self.line(1, "}")
        for name in names:
            self.line(1, f"emit {name} & 255;")
        self.line(0, "}")
        return "\n".join(self.lines) + "\n"


def example(number):
    draws = random.Random(number)
    size = draws.choice([0, 7] + [8, 20] * 10) if number % 100 else 6000
    return Writer(draws).program(), bytes(draws.choice([0, 10, 34, 44, 65, 128, 255, draws.randrange(256)]) for _ in range(size))


# ---- answers

def wanted(text, data):
    """The status and what is written on both streams."""
    program = parse(text)
    run = Run(program, data)
    try:
        plainly(Frame(run, {}).statements(program.main), [0] * run.cells)
    except Trap as trap:
        return 1, bytes(run.output), f"trap {trap.kind} line {trap.line}\n".encode()
    return 0, bytes(run.output), b""


def answer(*words):
    try:
        done = subprocess.run([SPF, *words], capture_output=True, timeout=SECONDS)
    except subprocess.TimeoutExpired:
        return None, b"", b"no answer in time"
    return done.returncode, done.stdout, done.stderr


def tried(number):
    """What was answered otherwise than wanted, whether the program is accepted, and whether it traps; None where it is too large."""
    text, data = example(number)
    want = wanted(text, data)
    with tempfile.TemporaryDirectory() as folder:
        files = [os.path.join(folder, name) for name in ("program", "input")]
        for name, content in zip(files, [text.encode(), data]):
            with open(name, "wb") as file:
                file.write(content)
        plain = answer("run", *files, "--plain")
        blocks = answer("run", *files, "--workers", "2")
    if plain[0] == UNREADABLE and plain[2].endswith(b": too large\n"):
        return number, [], None, None
    wrong = [(how, want, got) for how, got in (("plainly", plain), ("by blocks", blocks)) if got != want and (how == "plainly" or got[0] != REFUSED)]
    return number, wrong, blocks[0] != REFUSED, want[0]


def main():
    wrong = accepted = trapped = too_large = 0
    with multiprocessing.Pool() as pool:
        for number, otherwise, is_accepted, status in pool.imap_unordered(tried, range(COUNT), chunksize=20):
            if status is None:
                too_large += 1
                continue
            accepted += is_accepted
            trapped += status
            for how, want, got in otherwise:
                wrong += 1
                if wrong <= SHOWN:
                    print(f"WRONG {how}: program {number}\n  wanted {want}\n  got    {got}\n{example(number)[0]}", flush=True)
    print(f"{COUNT} programs: {too_large} too large; {accepted} accepted and run by blocks, too; {trapped} trap; {wrong} answers otherwise than wanted")
    sys.exit(wrong > 0)


main()
