"""Speculative runs: what is expected of a log, and whether it is one.

A run by blocks attempts each block of a top construct early, from a guess, and again from its real row where the guess was wrong. `is_run`
says which steps of the blocks are such a run, and `verdict` which logs have one for each construct.
"""

from dataclasses import dataclass

from reference import syntax
from reference.guesses import guesses, tells
from reference.meaning import LOAD, STORE, TURN, Frame, Run, Trap, plainly


# ---- constructs

@dataclass
class Entry:
    """A construct that a run has come to, with its header done: the locals of `main` and the memory at this moment."""
    run: Run
    construct: object
    names: dict
    memory: list
    low: int
    blocks: int
    start: tuple
    writes: list

    def number_of(self, n):
        return self.low + n

    def own(self, n):
        """The cells that block n may write, by its ranges: (array, factor, from, to), from `factor * k + from` up to `factor * k + to`."""
        ranges = self.writes[min(n, len(self.writes) - 1)]
        cells = set()
        for array, factor, begin, end in ranges:
            first, size = self.run.extents[array]
            k = self.number_of(n)
            cells.update(range(first + max(0, factor * k + begin), first + min(size, factor * k + end)))
        return cells

    def block(self, n, row):
        """Block n at a row, as a form. It gives the next row."""
        frame = Frame(self.run, self.names)
        frame.line = self.construct.line
        if isinstance(self.construct, syntax.Fold):
            return frame.body(self.construct, self.number_of(n), row)
        return produced(frame, self.construct) if n == 0 else frame.consumer(self.construct, row)


def produced(frame, pair):
    yield from frame.producer(pair)
    return (yield from frame.give(pair))


def plain_rows(entry, memory):
    """The rows at which the blocks begin that are run in order on this memory, and the row after the last one or the trap of one."""
    rows, row = [], entry.start
    for n in range(entry.blocks):
        rows.append(row)
        try:
            row = plainly(entry.block(n, row), memory)
        except Trap as trap:
            return rows, trap
    return rows, row


# ---- attempts

def attempt(entry, n, row, stop, log, at=0):
    """Reads an attempt of block n at a row from the block's log, from a place on. A turn whose number is at least `stop` stops it.

    The block's own cells are shared: a load of one is in the log, with its word. All other cells have the words of the entry. Gives the place
    where the attempt ended or was stopped, and what it came to: the next row, its trap, or None where it was stopped. Where the log doesn't fit
    the block, gives (None, None).
    """
    form, own, word = entry.block(n, row), entry.own(n), None
    while True:
        try:
            kind, cell, content = form.send(word)
        except StopIteration as end:
            return at, end.value
        except Trap as trap:
            return at, trap
        word = None
        if kind == LOAD and cell not in own:
            word = entry.memory[cell]
            continue
        if at == len(log) or log[at].kind != kind:
            return None, None
        event, at = log[at], at + 1
        if kind == TURN:
            if event.content >= stop:
                return at, None
        elif event.cell != cell or kind == STORE and event.content != content:
            return None, None
        else:
            word = event.content if kind == LOAD else None


def begins_at(entry, guess, n):
    """The row at which the first attempt of block n begins."""
    return entry.start if n == 0 else guess[n]


def is_guessed_log(entry, guess, n, log):
    """The log of a block that has no real row: one attempt from its guess, whole or stopped."""
    place, _ = attempt(entry, n, begins_at(entry, guess, n), 1, log)
    return place == len(log)


def real_answer(entry, guess, n, row, log):
    """What block n comes to at its real row by its log: the next row, or its trap. None, where the log isn't one of such a block.

    Where its guess was right, the log is one whole attempt; where not, an attempt from the guess, whole or stopped, and then a whole second
    attempt from the real row, whose turns polled numbers below 2.
    """
    begin = begins_at(entry, guess, n)
    place, answer = attempt(entry, n, begin, 1, log)
    if place is None:
        return None
    if begin != row:
        place, answer = attempt(entry, n, row, 2, log, place)
    return answer if place == len(log) else None


# ---- sections

def shares_memory(memory, steps):
    """Each load has the word of the memory after the stores before it; a cell that doesn't exist has 0."""
    words = dict(enumerate(memory))
    for _, event in steps:
        if event.kind == STORE and event.cell in words:
            words[event.cell] = event.content
        if event.kind == LOAD and event.content != words.get(event.cell, 0):
            return False
    return True


def log_of(n, steps):
    return [event for block, event in steps if block == n]


def is_run(entry, guess, steps):
    """Whether the steps, pairs of a block and its event, are a speculative run: the blocks share one memory, and each one's log is right.

    The row that a block gives is the real row of the next one, up to the first trap. The blocks after that one have no real row.
    """
    if any(block >= entry.blocks for block, _ in steps) or not shares_memory(entry.memory, steps):
        return False
    row = entry.start
    for n in range(entry.blocks):
        log = log_of(n, steps)
        if row is None:
            if not is_guessed_log(entry, guess, n, log):
                return False
            continue
        answer = real_answer(entry, guess, n, row, log)
        if answer is None:
            return False
        row = None if isinstance(answer, Trap) else answer
    return True


# ---- whole runs

@dataclass
class Expected:
    """A construct with blocks that the plain run reaches: its entry, the guess for each block but the first, and the real rows."""
    entry: Entry
    guess: list
    rows: list


@dataclass
class Statistics:
    blocks: int = 0
    hits: int = 0
    misses: int = 0
    blind: int = 0

    def add(self, rows, guess, blind):
        hits = sum(guess[n] == rows[n] for n in range(1, len(rows)))
        self.blocks += len(rows)
        self.hits += hits
        self.misses += max(0, len(rows) - 1) - hits
        self.blind += sum(blind[n] for n in range(1, len(rows)))

    def line(self):
        return f"blocks {self.blocks} hits {self.hits} misses {self.misses} blind {self.blind}"


@dataclass
class Expectation:
    """What a program's run by blocks comes to: the constructs with blocks, the statistics, and the trap that ends it, if one does."""
    constructs: list
    statistics: Statistics
    trap: Trap


def expectation(program, data, hosts, writes):
    """Runs `main` in order. `writes` has for each top construct, in the order of the text, the ranges that its parts may write."""
    run = Run(program, data)
    frame, memory = Frame(run, {}), [0] * run.cells
    found, told, writes = Expectation([], Statistics(), None), [], iter(writes)
    try:
        for form in program.main:
            frame.line = form.line
            if isinstance(form, (syntax.Fold, syntax.Pair)):
                construct(found, frame, memory, form, hosts, told, next(writes))
            else:
                plainly(frame.statement(form), memory)
    except Trap as trap:
        found.trap = trap
    return found


def construct(found, frame, memory, form, hosts, told, writes):
    """A top construct: its header, its guesses, its blocks, what hosts are told of them, and its carried names."""
    start, low, high = (0,) * len(form.carried), 0, 2
    if isinstance(form, syntax.Fold):
        start, low, high = plainly(frame.fold_header(form), memory)
    entry = Entry(frame.run, form, dict(frame.names), list(memory), low, max(0, high - low), start, writes)
    guess, blind = guesses(entry, hosts, told)
    rows, result = plain_rows(entry, memory)
    if entry.blocks:
        found.constructs.append(Expected(entry, guess, rows))
    found.statistics.add(rows, guess, blind)
    told.extend(tells(entry, rows))
    if isinstance(result, Trap):
        raise result
    frame.set_row(form.carried, result)


def verdict(expected, log):
    """None, where the log has one section for each construct with blocks, in order, each a speculative run; otherwise the first section that
    isn't, is missing, or is one too many."""
    for section, x in enumerate(expected):
        if section == len(log) or not is_run(x.entry, x.guess, log[section]):
            return section
    return None if len(log) == len(expected) else len(expected)
