"""The schedule of a run by blocks that a seed draws: which block goes on when, and what its steps are.

All blocks begin their first attempts at once. A draw picks one of the blocks that run; it goes on to its next turn, where it polls its flag, or
to its end. A block whose attempt is stopped or has ended is filed, and then the front block, the first one that isn't valid, may run again,
and the flags of useless attempts are raised.
"""

from dataclasses import dataclass

from reference.meaning import LOAD, STORE, TURN, Event, Trap
from reference.runs import begins_at

MAX_STEPS = 1_000_000


class TooManySteps(Exception):
    pass


class Draws:
    """A linear congruential generator."""

    def __init__(self, seed):
        self.state = seed

    def next(self):
        self.state = (self.state * 6364136223846793005 + 1442695040888963407) % 2 ** 64
        return self.state >> 32

    def below(self, count):
        return self.next() % count


class Attempt:
    """An attempt of block n at a row that runs: its form, and the memory as the block's events so far left it."""

    def __init__(self, entry, n, number, row, steps):
        self.number = number
        self.row = row
        self.own = entry.own(n)
        self.form = entry.block(n, row)
        self.memory = list(entry.memory)
        for block, event in steps:
            if block == n and event.kind == STORE:
                self.memory[event.cell] = event.content
        self.asked = None
        self.go_on()

    def go_on(self, word=None):
        """Answers what was asked. `asked` becomes what is asked next, or None at the end."""
        try:
            self.asked = self.form.send(word)
        except (StopIteration, Trap):
            self.asked = None

    def piece(self, flag):
        """The events up to and including the next turn, or up to the end. Loads of cells that aren't the block's own are not events."""
        events = []
        while self.asked is not None:
            kind, cell, content = self.asked
            if kind == TURN:
                events.append(Event(TURN, 0, flag))
                self.go_on()
                return events, True
            if kind == STORE:
                events.append(Event(STORE, cell, content))
                self.memory[cell] = content
                self.go_on()
            else:
                word = self.memory[cell]
                if cell in self.own:
                    events.append(Event(LOAD, cell, word))
                self.go_on(word)
        return events, False


@dataclass
class Filed:
    """A block whose attempt at a row has ended, or was stopped."""
    row: tuple
    ended: bool


class Situation:
    """Each block's status and flag, and the steps so far. `rows` are the real rows of the plain run, one for each block that has one."""

    def __init__(self, x):
        self.entry, self.rows = x.entry, x.rows
        self.steps = []
        self.flag = [0] * x.entry.blocks
        self.status = [Attempt(x.entry, n, 1, begins_at(x.entry, x.guess, n), []) for n in range(x.entry.blocks)]

    def running(self):
        return [n for n, status in enumerate(self.status) if isinstance(status, Attempt)]

    def real(self, n):
        return self.rows[n] if n < len(self.rows) else None

    def is_valid(self, n):
        """The block's attempt at its real row has ended."""
        status = self.status[n]
        return isinstance(status, Filed) and status.ended and status.row == self.real(n)

    def front(self):
        """The first block that isn't valid."""
        return next((n for n in range(len(self.status)) if not self.is_valid(n)), len(self.status))

    def is_useless(self, front, n, status):
        """An attempt is useless where the front block has no real row, or is this one with another real row."""
        return self.real(front) is None or n == front and status.row != self.real(front)

    def file(self, n, row, ended):
        """The attempt of block n at a row was stopped, or has ended."""
        self.status[n] = Filed(row, ended)
        front = self.front()
        for other in self.running():
            if self.status[other].number == 1 and self.is_useless(front, other, self.status[other]):
                self.flag[other] = 1
        if front < len(self.status) and isinstance(self.status[front], Filed):
            real = self.real(front)
            if real is not None and self.status[front].row != real:
                self.status[front] = Attempt(self.entry, front, 2, real, self.steps)

    def advance(self, n):
        """Block n performs its next events; a turn polls its flag."""
        status = self.status[n]
        events, at_turn = status.piece(self.flag[n])
        self.steps += [(n, event) for event in events]
        if not at_turn or self.flag[n] >= status.number:
            self.file(n, status.row, ended=not at_turn)


def schedule_of(x, draws, room=MAX_STEPS):
    """The steps of a construct's schedule, which are at most that many."""
    situation = Situation(x)
    while running := situation.running():
        situation.advance(running[draws.below(len(running))])
        if len(situation.steps) > room:
            raise TooManySteps
    return situation.steps


def schedule(expected, seed):
    """The log of a run by blocks that a seed draws: a section for each construct. The generator goes on from one to the next."""
    draws, log = Draws(seed), []
    for x in expected:
        log.append(schedule_of(x, draws, MAX_STEPS - sum(map(len, log))))
    return log
