"""What each form of the language means: what it asks of the memory, and how it ends (docs/LANGUAGE.md).

A form is a generator. It yields what it asks: `Load cell` (and is sent the word), `Store cell word`, or `Turn`, which comes at the start
of each iteration of a loop. It returns a value, or raises `Trap`. So the same form can be performed on a memory, or along a log.
"""

from typing import NamedTuple

from reference import syntax

MAX_OUTPUT = 67_108_864
MAX_BLOCKS = 4096

LOAD, STORE, TURN = 1, 2, 3


class Event(NamedTuple):
    """A load or a store of a cell with the word, or a turn with the number that was polled there (its cell is 0)."""
    kind: int
    cell: int
    content: int


class Trap(Exception):
    """The end of a run in which something can't be done: its kind, and its line."""

    def __init__(self, kind, line):
        super().__init__(kind, line)
        self.kind = kind
        self.line = line


class Broken(Exception):
    """A `break` on its way to the innermost loop."""


# ---- words

def is_word(number):
    return -2 ** 63 <= number < 2 ** 63


def quotient(a, b):
    """Cut towards 0."""
    return abs(a) // abs(b) * (1 if (a < 0) == (b < 0) else -1)


def of_words(sign, a, b):
    """What an operator gives, or the kind of its trap."""
    if sign in ("/", "%"):
        if b == 0:
            return None, "divide-by-zero"
        if not is_word(quotient(a, b)):
            return None, "overflow"
        return (quotient(a, b) if sign == "/" else a - b * quotient(a, b)), None
    if sign in ("<<", ">>"):
        if not 0 <= b < 64:
            return None, "shift"
        if sign == ">>":
            return a >> b, None
    exact = {
        "+": lambda: a + b,
        "-": lambda: a - b,
        "*": lambda: a * b,
        "<<": lambda: a * 2 ** b,
        "&": lambda: a & b,
        "|": lambda: a | b,
        "^": lambda: a ^ b,
    }[sign]()
    return (exact, None) if is_word(exact) else (None, "overflow")


COMPARISONS = {
    "==": lambda a, b: a == b,
    "!=": lambda a, b: a != b,
    "<": lambda a, b: a < b,
    "<=": lambda a, b: a <= b,
    ">": lambda a, b: a > b,
    ">=": lambda a, b: a >= b,
}


# ---- forms

class Run:
    """What forms are performed in: a program and an input, with the first cell and the size of each array."""

    def __init__(self, program, data):
        self.program = program
        self.input = data
        self.extents = {}
        self.cells = 0
        for array in program.arrays:
            size = max(0, array.factor * len(data) + array.offset)
            self.extents[array.name] = (self.cells, size)
            self.cells += size
        self.output = bytearray()


class Frame:
    """The forms of `main`, of a part of a construct or of a call, over locals of their own. A trap has the line of the statement."""

    def __init__(self, run, names):
        self.run = run
        self.names = dict(names)
        self.line = 0

    def trap(self, kind):
        raise Trap(kind, self.line)

    # ---- expressions

    def value(self, form):
        match form:
            case syntax.Number(value):
                return value
            case syntax.Name(name):
                return self.names[name]
            case syntax.Length():
                return len(self.run.input)
            case syntax.Input(index):
                i = yield from self.value(index)
                return self.run.input[i] if 0 <= i < len(self.run.input) else self.trap("index")
            case syntax.Cell(array, index):
                cell = self.cell(array, (yield from self.value(index)))
                return (yield LOAD, cell, None)
            case syntax.Call(function, arguments):
                return (yield from self.call(self.run.program.functions[function], (yield from self.row(arguments))))
            case syntax.Unary("-", operand):
                return self.checked("-", 0, (yield from self.value(operand)))
            case syntax.Unary("!", operand):
                return not (yield from self.value(operand))
            case syntax.Binary("&&", left, right):
                return (yield from self.value(left)) and (yield from self.value(right))
            case syntax.Binary("||", left, right):
                return (yield from self.value(left)) or (yield from self.value(right))
            case syntax.Binary(sign, left, right):
                a = yield from self.value(left)
                b = yield from self.value(right)
                return COMPARISONS[sign](a, b) if sign in COMPARISONS else self.checked(sign, a, b)

    def checked(self, sign, a, b):
        answer, why = of_words(sign, a, b)
        return answer if why is None else self.trap(why)

    def cell(self, array, index):
        first, size = self.run.extents[array]
        return first + index if 0 <= index < size else self.trap("index")

    def row(self, forms):
        """The values of forms, from left to right."""
        values = []
        for form in forms:
            values.append((yield from self.value(form)))
        return tuple(values)

    def call(self, function, arguments):
        inner = Frame(self.run, zip(function.parameters, arguments))
        yield from inner.statements(function.body)
        inner.line = function.answer_line
        return (yield from inner.value(function.answer))

    # ---- statements

    def statements(self, forms):
        for form in forms:
            self.line = form.line
            yield from self.statement(form)

    def statement(self, form):
        match form:
            case syntax.Assign(_, name, value):
                self.names[name] = yield from self.value(value)
            case syntax.Store(_, array, index, value):
                i = yield from self.value(index)
                word = yield from self.value(value)
                yield STORE, self.cell(array, i), word
            case syntax.Fill(_, array, low, high, value):
                i, j, word = yield from self.row([low, high, value])
                first, size = self.run.extents[array]
                if not 0 <= i <= j <= size:
                    self.trap("range")
                for cell in range(first + i, first + j):
                    yield STORE, cell, word
            case syntax.Emit(_, value):
                self.emit((yield from self.value(value)))
            case syntax.Fail(_, number):
                self.trap(f"fail {number}")
            case syntax.If(_, test, first, second):
                yield from self.statements(first if (yield from self.value(test)) else second)
            case syntax.For(_, name, low, high, body):
                i, j = yield from self.row([low, high])
                yield from self.loop(self.for_iterations(i, j, name, body))
            case syntax.While(line, test, most, body):
                yield from self.loop(self.while_iterations(line, test, most, body))
            case syntax.Do(_, call):
                yield from self.value(call)
            case syntax.Break(_):
                raise Broken
            case syntax.Fold():
                start, low, high = yield from self.fold_header(form)
                yield from self.fold_blocks(form, start, low, high)
            case syntax.Pair():
                yield from self.producer(form)
                self.set_row(form.carried, (yield from self.give(form)))
                yield from self.statements(form.consumer)

    def emit(self, value):
        if not 0 <= value < 256 or len(self.run.output) >= MAX_OUTPUT:
            self.trap("emit")
        self.run.output.append(value)

    def loop(self, iterations):
        try:
            yield from iterations
        except Broken:
            pass

    def for_iterations(self, i, j, name, body):
        while i < j:
            yield TURN, None, None
            self.names[name] = i
            yield from self.statements(body)
            i += 1

    def while_iterations(self, line, test, most, body):
        count = 0
        while (yield from self.value(test)):
            if count == most:
                self.trap("turns")
            yield TURN, None, None
            yield from self.statements(body)
            count += 1
            self.line = line

    # ---- constructs and their parts

    def set_row(self, names, row):
        self.names.update(zip(names, row))

    def fold_header(self, fold):
        """The start, and the first block number and the one after the last."""
        start = yield from self.row(fold.start)
        low, high = yield from self.row([fold.low, fold.high])
        if high - low > MAX_BLOCKS:
            self.trap("blocks")
        return start, low, high

    def fold_blocks(self, fold, row, low, high):
        """The blocks of a fold within another construct, a loop or a function: in order, each with a turn."""
        for number in range(low, high):
            yield TURN, None, None
            row = yield from self.body(fold, number, row)
        self.set_row(fold.carried, row)

    def body(self, fold, number, row):
        self.names[fold.block] = number
        self.set_row(fold.carried, row)
        yield from self.statements(fold.body)
        self.line = fold.next_line
        return (yield from self.row(fold.next))

    def producer(self, pair):
        yield from self.statements(pair.producer)

    def give(self, pair):
        self.line = pair.give_line
        return (yield from self.row(pair.give))

    def consumer(self, pair, row):
        self.set_row(pair.carried, row)
        yield from self.statements(pair.consumer)
        return row


# ---- plain runs

def plainly(form, memory):
    """Runs a form on a memory, with nothing that stops it. Gives its value, or raises its trap."""
    word = None
    try:
        while True:
            kind, cell, content = form.send(word)
            word = memory[cell] if kind == LOAD else None
            if kind == STORE:
                memory[cell] = content
    except StopIteration as end:
        return end.value
