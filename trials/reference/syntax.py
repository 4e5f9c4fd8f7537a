"""The language's syntax: from a text to a program as plain data (docs/LANGUAGE.md has the grammar).

A text is taken to be one that `spf check` accepts: names, kinds and limits aren't looked at.
"""

import re
from dataclasses import dataclass

TOKEN = re.compile(r"""(?:\s|\#[^\n]*)*(?:
    (?P<number>[0-9]+)
    |(?P<name>[A-Za-z_][A-Za-z_0-9]*)
    |(?P<sign><<|>>|==|!=|<=|>=|&&|\|\||\.\.|[-+*/%&|^<>!=()\[\]{},;])
    |$)""", re.VERBOSE)

KEYWORDS = set("""array fn main let fill emit fail if else for in while max specfold spec predict host give next return len input break
    version""".split())

# the binary operators, the loosest first
LEVELS = [["||"], ["&&"], ["==", "!=", "<", "<=", ">", ">="], ["|"], ["^"], ["&"], ["<<", ">>"], ["+", "-"], ["*", "/", "%"]]


# ---- expressions

@dataclass
class Number:
    value: int


@dataclass
class Name:
    name: str


@dataclass
class Length:
    pass


@dataclass
class Input:
    index: object


@dataclass
class Cell:
    array: str
    index: object


@dataclass
class Call:
    function: str
    arguments: list


@dataclass
class Unary:
    sign: str
    operand: object


@dataclass
class Binary:
    sign: str
    left: object
    right: object


@dataclass
class Host:
    """A predictor that is supplied, in the place of an expression."""
    number: int


# ---- statements, each with the line of its first token

@dataclass
class Assign:
    """`let x = E;` and `x = E;`."""
    line: int
    name: str
    value: object


@dataclass
class Store:
    line: int
    array: str
    index: object
    value: object


@dataclass
class Fill:
    line: int
    array: str
    low: object
    high: object
    value: object


@dataclass
class Emit:
    line: int
    value: object


@dataclass
class Fail:
    line: int
    number: int


@dataclass
class If:
    line: int
    test: object
    first: list
    second: list


@dataclass
class For:
    line: int
    name: str
    low: object
    high: object
    body: list


@dataclass
class While:
    line: int
    test: object
    most: int
    body: list


@dataclass
class Do:
    line: int
    call: Call


@dataclass
class Break:
    line: int


@dataclass
class Fold:
    line: int
    carried: list
    start: list
    block: str
    low: object
    high: object
    predict: list
    body: list
    next: list
    next_line: int


@dataclass
class Pair:
    line: int
    carried: list
    producer: list
    give: list
    give_line: int
    predict: list
    consumer: list


# ---- programs

@dataclass
class Array:
    name: str
    factor: int
    offset: int


@dataclass
class Function:
    name: str
    parameters: list
    body: list
    answer: object
    answer_line: int


@dataclass
class Program:
    version: int
    arrays: list
    functions: dict
    main: list


def tokens(text):
    """The tokens of a text: of each its kind, its text and its line. A keyword or a sign is of its own kind."""
    found, at = [], 0
    while at < len(text):
        match = TOKEN.match(text, at)
        if match is None:
            raise SyntaxError(f"bad byte after byte {at}")
        if match.lastgroup is not None:
            word, line = match[match.lastgroup], text.count("\n", 0, match.start(match.lastgroup)) + 1
            is_plain = match.lastgroup != "sign" and word not in KEYWORDS
            found.append((match.lastgroup if is_plain else word, word, line))
        at = match.end()
    return found


class Parser:
    def __init__(self, text):
        self.tokens = tokens(text) + [("end", "", 0)]
        self.at = 0

    # ---- tokens

    def kind(self):
        return self.tokens[self.at][0]

    def line(self):
        return self.tokens[self.at][2]

    def take(self, kind):
        """Takes a token of this kind, and gives its text."""
        if self.kind() != kind:
            raise SyntaxError(f"line {self.line()}: {self.tokens[self.at][1]} in the place of {kind}")
        self.at += 1
        return self.tokens[self.at - 1][1]

    def takes(self, kind):
        """Takes a token of this kind, if there is one."""
        if self.kind() != kind:
            return False
        self.at += 1
        return True

    def list_of(self, part, end):
        """Parts with commas between them, up to this token."""
        parts = []
        while not self.takes(end):
            if parts:
                self.take(",")
            parts.append(part())
        return parts

    # ---- expressions

    def expression(self, level=0):
        if level == len(LEVELS):
            return self.operand()
        left = self.expression(level + 1)
        while self.kind() in LEVELS[level]:
            sign = self.take(self.kind())
            left = Binary(sign, left, self.expression(level + 1))
        return left

    def operand(self):
        kind = self.kind()
        if kind in ("-", "!"):
            return Unary(self.take(kind), self.operand())
        if kind == "number":
            return Number(int(self.take("number")))
        if self.takes("len"):
            return Length()
        if self.takes("input"):
            return Input(self.index())
        if self.takes("("):
            inner = self.expression()
            self.take(")")
            return inner
        name = self.take("name")
        if self.kind() == "[":
            return Cell(name, self.index())
        if self.takes("("):
            return Call(name, self.list_of(self.expression, ")"))
        return Name(name)

    def index(self):
        self.take("[")
        index = self.expression()
        self.take("]")
        return index

    def row(self, part):
        """One part, or two to four parts in parentheses; one part may begin with a parenthesis, too."""
        begin = self.at
        if self.takes("("):
            first = part()
            if self.takes(","):
                return [first] + self.list_of(part, ")")
            self.at = begin
        return [part()]

    def guess(self):
        return Host(int(self.take("number"))) if self.takes("host") else self.expression()

    # ---- statements

    def block(self):
        self.take("{")
        statements = self.statements()
        self.take("}")
        return statements

    def statements(self):
        found = []
        while self.kind() not in ("}", "next", "give", "return"):
            found.append(self.statement())
        return found

    def statement(self):
        line, kind = self.line(), self.kind()
        if kind == "name":
            return self.named(line)
        self.take(kind)
        match kind:
            case "let":
                return self.assigned(line, self.take("name"))
            case "fill":
                return self.filled(line)
            case "emit":
                return self.ended(Emit(line, self.expression()))
            case "fail":
                return self.ended(Fail(line, int(self.take("number"))))
            case "break":
                return self.ended(Break(line))
            case "if":
                return If(line, self.expression(), self.block(), self.block() if self.takes("else") else [])
            case "for":
                return For(line, self.take("name"), *self.range_in(), self.block())
            case "while":
                test = self.expression()
                self.take("max")
                return While(line, test, int(self.take("number")), self.block())
            case "specfold":
                return self.fold(line)
            case "spec":
                return self.pair(line)
        raise SyntaxError(f"line {line}: {kind}")

    def ended(self, statement):
        self.take(";")
        return statement

    def assigned(self, line, name):
        self.take("=")
        return self.ended(Assign(line, name, self.expression()))

    def named(self, line):
        name = self.take("name")
        if self.takes("("):
            return self.ended(Do(line, Call(name, self.list_of(self.expression, ")"))))
        if self.kind() == "[":
            index = self.index()
            self.take("=")
            return self.ended(Store(line, name, index, self.expression()))
        return self.assigned(line, name)

    def filled(self, line):
        array = self.take("name")
        self.take("[")
        low = self.expression()
        self.take("..")
        high = self.expression()
        self.take("]")
        self.take("=")
        return self.ended(Fill(line, array, low, high, self.expression()))

    def range_in(self):
        self.take("in")
        low = self.expression()
        self.take("..")
        return low, self.expression()

    def fold(self, line):
        carried = self.row(lambda: self.take("name"))
        self.take("=")
        start = self.row(self.expression)
        self.take("for")
        block = self.take("name")
        low, high = self.range_in()
        self.take("predict")
        predict = self.row(self.guess)
        self.take("{")
        body = self.statements()
        next_line = self.line()
        self.take("next")
        after = self.row(self.expression)
        self.take(";")
        self.take("}")
        return Fold(line, carried, start, block, low, high, predict, body, after, next_line)

    def pair(self, line):
        carried = self.row(lambda: self.take("name"))
        self.take("=")
        self.take("{")
        producer = self.statements()
        give_line = self.line()
        self.take("give")
        give = self.row(self.expression)
        self.take(";")
        self.take("}")
        self.take("predict")
        predict = self.row(self.guess)
        return Pair(line, carried, producer, give, give_line, predict, self.block())

    # ---- programs

    def array(self):
        name = self.take("name")
        self.take("[")
        factor, offset = 0, int(self.take("number"))
        if self.takes("*"):
            self.take("len")
            factor, offset = offset, int(self.take("number")) if self.takes("+") else 0
        self.take("]")
        return self.ended(Array(name, factor, offset))

    def function(self):
        name = self.take("name")
        self.take("(")
        parameters = self.list_of(lambda: self.take("name"), ")")
        self.take("{")
        body = self.statements()
        answer_line = self.line()
        self.take("return")
        answer = self.expression()
        self.take(";")
        self.take("}")
        return Function(name, parameters, body, answer, answer_line)

    def program(self):
        version, arrays, functions = 1, [], {}
        if self.takes("version"):
            version = int(self.take("number"))
            self.take(";")
        while self.takes("array"):
            arrays.append(self.array())
        while self.takes("fn"):
            function = self.function()
            functions[function.name] = function
        self.take("main")
        main = self.block()
        self.take("end")
        return Program(version, arrays, functions, main)


def parse(text):
    return Parser(text).program()
