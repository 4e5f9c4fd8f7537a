"""Reads the text of a program as `spf` does (docs/LANGUAGE.md), to say what stands where it finds a fault.

`spf` alone decides what is wrong, and names a byte or a line; this reader finds the token. The limits of the language aren't looked at.
"""

import bisect
import re
from types import SimpleNamespace as Form

TOKEN = re.compile(r"""(?P<blank>[ \t\n\r]+|\#[^\n]*)|(?P<number>[0-9]+)|(?P<name>[A-Za-z_][A-Za-z_0-9]*)
    |(?P<sign><<|>>|==|!=|<=|>=|&&|\|\||\.\.|[-+*/%&|^<>!=()\[\]{},;])""", re.VERBOSE)
KEYWORDS = set("""array fn main let fill emit fail if else for in while max specfold spec predict host give next return len input break
    version""".split())
# the binary operators, the loosest first
LEVELS = [["||"], ["&&"], ["==", "!=", "<", "<=", ">", ">="], ["|"], ["^"], ["&"], ["<<", ">>"], ["+", "-"], ["*", "/", "%"]]
OPERATORS = {sign for level in LEVELS for sign in level}
COMPARISONS = LEVELS[2]
STATEMENTS = {"name", "let", "fill", "emit", "fail", "if", "for", "while", "specfold", "spec", "break"}


class Fault(Exception):
    """A fault at a byte, over so many bytes: what `spf` calls it, which line `spf` names, and what to say of it."""

    def __init__(self, at, size, name, line, advice):
        super().__init__(name)
        self.at, self.size, self.name, self.line, self.advice = at, size, name, line, advice


class Token:
    """A piece of the text. Its kind is `number`, `name`, `end`, or what it spells."""

    def __init__(self, kind, text, at, line):
        self.kind, self.text, self.at, self.line = kind, text, at, line
        self.end = at + len(text)

    def touches(self, other):
        return self.end == other.at


class Text:
    """The bytes of a program. They are read as characters of the same numbers, so that places are those of bytes."""

    def __init__(self, data):
        self.data, self.text = data, data.decode("latin-1")
        self.starts = [0] + [match.end() for match in re.finditer("\n", self.text)]

    def line_at(self, at):
        return bisect.bisect_right(self.starts, at)

    def line(self, number):
        """The bytes of a line, counted from 1."""
        return self.data[self.starts[number - 1]:].split(b"\n", 1)[0] if 0 < number <= len(self.starts) else b""

    def tokens(self, advise):
        """The tokens, with one of kind `end` last. `advise` says what to say of a byte at which none starts."""
        found, at = [], 0
        while at < len(self.text):
            match = TOKEN.match(self.text, at)
            if match is None:
                size, advice = advise(self, at)
                raise Fault(at, size, "bad byte", self.line_at(at), advice)
            text, kind, line = match.group(), match.lastgroup, self.line_at(at)
            if kind == "number" and int(text) >= 2**63:
                raise Fault(at, len(text), "number too large", line, "a number is at most 9223372036854775807")
            if kind != "blank":
                found.append(Token(text if kind == "sign" or text in KEYWORDS else kind, text, at, line))
            at = match.end()
        return found + [Token("end", "", len(self.text), self.line_at(len(self.text)))]


class Reader:
    """Reads a program token by token. What could stand at the next token is kept, to say it where something else stands there."""

    def __init__(self, text, mistakes):
        """`mistakes` says what to say of a byte and of a token that can't stand there (mistakes.py)."""
        self.text, self.mistakes, self.tokens, self.at = text, mistakes, text.tokens(mistakes.of_byte), 0
        self.expected, self.open, self.forms, self.version = [], [], [], 1

    # -- tokens

    def token(self, ahead=0):
        return self.tokens[max(0, min(self.at + ahead, len(self.tokens) - 1))]

    def sees(self, *kinds, said=None):
        self.expected += [said] if said else [f"`{kind}`" for kind in kinds]
        return self.token().kind in kinds

    def accept(self):
        token = self.token()
        if token.kind in ("(", "[", "{"):
            self.open.append(token)
        if token.kind in (")", "]", "}") and self.open:
            self.open.pop()
        self.at += 1
        self.expected = []
        return token

    def takes(self, *kinds):
        return self.accept() if self.sees(*kinds) else None

    def take(self, *kinds, said=None):
        if not self.sees(*kinds, said=said):
            self.stop()
        return self.accept()

    def name(self):
        return self.take("name", said="a name")

    def number(self):
        return self.take("number", said="a number")

    def stop(self):
        token = self.token()
        raise Fault(token.at, len(token.text), "unexpected", token.line, self.mistakes.of_token(self))

    # -- expressions

    def expression(self, level=0, left=None):
        """An expression; its first operand may be given."""
        if level == len(LEVELS):
            return left or self.operand()
        left = self.expression(level + 1, left)
        while self.sees(*LEVELS[level], said="an operator"):
            sign = self.accept()
            left = Form(kind="binary", token=left.token, sign=sign.kind, parts=[left, self.expression(level + 1)], end=0)
            left.end = left.parts[1].end
            if sign.kind in COMPARISONS:
                break
        return left

    def operand(self):
        if not self.sees("number", "name", "len", "input", "-", "!", "(", said="an expression"):
            self.stop()
        token = self.accept()
        made = Form(kind=token.kind, token=token, name=token, parts=[], end=token.end)
        if token.kind in ("-", "!"):
            made.kind, made.sign, made.parts = "unary", token.kind, [self.operand()]
            made.end = made.parts[0].end
        elif token.kind == "(":
            made = self.expression()
            made = Form(**{**vars(made), "token": token, "end": self.take(")").end})
        elif token.kind == "input" or token.kind == "name" and self.sees("["):
            made.kind, made.parts = "cell" if token.kind == "name" else "input", [self.index()]
            made.end = self.token(-1).end
        elif token.kind == "name" and self.takes("("):
            made.kind, made.parts = "call", self.arguments()
            made.end = self.token(-1).end
        return made

    def index(self):
        self.take("[")
        index = self.expression()
        self.take("]")
        return index

    def arguments(self):
        """What stands in the parentheses of a call, after the first of these."""
        if self.takes(")"):
            return []
        parts = [self.expression()]
        while self.takes(","):
            parts.append(self.expression())
        self.take(")")
        return parts

    def row(self, part):
        """One part, or two to four parts in parentheses. One part may begin with a parenthesis, too."""
        if not self.sees("("):
            self.expected.pop()
            return [part()]
        begin, opened = self.at, len(self.open)
        self.accept()
        parts = [part()]
        while len(parts) < 4 and self.takes(","):
            parts.append(part())
        if len(parts) > 1 or part in (self.name,) or parts[0].kind == "host":
            self.take(")" if len(parts) > 1 else ",")
            return parts
        self.at, self.expected = begin, []
        del self.open[opened:]
        return [part()]

    def guess(self):
        if self.sees("host"):
            token = self.accept()
            return Form(kind="host", token=token, number=int(self.number().text), parts=[])
        return self.expression()

    # -- statements

    def within(self, form, read):
        """What `read` reads, as a part of this form."""
        self.forms.append(form)
        made = read()
        self.forms.pop()
        return made

    def block(self, form):
        self.take("{")
        return self.within(form, lambda: self.statements("}"))

    def statements(self, last):
        """Statements up to the token `last`, which is taken."""
        found = []
        while not self.sees(last):
            found.append(self.statement())
        self.accept()
        return found

    def statement(self):
        self.expected.insert(0, "a statement")
        token = self.token()
        if token.kind == "break" and self.version < 2:
            self.stop()
        if token.kind not in STATEMENTS:
            self.stop()
        self.accept()
        return self.within(token.kind, lambda: self.rest_of(token))

    def rest_of(self, token):
        """The statement that begins with this token."""
        made = Form(kind=token.kind, token=token, line=token.line, parts=[], blocks=[])
        if token.kind == "name":
            self.rest_of_named(made, token)
        elif token.kind == "let":
            made.name = self.name()
            self.take("=")
            made.parts = [self.expression()]
        elif token.kind == "fill":
            made.name = self.name()
            self.take("[")
            made.parts = [self.expression()]
            self.take("..")
            made.parts.append(self.expression())
            self.take("]")
            self.take("=")
            made.parts.append(self.expression())
        elif token.kind == "emit":
            made.parts = [self.expression()]
        elif token.kind == "fail":
            made.number = self.number()
        elif token.kind == "if":
            made.parts, made.blocks = [self.expression()], [self.block("if")]
            if self.takes("else"):
                made.blocks.append(self.block("else"))
            return made
        elif token.kind == "for":
            made.name = self.name()
            made.parts = self.range_in()
            made.blocks = [self.block("for")]
            return made
        elif token.kind == "while":
            made.parts = [self.expression()]
            self.take("max")
            made.most = self.number()
            made.blocks = [self.block("while")]
            return made
        elif token.kind in ("specfold", "spec"):
            return self.fold(made) if token.kind == "specfold" else self.pair(made)
        self.take(";")
        return made

    def rest_of_named(self, made, token):
        made.name = token
        if self.takes("("):
            made.kind, made.call = "do", Form(kind="call", token=token, name=token, parts=self.arguments(), end=0)
            made.call.end = self.token(-1).end
            return
        if self.sees("["):
            made.kind, made.parts = "store", [self.index()]
        self.take("=")
        made.kind = made.kind if made.kind == "store" else "assign"
        made.parts.append(self.expression())

    def range_in(self):
        self.take("in")
        low = self.expression()
        self.take("..")
        return [low, self.expression()]

    def fold(self, made):
        made.names = self.row(self.name)
        self.take("=")
        made.start = self.row(self.expression)
        self.take("for")
        made.block = self.name()
        made.range = self.range_in()
        self.take("predict")
        made.predict = self.row(self.guess)
        self.take("{")
        made.body = self.within("fold", lambda: self.statements("next"))
        made.last, made.next = self.token(-1), self.row(self.expression)
        self.take(";")
        self.take("}")
        return made

    def pair(self, made):
        made.names = self.row(self.name)
        self.take("=")
        self.take("{")
        made.producer = self.within("producer", lambda: self.statements("give"))
        made.last, made.give = self.token(-1), self.row(self.expression)
        self.take(";")
        self.take("}")
        self.take("predict")
        made.predict = self.row(self.guess)
        made.consumer = self.block("consumer")
        return made

    # -- programs

    def array(self):
        token, name = self.token(-1), self.name()
        self.take("[")
        factor, offset = 0, int(self.number().text)
        if self.takes("*"):
            self.take("len")
            factor, offset = offset, int(self.number().text) if self.takes("+") else 0
        self.take("]")
        self.take(";")
        return Form(token=token, line=token.line, name=name, factor=factor, offset=offset)

    def function(self):
        token, name, parameters = self.token(-1), self.name(), []
        self.take("(")
        if not self.takes(")"):
            parameters = [self.name()]
            while self.takes(","):
                parameters.append(self.name())
            self.take(")")
        self.take("{")
        body = self.within("function", lambda: self.statements("return"))
        last, answer = self.token(-1), self.expression()
        self.take(";")
        self.take("}")
        return Form(token=token, line=token.line, name=name, parameters=parameters, body=body, last=last, answer=answer)

    def program(self):
        if self.takes("version"):
            if self.token().text.lstrip("0") not in ("1", "2"):
                self.expected.append("1 or 2")
                self.stop()
            self.version = int(self.accept().text)
            self.take(";")
        made = Form(version=self.version, arrays=[], functions=[])
        while self.takes("array"):
            made.arrays.append(self.within("array", self.array))
        while self.takes("fn"):
            made.functions.append(self.within("fn", self.function))
        self.take("main")
        made.main = self.block("main")
        self.take("end", said="the end of the text")
        return made


def inner_constructs(program):
    """The folds and pairs that are not direct statements of `main`: of each its token, and what it is inside."""
    said = {"if": "an `if`", "for": "a `for`", "while": "a `while`", "specfold": "a fold", "spec": "a pair"}

    def of(statements, within):
        for form in statements:
            if form.kind in ("specfold", "spec") and within:
                yield form.token, within
            below = [*form.blocks, *(getattr(form, part, []) for part in ("body", "producer", "consumer"))]
            for block in below:
                yield from of(block, within or said.get(form.kind))

    for function in program.functions:
        yield from of(function.body, "a function")
    yield from of(program.main, None)
