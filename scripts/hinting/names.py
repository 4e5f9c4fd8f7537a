"""Finds the faults of names and kinds in a program that was read, in the order of its text, a form before its parts."""

import difflib

from hinting.reading import COMPARISONS, Fault

TRUTHS = {"||", "&&", "!", *COMPARISONS}


class Names:
    """Finds the faults of names and kinds in the order of the text, a form before its parts."""

    def __init__(self, program):
        self.program = program
        self.globals = {}
        for token in [array.name for array in program.arrays] + [function.name for function in program.functions]:
            self.globals.setdefault(token.text, token)
        self.places = {}
        for place, function in enumerate(program.functions):
            self.places.setdefault(function.name.text, place)
        self.arrays = {array.name.text for array in program.arrays}

    def faults(self):
        seen = {}
        for array in self.program.arrays:
            if array.name.text in seen:
                yield self.twice(array.line, array.name, seen[array.name.text], "the array")
            seen.setdefault(array.name.text, array.name)
        for self.place, function in enumerate(self.program.functions):
            name = function.name
            if name.text in seen:
                yield self.twice(function.line, name, seen[name.text], "the array" if name.text in self.arrays else "the function")
            seen.setdefault(name.text, name)
            self.in_main, self.in_loop, self.ended = False, False, {}
            scope = yield from self.declared_each(function.line, {}, function.parameters)
            scope = yield from self.block(scope, function.body)
            yield from self.expression(scope, function.last.line, False, function.answer)
        self.place, self.in_main, self.in_loop, self.ended = len(self.program.functions), True, False, {}
        yield from self.block({}, self.program.main)

    # a scope has the locals that may be used: for each name where it is declared, and why it may not be assigned

    def fault(self, token, name, line, advice, end=None):
        return Fault(token.at, (end or token.end) - token.at, name, line, advice)

    def twice(self, line, token, first, what):
        return self.fault(token, "declared twice", line, f"`{token.text}` is already {what} of line {first.line}")

    def what_is(self, name, scope):
        """What a name stands for."""
        if name in scope:
            return "a local"
        if name not in self.globals:
            return None
        return "an array" if name in self.arrays else "a function"

    def declared(self, line, scope, token):
        if token.text in scope or token.text in self.globals:
            first = scope[token.text][0] if token.text in scope else self.globals[token.text]
            what = {"a local": "the local", "an array": "the array", "a function": "the function"}[self.what_is(token.text, scope)]
            yield self.twice(line, token, first, what)

    def declared_each(self, line, scope, tokens, fixed=None):
        for token in tokens:
            yield from self.declared(line, scope, token)
            scope = {**scope, token.text: (token, fixed)}
        return scope

    def misuse(self, scope, line, token, wanted):
        """A name that isn't what is wanted."""
        name, what = token.text, self.what_is(token.text, scope)
        if what:
            remedy = {"a local": "", "an array": f": write `{name}[i]` for a cell", "a function": f": write `{name}(..)` to call it"}[what]
            return self.fault(token, "wrong kind", line, f"`{name}` is {what}, not {wanted}" + remedy)
        if name in ("true", "false"):
            return self.fault(token, "unknown name", line, f"there is no `{name}`; write a comparison, such as `1 == {int(name == 'true')}`")
        if name in self.ended:
            return self.fault(token, "unknown name", line, f"the `{name}` of line {self.ended[name].line} ends with its block: declare it before the block")
        near = difflib.get_close_matches(name, [*scope, *self.globals], 1)
        remedy = f"; did you mean `{near[0]}`?" if near else f"; write `let {name} = ..;` before" if wanted in ("a number", "a local") else ""
        return self.fault(token, "unknown name", line, f"`{name}` is not declared" + remedy)

    def called(self, scope, line, wanted, call):
        token, count = call.name, len(call.parts)
        what = self.what_is(token.text, {})
        if what != "a function":
            yield self.misuse(scope, line, token, "a function")
            return
        place = self.places[token.text]
        function = self.program.functions[place]
        if count != len(function.parameters):
            wants = len(function.parameters)
            yield self.fault(token, "wrong number of arguments", line,
                             f"`{token.text}` (line {function.line}) takes {counted(wants, 'argument')}, not {count}", call.end)
        if wanted:
            yield self.no_truth(call, line)
        if place >= self.place:
            said = "a function can't call itself: write a loop" if place == self.place else \
                f"`{token.text}` comes later, in line {function.line}: a function calls only those above it"
            yield self.fault(token, "calls later function", line, said)

    def no_truth(self, form, line):
        return self.fault(form.token, "wrong kind", line, "a condition has to be a comparison, such as `x != 0`", form.end)

    def expression(self, scope, line, wanted, form):
        """The faults of an expression; `wanted` says whether a truth value is."""
        token = form.token
        gives_truth = form.kind in ("binary", "unary") and form.sign in TRUTHS
        if form.kind == "name" and form.name.text not in scope:
            yield self.misuse(scope, line, form.name, "a number")
        if form.kind == "cell" and form.name.text not in self.arrays:
            yield self.misuse(scope, line, form.name, "an array")
        if form.kind == "call":
            yield from self.called(scope, line, wanted, form)
        elif wanted and not gives_truth:
            yield self.no_truth(form, line)
        elif gives_truth and not wanted:
            yield self.fault(token, "wrong kind", line, "a comparison isn't a number: use `if C { x = 1; }`", form.end)
        for part in form.parts:
            yield from self.expression(scope, line, form.kind in ("binary", "unary") and form.sign in ("&&", "||", "!"), part)

    def numbers(self, scope, line, forms):
        for form in forms:
            if form.kind != "host":
                yield from self.expression(scope, line, False, form)

    def block(self, scope, statements):
        """The faults of statements, and the scope at their end."""
        for statement in statements:
            yield from self.statement(scope, statement)
            names = [statement.name] if statement.kind == "let" else statement.names if statement.kind in ("specfold", "spec") else []
            for token in names:
                scope = {**scope, token.text: (token, None)}
                self.ended[token.text] = token
        return scope

    def inside(self, scope, statements, in_loop):
        """A block in which a `break` ends a loop, or none."""
        before, self.in_loop = self.in_loop, in_loop
        scope = yield from self.block(scope, statements)
        self.in_loop = before
        return scope

    def statement(self, scope, form):
        line, kind = form.line, form.kind
        if kind in ("let", "for"):
            yield from self.declared(line, scope, form.name)
        elif kind == "assign":
            if form.name.text not in scope:
                yield self.misuse(scope, line, form.name, "a local")
            elif scope[form.name.text][1]:
                yield self.fault(form.name, "wrong kind", line, scope[form.name.text][1].format(form.name.text))
        elif kind in ("store", "fill") and form.name.text not in self.arrays:
            yield self.misuse(scope, line, form.name, "an array")
        elif kind == "emit" and not self.in_main:
            yield self.fault(form.token, "misplaced emit", line, "only `main` can emit: return the value, and emit it there")
        elif kind == "fail" and int(form.number.text) > 255:
            yield self.fault(form.number, "wrong kind", line, "the number after `fail` is at most 255")
        elif kind == "break" and not self.in_loop:
            yield self.fault(form.token, "misplaced break", line, "`break` needs a `for` or `while` around it, in the same function and the same part of a fold or pair")
        if kind == "do":
            yield from self.called(scope, line, False, form.call)
            yield from self.numbers(scope, line, form.call.parts)
        elif kind in ("if", "while"):
            yield from self.expression(scope, line, True, form.parts[0])
            for block in form.blocks:
                yield from self.inside(scope, block, self.in_loop or kind == "while")
        elif kind == "for":
            yield from self.numbers(scope, line, form.parts)
            fixed = "`{}` is set by its `for`, and can't be assigned"
            yield from self.inside({**scope, form.name.text: (form.name, fixed)}, form.blocks[0], True)
        elif kind == "specfold":
            yield from self.fold(scope, form)
        elif kind == "spec":
            yield from self.pair(scope, form)
        else:
            yield from self.numbers(scope, line, form.parts)

    def width(self, form, parts, what):
        if len(parts) != len(form.names):
            yield self.fault(form.token, "wrong number of arguments", form.line,
                             f"{counted(len(form.names), 'word')} {'is' if len(form.names) == 1 else 'are'} carried, "
                             f"and {what} has {counted(len(parts), 'part')}")

    def fold(self, scope, form):
        line, carried = form.line, "`{}` is carried, and can't be assigned: copy it by `let now = {};`"
        yield from self.declared_each(line, scope, [*form.names, form.block])
        for parts, what in ((form.start, "the start"), (form.predict, "the guess"), (form.next, "`next`")):
            yield from self.width(form, parts, what)
        yield from self.numbers(scope, line, [*form.start, *form.range])
        block = {form.block.text: (form.block, "`{}` is the number of the block, and can't be assigned")}
        yield from self.numbers({**scope, **block}, line, form.predict)
        inner = {**scope, **{token.text: (token, carried.replace("{}", token.text)) for token in form.names}, **block}
        inner = yield from self.inside(inner, form.body, False)
        yield from self.numbers(inner, form.last.line, form.next)

    def pair(self, scope, form):
        line, carried = form.line, "`{}` is carried, and can't be assigned: copy it by `let now = {};`"
        yield from self.declared_each(line, scope, form.names)
        for parts, what in ((form.give, "`give`"), (form.predict, "the guess")):
            yield from self.width(form, parts, what)
        inner = yield from self.inside(scope, form.producer, False)
        yield from self.numbers(inner, form.last.line, form.give)
        yield from self.numbers(scope, line, form.predict)
        fixed = {token.text: (token, carried.replace("{}", token.text)) for token in form.names}
        yield from self.inside({**scope, **fixed}, form.consumer, False)


def counted(number, what):
    return f"{number or 'no'} {what}{'' if number == 1 else 's'}"
