"""What to write in the place of a byte or a token with which no program goes on."""

import re

from hinting.reading import COMPARISONS, KEYWORDS, OPERATORS, Token

TYPES = {"int", "var", "const", "auto", "mut", "char", "long", "unsigned", "byte", "bool", "u8", "u32", "u64", "i32", "i64", "local", "my"}
ESCAPES = {"n": 10, "t": 9, "r": 13, "0": 0}


def of_byte(text, at):
    """For a byte at which no token starts: how many bytes are meant, and what to say of them."""
    rest = text.text[at:at + 100]
    if quoted := re.match(r"'(\\?)([^\n])'", rest):
        value = ESCAPES.get(quoted[2], ord(quoted[2])) if quoted[1] else ord(quoted[2])
        return len(quoted[0]), f"a character is written as its number: {quoted[0]} is {value}"
    if quoted := re.match(r'"([ -~]*?)"', rest):
        numbers = " ".join(str(ord(sign)) for sign in quoted[1][:8]) + (" .." if len(quoted[1]) > 8 else "")
        return len(quoted[0]), "there are no strings" + (f"; its bytes are {numbers}" if numbers else "")
    if at == 0 and text.data.startswith(b"\xef\xbb\xbf"):
        return 3, "the text begins with a byte order mark: save it without one"
    if at == 0 and text.data[:2] in (b"\xff\xfe", b"\xfe\xff"):
        return 2, "the text is in UTF-16: save it as UTF-8"
    if ord(rest[0]) > 127:
        sign = text.data[at:at + 4].decode(errors="ignore")[:1]
        return (len(sign.encode()), f"only comments may have characters outside ASCII; this is `{sign}`") if sign else (1, "only comments may have bytes over 127")
    if rest[0] == "." and text.text[at - 1:at].isdigit() and rest[1:2].isdigit():
        return 1, "there are no fractions: numbers are integers"
    return 1, {
        ".": "there is no `.`; a range is `a..b`",
        "?": "there is no `? :`; use `if`",
        ":": "there is no `:`; there are no types, and blocks are in braces",
        "~": "`~x` is written `-x - 1`",
    }.get(rest[0], "no token begins with this byte")


def of_token(reader):
    """For the token at which a reader stands."""
    return Unexpected(reader).advice()


def listed(words):
    """`a, b or c`."""
    return words[0] if len(words) == 1 else ", ".join(words[:-1]) + " or " + words[-1]


class Unexpected:
    """A token with which no program goes on."""

    def __init__(self, reader):
        self.reader = reader
        self.expected = list(dict.fromkeys(reader.expected))
        self.before, self.found, self.after = (reader.token(ahead) for ahead in (-1, 0, 1))
        if reader.at == 0:
            self.before = Token("begin", "", 0, 1)

    def wants(self, *what):
        return any(word in self.expected for word in what)

    def is_in(self, *forms):
        return bool(self.reader.forms) and self.reader.forms[-1] in forms

    def advice(self):
        rules = [self.of_end, self.of_signs, self.of_numbers, self.of_sizes, self.of_names, self.of_words, self.of_order, self.of_lists]
        return next((advice for advice in (rule() for rule in rules) if advice), None) or self.of_rest()

    def of_end(self):
        if self.found.kind != "end":
            return None
        if self.reader.open:
            opened = self.reader.open[-1]
            return f"the text ends here, and the `{opened.text}` in line {opened.line} is not closed"
        return "the text ends here; a program ends with `main { .. }`"

    def of_signs(self):
        before, found, after = self.before, self.found, self.after
        if found.kind in ("/", "*") and (before.kind == "/" and before.touches(found) or found.kind == "/" and found.touches(after)
                                         and after.kind in ("/", "*")):
            return "comments begin with `#`"
        if self.wants("`=`") and found.kind in OPERATORS:
            target = self.reader.text.text[self.start_of_statement():found.at].strip()
            if found.touches(after) and after.kind == found.kind and found.kind in "+-":
                return f"there is no `{found.text}{found.text}`: write `{target} = {target} {found.text} 1;`"
            if found.touches(after) and after.kind == "=":
                return f"there is no `{found.text}=`: write `{target} = {target} {found.text} ..;`"
            if found.kind == "==":
                return "`==` compares; write `=` to assign"
        if found.kind == "=" and before.kind == "..":
            return "a range doesn't include its end: write `a..b + 1` for `a..=b`"
        if found.kind == "=" and self.wants("`in`"):
            return "write `for i in a..b { .. }`; b is not included"
        if found.kind == "=" and self.is_in("array"):
            return "arrays start as zeros; store other values in `main`"
        if found.kind == "=" and self.wants("an operator"):
            return "`=` assigns; to compare, write `==`"
        if found.kind in COMPARISONS and self.wants("an operator"):
            return "comparisons can't be chained: write `a < b && b < c`"
        if found.kind == "-" and after.kind == ">":
            return "there are no types: write `fn f(x) { .. return E; }`"
        if found.kind == ";" and before.kind == "}":
            return "no `;` after a block"
        if found.kind == ";" and before.kind in (";", "{"):
            return "there are no empty statements"
        return None

    def of_numbers(self):
        before, found = self.before, self.found
        if before.kind != "number" or found.kind != "name" or not before.touches(found):
            return None
        whole = before.text + found.text
        for prefix, base in (("0x", 16), ("0b", 2), ("0o", 8)):
            if whole.lower().startswith(prefix):
                try:
                    return f"numbers are decimal: {whole} is {int(whole[2:].replace('_', ''), base)}"
                except ValueError:
                    return "numbers are decimal"
        digits = whole.replace("_", "")
        return f"a number has only digits: {digits}" if digits.isdigit() else "a name can't begin with a digit"

    def of_sizes(self):
        if not self.is_in("array"):
            return None
        if self.wants("`[`"):
            return "an array needs a size: `array a[100];`"
        if not self.wants("a number", "`len`", "`]`"):
            return None
        tokens = [token.text for token in self.reader.tokens[:self.reader.at + 8]]
        begin = max(at for at in range(self.reader.at) if tokens[at] == "[")
        if "]" not in tokens[begin:]:
            return None
        size = " ".join(tokens[begin + 1:begin + tokens[begin:].index("]")])
        for form, right in ((r"len", r"1*len"), (r"len \* (\d+)", r"\1*len"), (r"len \+ (\d+)", r"1*len + \1"), (r"(\d+) \+ len", r"1*len + \1"),
                            (r"len \* (\d+) \+ (\d+)", r"\1*len + \2"), (r"(\d+) \+ (\d+) \* len", r"\2*len + \1")):
            if re.fullmatch(form, size):
                return f"write the size as `{re.sub(form, right, size)}`"
        if two := re.fullmatch(r"(\d+) ([*+]) (\d+)", size):
            number = int(two[1]) * int(two[3]) if two[2] == "*" else int(two[1]) + int(two[3])
            return f"a size is a number, or `F*len + O`: write {number}"
        return "a size is a number, or `F*len + O` with numbers F and O"

    def of_names(self):
        before, found = self.before, self.found
        if self.wants("a name") and found.kind in KEYWORDS:
            return f"`{found.text}` is a keyword; choose another name"
        if self.wants("a name") and before.kind == "let" and found.kind == "(":
            return "`let` declares a single name"
        if self.wants("a name") and before.kind == "for":
            return "write `for i in a..b { .. }`"
        if before.kind == "name" and before.text in ("elif", "elsif", "elseif"):
            return f"there is no `{before.text}`: write `else {{ if C {{ .. }} }}`"
        if before.kind == "name" and found.kind == "name" and self.wants("`=`"):
            if before.text in ("function", "def", "func"):
                return "a function begins with `fn`, and comes before `main`"
            return f"locals are declared by `let {found.text} = ..;`" if before.text in TYPES else None
        for word, sign in (("and", "&&"), ("or", "||"), ("not", "!")):
            if word in (found.text, before.text) and (self.wants("an operator") or before.kind == "name"):
                return f"write `{sign}` for `{word}`"
        if found.kind == "name" and found.text in ("then", "do") and self.wants("`{`"):
            return f"there is no `{found.text}`; blocks are in braces"
        return None

    def of_words(self):
        before, found = self.before, self.found
        if found.kind == "if" and before.kind == "else":
            return "there is no `else if`: write `else { if C { .. } }`"
        if found.kind == "else":
            return "this `else` has no `if`"
        if found.kind == "break" and self.reader.version < 2 and self.wants("a statement"):
            return "`break` needs version 2: begin the program with `version 2;`"
        if self.wants("`max`") and found.kind == "{":
            return "a `while` needs a limit: `while C max N { .. }`"
        if before.kind == "max":
            return "the limit has to be a number" + ("; an input has at most 4194304 bytes" if found.kind == "len" else "")
        if self.wants("`..`") and found.kind == "{":
            return "a range is `a..b`; b is not included"
        if self.wants("`predict`") and found.kind == "{":
            return "`predict E` is missing before the block"
        if before.kind == "input":
            return "`input[i]` is byte i of the input; its length is `len`"
        if before.kind == "len" and found.kind in ("(", "["):
            return "`len` is the length of the input, not a function"
        if before.kind == "fail":
            return "`fail` needs a number from 0 to 255"
        if before.kind == "host":
            return "`host` needs a number: `predict host 0`"
        if before.kind == "return" and found.kind == ";":
            return "a function returns a number: `return 0;`"
        if self.is_in("let") and found.kind == ";" and self.wants("`=`"):
            return f"a `let` needs a value: `let {before.text} = 0;`"
        if self.is_in("let") and found.kind == "[":
            return f"arrays are declared at the top: `array {before.text}[100];`"
        if self.is_in("fill") and self.wants("`[`"):
            return "write `fill a[i..j] = E;`"
        if self.is_in("emit") and found.kind == ",":
            return "`emit` takes one value: `emit a; emit b;`"
        return None

    def of_order(self):
        found, within = self.found, self.reader.forms
        if self.wants("a statement"):
            ends = {"function": "return", "fold": "next", "producer": "give"}
            said = {"function": "a function", "fold": "a fold's body", "producer": "a producer"}
            for form, word in ends.items():
                if self.is_in(form) and found.kind == "}":
                    return f"{said[form]} ends with `{word} E;`"
                if found.kind == word and not self.is_in(form):
                    if form not in within:
                        return f"`{word}` only comes at the end of {said[form]}"
                    return f"`{word}` only comes at the end of {said[form]}: assign a local here, and write `{word} x;` there"
            if found.kind == "array":
                return "arrays are declared at the top, before functions and `main`"
            if found.kind == "fn":
                return "functions come before `main`, and can't be nested"
            if found.kind in (")", "]"):
                return f"this `{found.kind}` has no `{'(' if found.kind == ')' else '['}`"
            return None
        if self.wants("the end of the text"):
            return {"fn": "functions come before `main`", "array": "arrays come before functions and `main`"}.get(found.kind, "nothing may follow `main`")
        if self.before.kind == "main":
            return "write `main { .. }`, without parentheses"
        if self.wants("`main`"):
            if found.kind == "array":
                return "arrays come before all functions"
            if found.kind == "version":
                return "`version` comes first in the text"
            return "statements go into `main { .. }`, or into a function `fn f(x) { .. return E; }`"
        if self.wants("1 or 2"):
            return "the versions are 1 and 2"
        if self.before.kind == ";" and self.expected == ["`}`"]:
            return "nothing may follow `return`, `next` or `give`"
        return None

    def of_lists(self):
        if self.expected == ["`,`"] and self.found.kind == ")":
            return "a single name or guess has no parentheses"
        if self.wants("`)`") and self.found.kind == "," and not self.wants("`,`"):
            return "a row has at most four parts"
        return None

    def of_rest(self):
        found = self.found
        if self.wants("`;`") and (found.kind in KEYWORDS or found.kind in ("name", "}")) and (found.line > self.before.line
                                                                                             or found.kind != "name"):
            return f"a `;` is missing at the end of line {self.before.line}" if found.line > self.before.line else "a `;` is missing before this"
        if self.wants("`{`") and (found.kind in KEYWORDS or found.kind == "name"):
            return "a `{` is missing: blocks are in braces"
        wanted = [word for word in self.expected if word != "an operator"]
        if self.wants("an operator"):
            wanted.append("an operator")
        return f"expected {listed(wanted)}" if wanted else "this can't stand here"

    def start_of_statement(self):
        at = self.reader.at - 1
        while at > 0 and self.reader.tokens[at - 1].kind not in (";", "{", "}"):
            at -= 1
        return self.reader.tokens[at].at
