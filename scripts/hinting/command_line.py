"""Says why words are not a command, and which command is near. What commands there are is read from the help (crates/spf_cli_help)."""

import difflib
import os
import re
import shlex

HELP = os.path.join(os.path.dirname(os.path.realpath(__file__)), "..", "..", "crates", "spf_cli_help", "src", "texts.rt")
FOR_HELP = {"-h", "-help", "--h", "-?", "help", "/?"}
FOR_VERSION = {"-V", "-v", "-version", "version"}


class Page:
    """The help of a command: its arguments, its options in their order, and the numbers that each of these may be."""

    def __init__(self, usage, text):
        self.usage = usage
        self.arguments = usage.split("[")[0].split()
        self.options = {name: bool(value) for name, value in re.findall(r"\[(--\w+)( \w)?\]", usage)}
        self.limits = {name: (int(low), int(high)) for name, low, high in re.findall(r"^  (\S+)(?: \w)? +.*?(\d+) to (\d+)", text, re.M)}


def read_help():
    """The pages of the commands, and the kinds of hosts."""
    with open(HELP, encoding="utf-8") as file:
        source = file.read()
    pages = {}
    for text in source.split("pub(crate) const ")[1:]:
        if usage := re.search(r"^Usage: spf (\w+) (.*)$", text, re.M):
            pages[usage[1]] = Page(usage[2], text)
    kinds = re.search(r"--host KIND +Add a predictor: (.*)$", source, re.M)[1]
    return pages, re.split(r", | or ", kinds)


PAGES, KINDS = read_help()
OPTIONS = {name: value for page in PAGES.values() for name, value in page.options.items()}


def near(word, words):
    return next(iter(difflib.get_close_matches(word, list(words), 1)), None)


def written(words):
    return "`spf " + " ".join(shlex.quote(word) for word in words) + "`"


def after_hosts(words):
    """The pairs `--host KIND` at the beginning, the words after them, and what is wrong with these pairs."""
    rest = list(words)
    while rest and rest[0].split("=")[0] in ("--host", "--hosts", "-host"):
        kind = rest[1] if len(rest) > 1 else None
        pair = rest[0].split("=", 1)
        if len(pair) > 1 or pair[0] != "--host":
            return [], rest[1:], f"write `--host {pair[-1] if len(pair) > 1 else 'KIND'}`, as two words"
        number = re.fullmatch(r"fixed:(-?[0-9]+)", kind or "")
        if number and not -2**63 <= int(number[1]) < 2**63:
            return [], rest[2:], f"the number of `{kind}` doesn't fit into 64 bits"
        if not number and kind not in KINDS[1:]:
            said = f"`{kind}` isn't a kind of predictor" if kind else "`--host` needs a kind"
            return [], rest[2:], f"{said}: there are {', '.join(KINDS[:-1])} and {KINDS[-1]}"
        rest = rest[2:]
    return words[:len(words) - len(rest)], rest, None


def wrong_number(word, low, high):
    if not re.fullmatch("0|[1-9][0-9]*", word):
        return f"is a decimal number without a sign or a leading 0, not `{word}`"
    return None if low <= int(word) <= high else f"is {low} to {high}, not `{word}`"


def wrong_argument(page, name, word):
    """What is wrong with the word for an argument of a command."""
    if name == "KIND":
        return None if word in ("unpack", "unhuff", "lex") else f"KIND is unpack, unhuff or lex, not `{word}`"
    if name == "SEED" or name in page.limits:
        wrong = wrong_number(word, *page.limits.get(name, (0, 2**64 - 1)))
        return f"{name} {wrong}" if wrong else None
    if not word:
        return f"the name of the file {name} is empty"
    if word == "-":
        return "`-` isn't a file name; standard input is /dev/stdin"
    if word.split("=")[0] in OPTIONS:
        return f"{name} is missing: options come after the files"
    return f"a file name can't begin with `-`: write `./{word}`" if word.startswith("-") else None


def wrong_options(command, words):
    """What is wrong with the words after a command's arguments."""
    page, seen = PAGES[command], []
    order = list(page.options)
    at = 0
    while at < len(words):
        word = words[at]
        name, _, value = word.partition("=")
        if name not in page.options:
            close = near(name, OPTIONS) if name.startswith("-") else None
            if name in OPTIONS:
                return f"`{command}` has no `{name}`"
            if close:
                return f"there is no `{name}`; did you mean `{close}`?"
            return f"there is no `{name}`" if name.startswith("-") else f"`{word}` is one word too many"
        if value:
            return f"write `{name} {value}`, as two words"
        if name in seen:
            return f"`{name}` is given twice"
        if seen and order.index(name) < order.index(seen[-1]):
            return f"options come in the order {' '.join(order)}"
        seen.append(name)
        if page.options[name]:
            at += 1
            if at == len(words) or words[at].startswith("--"):
                return f"`{name}` needs a number"
            if wrong := wrong_number(words[at], *page.limits[name]):
                return f"the number after `{name}` {wrong}"
        at += 1
    return None


def wrong(words):
    """What is wrong with words, and the command that they name."""
    if not words:
        return "a command is missing; `spf --help` lists them", None
    if any(not is_utf8(word) for word in words):
        return "a word is not UTF-8", None
    _, rest, fault = after_hosts(words)
    command = rest[0] if rest else None
    if fault or command is None:
        return fault or "a command is missing after the hosts", command if command in PAGES else None
    if command in FOR_HELP or command in FOR_VERSION:
        asked = f"{rest[1]} --help" if rest[1:] and rest[1] in PAGES else "--help"
        return f"write `spf {asked if command in FOR_HELP else '--version'}`", None
    if command in ("--help", "--version", "--build"):
        return f"`{command}` can't be combined with other words", None
    if command not in PAGES:
        if command.split("=")[0] in OPTIONS:
            return "options come after the command and its files", next((word for word in rest if word in PAGES), None)
        if os.path.exists(command):
            return f"`{command}` is a file; a command comes first, as in `spf run {shlex.quote(command)} INPUT`", None
        close = near(command, PAGES)
        return f"there is no command `{command}`" + (f"; did you mean `{close}`?" if close else ""), close
    page = PAGES[command]
    given, asked = rest[1:], page.arguments
    if any(word in ("-h", "--help") for word in given) or given[:1] == ["help"]:
        return f"write `spf {command} --help`, and nothing else", command
    for name, word in zip(asked, given):
        if fault := wrong_argument(page, name, word):
            return fault, command
    if len(given) < len(asked):
        missing = " and ".join(asked[len(given):])
        return f"`{command}` also needs {missing}" + ("; if the program reads none, use /dev/null" if missing == "INPUT" else ""), command
    return wrong_options(command, given[len(asked):]), command


def is_utf8(word):
    try:
        word.encode()
        return True
    except UnicodeEncodeError:
        return False


def mended(words):
    """The same words as a command, where only their order or their spelling is wrong."""
    hosts, rest, fault = after_hosts([part for word in words for part in (word.split("=", 1) if word.startswith("--") else [word])])
    command = next((word for word in rest if word in PAGES), None) or (near(rest[0], PAGES) if rest else None)
    if fault or command is None:
        return None
    rest.remove(command if command in rest else rest[0])
    page, arguments, options = PAGES[command], [], {}
    while rest:
        word = rest.pop(0)
        name = word if word in page.options else near(word, page.options) if word.startswith("--") else None
        if name:
            options[name] = [rest.pop(0)] if page.options[name] and rest else []
        else:
            arguments.append(word)
    made = [*hosts, command, *arguments] + [word for name in page.options if name in options for word in (name, *options[name])]
    return made if made != words and wrong(made)[0] is None else None


def hints(words):
    fault, command = wrong(words)
    if fault:
        yield fault
    if better := mended(words):
        yield f"try {written(better)}"
    if command in PAGES:
        yield f"usage: spf {command} {PAGES[command].usage}; `spf {command} --help` says more"
    elif "--help" not in (fault or ""):
        yield "`spf --help` lists the commands"
