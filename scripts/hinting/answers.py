"""Hints on an answer of the program, each a line."""

import os
import re
import stat
import sys

from hinting import command_line, files, mistakes
from hinting.names import Names
from hinting.reading import Fault, Reader, Text, inner_constructs

sys.setrecursionlimit(20_000)

MAX_TEXT, WIDTH, SHOWN = 1 << 20, 100, 5
PROGRAM_COMMANDS = ("run", "check", "explain", "print", "batch", "sim", "replay")
# how many cells a decoder takes for a byte of its input, and how many besides, for blocks of B bytes
DECODERS = {"unpack": (1, lambda block: block), "unhuff": (8, lambda block: 65536 + 8 * block), "lex": (1, lambda block: block)}
HEADERS = {"unpack": 0, "unhuff": 264, "lex": 0}
TRAPS = {
    "overflow": "a result is not from -2^63 to 2^63 - 1",
    "divide-by-zero": "a divisor is 0",
    "index": "an index is out of range",
    "shift": "a shift by less than 0 or more than 63",
    "range": "a range is not within its array, or ends before it begins",
    "turns": "the condition still holds after the iterations that `max` allows",
    "emit": "the value is not 0 to 255, or the output already has 67,108,864 bytes",
    "blocks": "a fold has more than 4,096 blocks: make them larger",
    "fail": "the program itself ends the run here",
}
RULES = {
    "outer-assign": "a block assigns a local from outside: carry it, or store one value per block and add up after the fold",
    "emit-inside": "a block emits: store the bytes, and emit them after the fold",
    "predictor-writes": "the predictor calls a function that stores: use one that only computes",
    "overlap": "two blocks may write the same cells: give each block its own, at F*k + ..",
    "predictor-reads": "the predictor reads an array that the blocks write: predict from the input",
    "read-before-write": "a block reads these cells before it has surely written them: read another array, or keep the value in a local",
    "not-overwritten": "a block may write these cells, but not surely: `fill` them first, or store to each in a loop with known ends",
}
NUMBERS = {rule: number for number, rule in enumerate(RULES, 1)}


class Run:
    """What the program was asked for."""

    def __init__(self, words):
        rest = list(words)
        while rest[:1] == ["--host"]:
            rest = rest[2:]
        self.command = rest[0] if rest else None
        self.words = rest
        self.text = None
        if self.command in PROGRAM_COMMANDS and len(rest) > 1:
            self.program = rest[1]
            data = files.content(self.program, MAX_TEXT)
            self.text = None if data is None else Text(data)
        self.input_size = files.size_of(rest[2]) if self.command in ("run", "sim", "replay") and len(rest) > 2 else None

    def file(self, index):
        """The bytes of the file that is this word of the command."""
        return files.content(self.words[index], 1 << 25) if len(self.words) > index else None

    def read(self):
        """The program that the text is, and its fault; none of both where the text is not at hand or is nested too deeply."""
        if self.text is None:
            return None, None
        try:
            program = Reader(self.text, mistakes).program()
            return program, next(Names(program).faults(), None)
        except Fault as fault:
            return None, fault
        except RecursionError:
            return None, None

    def option(self, name, otherwise):
        return int(self.words[self.words.index(name) + 1]) if name in self.words[:-1] else otherwise


# ---- places in a text

def shown(data):
    """Bytes of a line as characters, one for each that is printed."""
    return "".join(sign if sign.isprintable() else " " if sign == "\t" else "?" for sign in data.decode(errors="replace"))


def at_line(run, number, advice):
    """A line of the program."""
    yield f"{run.program}:{number}: {advice}"
    line = shown(run.text.line(number)).strip() if run.text else ""
    if line:
        yield f"  {line if len(line) <= WIDTH else line[:WIDTH] + ' ..'}"


def at_place(run, at, size, advice):
    """A place in the program, with the line below which it is marked."""
    number = run.text.line_at(at)
    start = run.text.starts[number - 1]
    line, before = run.text.line(number), shown(run.text.data[start:at])
    yield f"{run.program}:{number}:{len(before) + 1}: {advice}"
    whole, column = shown(line), len(before)
    left = column - WIDTH // 2 if column > WIDTH // 2 and len(whole) > WIDTH else len(whole) - len(whole.lstrip())
    left = min(left, column)
    part = whole[left:left + WIDTH]
    mark = min(len(shown(line[at - start:at - start + size])), len(part) - column + left)
    if part.strip():
        cut = ".. " if whole[:left].strip() else ""
        yield f"  {cut}{part}{' ..' if len(whole) > left + WIDTH else ''}"
        yield f"  {' ' * (len(cut) + column - left)}{'^' * max(1, mark)}"


# ---- the hints of each status

def of_text(run, at, name):
    """The text goes wrong at a byte."""
    at = int(at)
    _, fault = run.read()
    if run.text is None:
        return
    if name == "too deep":
        sign = run.text.text[at:at + 1]
        before = run.text.text[:at].rstrip()[-1:]
        is_operator = sign not in "([{!" and not (sign == "-" and before in "([,=<>&|+*/%^-" )
        yield from at_place(run, at, 1, "this is the 33rd operator of an expression: put a part of it into a local" if is_operator else
                            "64 brackets, braces and signs are open here, which is the limit: move a part into a function")
    elif fault and (fault.at, fault.name) == (at, name):
        yield from at_place(run, at, fault.size, fault.advice)
    else:
        yield from at_place(run, at, 1, name)


def of_names(run, line, name):
    """The text has a fault of names or kinds on a line."""
    line = int(line)
    program, fault = run.read()
    if run.text is None:
        return
    if fault and (fault.line, fault.name) == (line, name):
        yield from at_place(run, fault.at, fault.size, fault.advice)
    elif name == "too large" and program:
        yield from at_line(run, line, too_large(program, line))
    else:
        yield from at_line(run, line, name)


def too_large(program, line):
    if line in [array.line for array in program.arrays[64:]]:
        return "a program has at most 64 arrays"
    if line in [function.line for function in program.functions[256:]]:
        return "a program has at most 256 functions"
    if line in [function.line for function in program.functions]:
        return "a function has at most 65,536 statements and expressions, including those of the functions that it calls"
    return "`main` has at most 65,536 statements and expressions, nested 256 deep, and 1,024 locals, including those of the functions that it calls"


def of_refusal(run, rule, line, cells):
    program, _ = run.read()
    said = RULES[rule]
    if cells and cells.endswith("[..]"):
        said = f"the checker doesn't know which cells of `{cells[:-4]}` these are: index by `F*k + ..`, in loops with known ends"
    said += f" (docs/CHECKER.md, rule {NUMBERS[rule]})"
    inside = first_inside(program, int(line), rule) if program else None
    if inside:
        yield from at_place(run, inside.at, len(inside.text), said)
    elif run.text:
        yield from at_line(run, int(line), said)
    if cells:
        yield f"`spf explain {run.program}` lists what each part reads and writes"


def first_inside(program, line, rule):
    """The first assignment from outside, or the first `emit`, in a construct on this line."""
    def blocks(form):
        return [*form.blocks, *(getattr(form, part, []) for part in ("body", "producer", "consumer"))]

    def find(statements, declared):
        for form in statements:
            if rule == "emit-inside" and form.kind == "emit":
                return form.token
            if rule == "outer-assign" and form.kind == "assign" and form.name.text not in declared:
                return form.name
            names = [form.name] if form.kind in ("let", "for") else getattr(form, "names", [])
            for block in blocks(form):
                if found := find(block, declared | {token.text for token in names}):
                    return found
            declared = declared | {token.text for token in names}
        return None

    if rule not in ("outer-assign", "emit-inside"):
        return None
    for form in program.main:
        if form.kind in ("specfold", "spec") and form.line == line:
            return next((found for block in blocks(form) if (found := find(block, set()))), None)
    return None


def of_trap(run, kind, line):
    name = kind.split()[0]
    if run.command not in PROGRAM_COMMANDS:
        yield from of_decoder(run, kind, line)
        return
    said = TRAPS[name]
    program, _ = run.read()
    if program and name in ("index", "range"):
        said += sizes_on(run, program, int(line))
    yield from at_line(run, int(line), said)


def sizes_on(run, program, line):
    """How many cells the arrays have that a line names, and how many bytes the input, where it is read there."""
    words = set(re.findall(r"[A-Za-z_]\w*", run.text.line(line).decode("latin-1").split("#")[0]))
    said = [f"`{array.name.text}` has {cells_of(array, run.input_size)} cells" for array in program.arrays if array.name.text in words]
    if "input" in words and run.input_size is not None:
        said.append(f"the input has {run.input_size} bytes")
    return ": " + ", ".join(said) if said else ""


def counted(cells):
    return f"{cells} {'cell' if cells == 1 else 'cells'}"


def cells_of(array, size):
    if array.factor == 0:
        return array.offset
    if size is None:
        return f"{array.factor}*len" + (f" + {array.offset}" if array.offset else "")
    return array.factor * size + array.offset


def of_decoder(run, kind, line):
    """A built-in decoder trapped. The line is one of its own program, which no one sees."""
    decoder = run.words[1] if run.command == "demo" else run.command
    size = files.size_of(run.words[2 if decoder == "lex" else 1]) if run.command != "demo" else None
    yield f"line {line} is in the built-in program of `{decoder}`"
    if kind == "fail 1" and decoder == "unhuff":
        yield "the file has fewer symbols than it says: it is cut off, or has bits that are not a code word"
    elif kind == "blocks":
        needed = "" if size is None else f": use `--block {-(-(size - HEADERS[decoder]) // 4096)}` or more"
        yield f"a run has at most 4,096 blocks, too few for blocks of {run.option('--block', 1024)} bytes{needed}"
    elif kind == "emit":
        yield "the output would have more than 67,108,864 bytes"


def of_cells(run, count, limit):
    count, limit = int(count), int(limit)
    if run.command in DECODERS:
        factor, besides = DECODERS[run.command]
        most = (limit - besides(run.option("--block", 1024))) // factor
        yield f"`{run.command}` takes {counted(factor)} for each byte of its input, which may have at most {most} bytes"
        return
    program, _ = run.read()
    if program is None:
        return
    for array in sorted(program.arrays, key=lambda array: -array.factor * (run.input_size or 1) - array.offset)[:SHOWN]:
        yield from at_line(run, array.line, f"`{array.name.text}` has {cells_of(array, run.input_size)} cells")
    if program.version == 1 and count <= 16777216:
        yield "a program that begins with `version 2;` may have 16777216 cells"
    else:
        yield "store less per byte, pack several values into a cell, or split the input"


def of_host(run, number):
    hosts = set()
    if run.text:
        hosts = {int(number) for number in re.findall(r"\bhost\s+(\d+)", re.sub("#.*", "", run.text.text))}
    count = max(hosts, default=int(number)) + 1
    yield (f"the program asks for {'host 0' if count == 1 else f'hosts 0 to {count - 1}'}: give the kind of each before the command, "
           f"as in `spf {'--host table ' * min(count, 4)}{'.. ' if count > 4 else ''}{run.command} ..`")
    yield f"the kinds are {', '.join(command_line.KINDS)} (docs/PREDICTORS.md)"


def of_stream(output):
    """A stream failed: it is standard output, since that of errors goes through ./spf."""
    try:
        mode = os.fstat(output).st_mode
    except OSError:
        yield "standard output could not be written"
        return
    if stat.S_ISFIFO(mode) or stat.S_ISSOCK(mode):
        yield "standard output was cut off: the reader of the pipe ended early"
    else:
        yield "standard output could not be written: is the device full?"


def of_long(run, name, limit):
    size = files.size_of(name)
    yield (f"`{name}` has {size} bytes, and {limit} are allowed" if size is not None else f"`{name}` has more than {limit} bytes") + \
        ("; split it, and run the program on the parts (`spf batch`)" if run.command == "run" and name == run.words[2] else "")


def of_format(run, at, format_name):
    """A file is not of its format."""
    index = 3 if run.command == "replay" else 1
    data = run.file(index)
    wrong = {"HUF1": files.not_huf1, "LEX1": files.not_lex1, "SPL1": files.not_spl1}.get(format_name)
    if data is not None and wrong:
        yield f"{run.words[index]}: byte {at}: {wrong(at, data)}"
    yield "docs/FORMATS.md has the format"


def notes(run):
    """What an accepted program may lose."""
    program, _ = run.read()
    for count, (token, within) in enumerate(inner_constructs(program) if program else []):
        if count == SHOWN:
            yield "and others"
            return
        what = "fold" if token.kind == "specfold" else "pair"
        yield f"{run.program}:{token.line}: this {what} is inside {within}, so it runs in order; only statements of `main` itself run by blocks"


def of_statistics(run, blocks, hits, misses, blind):
    """What the statistics of a run by blocks may mean: nothing was run by blocks, or more was predicted wrong than right."""
    if blocks == 0 and run.text:
        yield from notes(run)
    if misses > hits:
        section = 4 if run.command in DECODERS else 6
        yield (f"{misses} of {hits + misses} predictions {'was' if misses == 1 else 'were'} wrong: each such block ran again, in order "
               f"(docs/WRITING.md, section {section})")
    if blind > 0:
        yield f"{blind} {'guess' if blind == 1 else 'guesses'} had a part that trapped, which is then 0 (docs/WRITING.md, section 4)"


def hints(status, lines, words, output):
    """The hints on the answer to these words: its status, and its lines on standard error. `output` is the descriptor of standard output."""
    run, said = Run(words), "\n".join(lines)

    def match(pattern):
        return re.search(rf"^{pattern}$", said, re.M)

    if status == 0 and run.command in ("check", "explain") and len(run.words) > 1:
        yield from notes(run)
    elif status == 0 and (run.command == "run" or run.command in DECODERS) and "--stats" in words and "--plain" not in words:
        found = match(r"blocks (\d+) hits (\d+) misses (\d+) blind (\d+)")
        yield from of_statistics(run, *map(int, found.groups())) if found else ()
    elif status == 1 and (found := match(r"trap (\S+(?: \d+)?) line (\d+)")):
        yield from of_trap(run, *found.groups())
    elif status == 2:
        yield from command_line.hints(words)
    elif status == 3 and (found := match(r"text byte (\d+): (.*)")):
        yield from of_text(run, *found.groups())
    elif status == 3 and (found := match(r"line (\d+): (.*)")):
        yield from of_names(run, *found.groups())
    elif status == 4 and (found := match(r"refused (\S+) line (\d+)(?: (.*))?")):
        yield from of_refusal(run, *found.groups())
    elif status == 5 and (found := re.search(r"^file (.*) failed$", said, re.M | re.S)):
        yield files.why_failed(found[1], run.words[2] if run.command == "batch" else None)
    elif status == 6:
        yield from of_stream(output)
    elif status == 7 and (found := match(r"file (.*) over (\d+) bytes")):
        yield from of_long(run, *found.groups())
    elif status == 7 and (found := match(r"cells (\d+) over (\d+)")):
        yield from of_cells(run, *found.groups())
    elif status == 7 and (found := match(r"host (\d+) not handed in")):
        yield from of_host(run, *found.groups())
    elif status == 7 and match(r"steps over \d+"):
        yield "a schedule has at most 1,000,000 steps: use a shorter input"
    elif status == 8:
        yield "out of memory: fewer cells, fewer workers or a shorter input need less"
    elif status == 9 and match("not a machine"):
        data = run.file(1)
        if data is not None:
            yield f"{run.words[1]}: {files.not_a_machine(data)}"
        yield "docs/FORMATS.md has the form of such a text"
    elif status == 9 and (found := match(r"list line (\d+): not a name")):
        data = run.file(2)
        if data is not None:
            yield f"{run.words[2]}:{found[1]}: {files.not_a_name(int(found[1]), data)}"
    elif status == 9 and (found := match(r"\w+ byte (\d+): not (\w+)")):
        yield from of_format(run, int(found[1]), found[2])
