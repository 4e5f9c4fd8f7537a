"""Says why a file was not read, or where it is not of its format."""

import difflib
import os
import re
import stat


def content(name, limit):
    """The bytes of a file, up to a limit. None where it can't be read a second time."""
    try:
        if not stat.S_ISREG(os.stat(name).st_mode):
            return None
        with open(name, "rb") as file:
            return file.read(limit)
    except OSError:
        return None


def size_of(name):
    try:
        found = os.stat(name)
    except OSError:
        return None
    return found.st_size if stat.S_ISREG(found.st_mode) else None


def why_failed(name, list_name):
    """Why a file could not be read; it may have been named by a list."""
    try:
        found = os.stat(name)
    except FileNotFoundError:
        folder = os.path.dirname(name) or "."
        if not os.path.isdir(folder):
            return f"there is no folder `{folder}`"
        if list_name and os.path.exists(os.path.join(os.path.dirname(list_name), name)):
            return f"there is no `{name}` here; names in a list are relative to the folder in which spf runs"
        near = difflib.get_close_matches(os.path.basename(name), os.listdir(folder), 1)
        return f"there is no `{name}`" + (f"; did you mean `{os.path.join(os.path.dirname(name), near[0])}`?" if near else "")
    except PermissionError:
        return f"no permission for a folder of `{name}`"
    except OSError as fault:
        return f"`{name}`: {fault.strerror}"
    if stat.S_ISDIR(found.st_mode):
        return f"`{name}` is a folder"
    if not os.access(name, os.R_OK):
        return f"no permission to read `{name}`"
    return f"`{name}` can be opened, but not read"


def not_huf1(at, data):
    if at < 4:
        return "a HUF1 file begins with the bytes `HUF1`"
    if len(data) < 264:
        return "the file ends within its header, which has 264 bytes"
    length = data[at]
    if length > 15:
        return f"the code word of symbol {at - 4} has {length} bits; at most 15 are allowed"
    return f"the lengths before leave no room for a code word of {length} bits for symbol {at - 4}"


def not_lex1(at, data):
    if data.startswith(b"states "):
        return "this is the text of a machine: `spf build` makes the machine of it"
    if at < 4:
        return "a LEX1 file begins with the bytes `LEX1`"
    if at in (4, 5):
        return f"a machine has 1 to 64 {'states' if at == 4 else 'classes'}"
    states, classes = data[4], data[5]
    size = 262 + 2 * states * classes
    if len(data) != size:
        return f"{states} states and {classes} classes need {size} bytes, and the file has {len(data)}"
    if at < 262:
        return f"byte {at - 6} has class {data[at]}, and the classes are below {classes}"
    return f"an entry has {data[at]} as its next state, and the states are below {states}"


def not_spl1(at, data):
    if at == 0:
        return "a log begins with the bytes `SPL1`"
    return "the file ends within a section" if at == len(data) else "the kind, the block or the cell of a step is wrong"


def not_a_machine(data):
    """The first line of a machine's text that is not one, and what it should be."""
    if data.startswith(b"LEX1"):
        return "this is a machine already: `spf show` writes its text"
    if b"\r" in data:
        return "lines end with CR LF; they have to end with a line feed alone"
    lines = data.split(b"\n")
    first = re.fullmatch(rb"states ([1-9][0-9]*) classes ([1-9][0-9]*)", lines[0])
    if not first or not (int(first[1]) <= 64 and int(first[2]) <= 64):
        return "line 1 has to be `states S classes C`, 1 to 64 of each"
    states, classes = int(first[1]), int(first[2])
    wanted = [(rf"class {number}( [0-9a-f]{{2}})*", f"class {number}` and its bytes, as ` 0a 7f") for number in range(1, classes)]
    wanted += [(rf"state {number}( [0-9]+/[0-9]+){{{classes}}}", f"state {number}` and {classes} times ` NEXT/MARK") for number in range(states)]
    for number, (form, said) in enumerate(wanted, 2):
        if number > len(lines) or not re.fullmatch(form.encode(), lines[number - 1]):
            return f"line {number} has to be `{said}`"
    if lines[len(wanted) + 1:] != [b""]:
        return f"after line {len(wanted) + 1} comes its line feed, and then the end"
    return "the bytes of a class ascend, no byte is in two classes, next states are below S, and numbers have no leading 0"


def not_a_name(number, data):
    line = data.split(b"\n")[number - 1] if data.count(b"\n") >= number - 1 else b""
    if number > 1000:
        return "a list has at most 1,000 names"
    if not line:
        return f"line {number} is empty"
    if line.startswith(b"-"):
        return f"a name can't begin with `-`: write `./{line.decode(errors='replace')}`"
    return f"line {number} is not UTF-8"
