#!/usr/bin/env python3
"""Cuts files short at each place and looks at what the program answers.

Each proper prefix of a program is refused with a place that is at most its length. Each prefix of a HUF1 file or of a machine that ends in
what the format says first is refused at its end; a HUF1 file that ends later decodes to a prefix of the whole text. Each prefix of a
PackBits file unpacks to a prefix of the whole output. Needs the built program (`./spf --build`); the first word may name it in the place of
crates/spf/out/spf. Ends with status 1 where an answer is another one.
"""

import os
import re
import subprocess
import sys
import tempfile

HERE = os.path.dirname(os.path.abspath(__file__))
EXAMPLES = os.path.join(HERE, "..", "examples")
SPF = sys.argv[1] if len(sys.argv) > 1 else os.path.join(HERE, "..", "crates", "spf", "out", "spf")
HEADER = 264


def example(name):
    with open(os.path.join(EXAMPLES, name), "rb") as file:
        return file.read()


def answer(words):
    done = subprocess.run([SPF] + words, capture_output=True)
    return done.returncode, done.stdout, done.stderr.decode()


def is_refused_text(cut, got):
    place = re.fullmatch(r"text byte (\d+): (unexpected|bad byte)\n", got[2])
    return got[:2] == (3, b"") and place is not None and int(place[1]) <= len(cut)


def is_huf1(cut, got):
    if len(cut) < HEADER:
        return got == (9, b"", f"input byte {len(cut)}: not HUF1\n")
    return got[0] == 1 and got[2] == "trap fail 1 line 53\n" and example("notes.out").startswith(got[1])


def is_lex1(cut, got):
    return got == (9, b"", f"machine byte {len(cut)}: not LEX1\n")


def is_unpacked(cut, got):
    return got[0] == 0 and got[2] == "" and example("tn1023.out").startswith(got[1])


def main():
    bad = 0
    with tempfile.TemporaryDirectory() as folder:
        path = os.path.join(folder, "file")
        count_c = os.path.join(EXAMPLES, "count.c")
        for name, words, is_right in [
            ("quotes.spf", ["check", path], is_refused_text),
            ("fill_and_store.spf", ["check", path], is_refused_text),
            ("notes.huf", ["unhuff", path], is_huf1),
            ("tokens.lex", ["lex", path, count_c], is_lex1),
            ("tn1023.pack", ["unpack", path], is_unpacked),
        ]:
            whole = example(name).rstrip() if name.endswith(".spf") else example(name)
            wrong = []
            for length in range(len(whole)):
                with open(path, "wb") as file:
                    file.write(whole[:length])
                if not is_right(whole[:length], answer(words)):
                    wrong.append(length)
            bad += len(wrong)
            print(f"{name:<20}{len(whole):>5} prefixes, {len(wrong)} wrong" + (f": {wrong[:10]}" if wrong else ""), flush=True)
    sys.exit(1 if bad else 0)


main()
