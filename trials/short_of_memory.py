#!/usr/bin/env python3
"""Makes each allocation of some runs fail in turn, and looks at what the program then answers.

With any one allocation failing, the status must be 8, and what was put on each of the two streams must be a prefix of what is put there
when none fails; or the whole answer must be given, where the program could do without. Needs a C compiler, `cc`, and the built program; the
first word may name it in the place of crates/spf/out/spf. Prints, for each run, how many allocations it makes and how many it could do
without, and ends with status 1 where an answer is another one.
"""

import os
import subprocess
import sys
import tempfile

HERE = os.path.dirname(os.path.abspath(__file__))
SPF = sys.argv[1] if len(sys.argv) > 1 else os.path.join(HERE, "..", "crates", "spf", "out", "spf")
OUT_OF_MEMORY = 8

DOUBLING = "main { specfold s = 1 for k in 0..5 predict k { next s * 2; } emit s; }"
DIVIDING = "main {\n  emit 65;\n  specfold s = 0 for k in 0..5 predict 0 {\n    next 10 / (3 - k); } }"
COUNTING = "main { let n = 0; specfold s = 0 for k in 0..2 predict 0 { n = n + 1; next s; } emit n; }"
HOSTED = "main { specfold s = 7 for k in 0..3 predict host 0 { next s; } specfold t = 7 for k in 0..3 predict host 0 { next t; } emit s; emit t; }"
FILLING = """array out[6];
main {
  specfold s = 0 for k in 0..3 predict 1 {
    fill out[2*k..2*k + 2] = 0;
    out[2*k + (s & 1)] = 7;
    next s + 1;
  }
  for i in 0..6 { emit out[i]; }
}"""
CALLING = """array a[1*len + 4];
fn twice(x, y) { let z = x + y; a[z & 3] = z; return 2 * z; }
main {
  let n = 0;
  while n < 9 max 20 { n = twice(n, 1) + 1; }
  spec x = { give n; } predict 4 { if x > 3 && a[0] == a[1] || !(x < 3) { a[2] = x; } }
  emit a[2];
}"""

EXAMPLES = os.path.join(HERE, "..", "examples")

# the name of a run, the text of its program (none for commands without one), and the words around the program's file
RUNS = [
    ("a fold that traps", DIVIDING, ["run"], ["INPUT", "--stats", "--plain"]),
    ("a fold over an array", FILLING, ["run"], ["INPUT", "--stats", "--cells", "--plain"]),
    ("a fold that counts", COUNTING, ["run"], ["INPUT", "--stats", "--plain"]),
    ("calls and a pair", CALLING, ["run"], ["INPUT", "--cells", "--plain"]),
    ("a run by blocks", DOUBLING, ["run"], ["INPUT", "--stats"]),
    ("blocks that write an array", FILLING, ["run"], ["INPUT", "--stats", "--cells"]),
    ("blocks that a host guesses", HOSTED, ["--host", "table", "run"], ["INPUT", "--stats"]),
    ("the same on eight workers", HOSTED, ["--host", "table", "run"], ["INPUT", "--workers", "8", "--stats"]),
    ("a check that accepts", FILLING, ["check"], []),
    ("a check that refuses", COUNTING, ["check"], []),
    ("an explanation", FILLING, ["explain"], []),
    ("a printed program", CALLING, ["print"], []),
    ("words that are not a command", FILLING, ["run"], []),
    ("a text that is not a program", "main { emit nope; }", ["check"], []),
    ("unpacked packets", None, ["unpack", os.path.join(EXAMPLES, "tn1023.pack"), "--block", "4", "--stats"], []),
    ("a decoded text", None, ["unhuff", os.path.join(EXAMPLES, "notes.huf"), "--workers", "1"], []),
    ("tokens", None, ["lex", os.path.join(EXAMPLES, "tokens.lex"), os.path.join(EXAMPLES, "count.c"), "--stats"], []),
    ("a file of another format", None, ["unhuff", os.path.join(EXAMPLES, "tn1023.pack")], []),
    ("a generated input", None, ["demo", "lex", "7", "2000", "2"], []),
]


def answer(words, library, failing):
    """The status, the output and the messages, and whether the allocation with that number came."""
    read, write = os.pipe()
    env = dict(os.environ, LD_PRELOAD=library, FAILING_ALLOCATION=str(failing), FAILING_ALLOCATION_TELLS=str(write))
    done = subprocess.run([SPF] + words, capture_output=True, env=env, pass_fds=[write])
    os.close(write)
    came = os.read(read, 1) == b"!"
    os.close(read)
    return done.returncode, done.stdout, done.stderr, came


def fail_each(words, library):
    """How many allocations the run makes, how many of them it can do without, and the numbers of those whose failure has a wrong answer."""
    whole = answer(words, library, 0)[:3]
    spare, wrong = 0, []
    failing = 1
    while True:
        status, output, messages, came = answer(words, library, failing)
        if (status, output, messages) == whole:
            if not came:
                return failing - 1, spare, wrong
            spare += 1
        elif not came or status != OUT_OF_MEMORY or not whole[1].startswith(output) or not whole[2].startswith(messages):
            wrong.append(failing)
            if not came:
                return failing - 1, spare, wrong
        failing += 1


def main():
    good = True
    with tempfile.TemporaryDirectory() as folder:
        library = os.path.join(folder, "failing_allocation.so")
        source = os.path.join(HERE, "failing_allocation.c")
        subprocess.run(["cc", "-O2", "-shared", "-fPIC", "-o", library, source, "-ldl"], check=True)
        empty = os.path.join(folder, "input")
        open(empty, "wb").close()
        program = os.path.join(folder, "program.spf")
        for name, text, before, after in RUNS:
            with open(program, "w") as file:
                file.write(text or "")
            words = before + ([] if text is None else [program]) + [empty if word == "INPUT" else word for word in after]
            count, spare, wrong = fail_each(words, library)
            print(f"{name:<28}{count:>5} allocations, {spare} spare" + (f", wrong where one of these fails: {wrong}" if wrong else ""))
            good = good and not wrong
    sys.exit(0 if good else 1)


main()
