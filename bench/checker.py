#!/usr/bin/env python3
"""Times `spf check` over programs near the limit of 65,536 statements and expressions, calls unfolded, and prints a table of seconds.

The first word may name the program that is timed in the place of crates/spf/out/spf. Each check is timed three times, and the least
time counts, compared with that of `spf print`, which reads the program and doesn't check it.
"""

import os
import resource
import subprocess
import sys
import tempfile

HERE = os.path.dirname(os.path.abspath(__file__))
SPF = sys.argv[1] if len(sys.argv) > 1 else os.path.join(HERE, "..", "crates", "spf", "out", "spf")


def fold(body, functions=""):
    return f"array a[70000];\n{functions}main {{ specfold s = 0 for k in 0..4 predict 0 {{\n{body}next 0; }} }}\n"


def scattered(i):
    """The i-th of 16,000 offsets, so that no two of the first 8,000 touch and they are in no order."""
    return i * 7919 % 8000 * 2


def stores(count):
    return "".join(f"a[16000*k + {scattered(i)}] = 1;\n" for i in range(count))


def branches(count):
    return "".join(f"if s == {i} {{ a[16000*k + {2 * i}] = 1; }} else {{ a[16000*k + {2 * i}] = 2; }}\n" for i in range(count))


def sweeps(count):
    body = " ".join(f"a[i + {16000 * part}] = s;" for part in range(4))
    return "".join(f"for i in 16000*k + {9 * i}..16000*k + {9 * i + 7} {{ {body} }}\n" for i in range(count))


def nested_loops(depth, count):
    return "".join(f"for i{j} in 0..2 {{ " for j in range(depth)) + "a[16000*k] = s; " * count + "} " * depth + "\n"


def many_folds(count):
    folds = ""
    for i in range(count):
        body = " ".join(f"a[900*k{i} + {j}] = 1;" for j in range(17))
        folds += f"specfold s{i} = 0 for k{i} in 0..4 predict 0 {{ {body} next 0; }}\n"
    return f"array a[70000];\nmain {{\n{folds}}}\n"


def doubling_calls(depth):
    functions = "fn f0(x) { a[x] = 1; return x + 1; }\n"
    for i in range(1, depth + 1):
        functions += f"fn f{i}(x) {{ let y = f{i - 1}(x); return f{i - 1}(x + 1) + y; }}\n"
    return fold(f"let z = f{depth}(9 * k);\n", functions)


PROGRAMS = [
    ("8,000 stores in no order", fold(stores(8000))),
    ("3,500 branches that store", fold(branches(3500))),
    ("4,000 stores, 3,000 branches", fold(stores(4000) + "if s == 1 { a[16000*k] = 1; }\n" * 3000)),
    ("1,000 sweeps of 4 stores", fold(sweeps(1000))),
    ("loops within each other", fold(nested_loops(50, 400) * 15)),
    ("12 functions that call twice", doubling_calls(12)),
    ("500 folds of 17 stores", many_folds(500)),
]


def seconds(words):
    """The least user time of three runs."""
    best = None
    for _ in range(3):
        before = resource.getrusage(resource.RUSAGE_CHILDREN).ru_utime
        done = subprocess.run(words, stdout=subprocess.DEVNULL, stderr=subprocess.PIPE)
        if done.returncode not in (0, 4):
            sys.exit(done.stderr.decode())
        took = resource.getrusage(resource.RUSAGE_CHILDREN).ru_utime - before
        best = took if best is None else min(best, took)
    return best


def main():
    print(f"{'program':<32}{'check':>8}{'print':>8}")
    for name, text in PROGRAMS:
        with tempfile.NamedTemporaryFile("w", suffix=".spf") as file:
            file.write(text)
            file.flush()
            print(f"{name:<32}{seconds([SPF, 'check', file.name]):8.2f}{seconds([SPF, 'print', file.name]):8.2f}")


main()
