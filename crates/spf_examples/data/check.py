#!/usr/bin/env python3
"""Runs the examples by ./spf and compares the output, the messages and the status of each run with those of expected.txt.

Words name the examples to run, as in `python3 examples/check.py csv utf8`: the runs with these words, or with a file of this name. Without
words all run. Where the program is built, each run by blocks is made with 1, 2, 4 and 64 workers, which must change nothing. Where it
isn't, ./spf interprets it: about a minute each, so one run is made of each example. Ends with status 1 where an answer is another one.
"""

import os
import subprocess
import sys

HERE = os.path.dirname(os.path.realpath(__file__))
TOP = os.path.normpath(os.path.join(HERE, "..", "..", ".."))
SPF = os.path.join(TOP, "spf")
IS_BUILT = os.access(os.path.join(TOP, "crates", "spf", "out", "spf"), os.X_OK)
WORKERS = [None, "1", "2", "4", "64"] if IS_BUILT else [None]


def content(name):
    with open(os.path.join(HERE, name), "rb") as file:
        return file.read()


def read_runs():
    """The runs of expected.txt: the words of each, with the output, the messages and the status that are expected."""
    runs = []
    for line in content("expected.txt").decode().splitlines():
        if line.startswith("#"):
            continue
        if not line.startswith("  "):
            run = {"words": line.split(), "output": b"", "messages": "", "status": 0}
            runs.append(run)
        elif line.startswith("  output "):
            run["output"] = content(line.removeprefix("  output "))
        elif line.startswith("  status "):
            run["status"] = int(line.removeprefix("  status "))
        else:
            run["messages"] += line.removeprefix("  ") + "\n"
    return runs


def is_named(run, name):
    return any(name in (word, os.path.splitext(word)[0]) for word in run["words"])


def with_workers(words, count):
    """The words with `--workers count` after the files, where they are those of a run by blocks."""
    if count is None:
        return words
    files = {"run": 2, "unpack": 1, "unhuff": 1, "lex": 2, "batch": 2}
    command = next((word for word in words if word in files), None)
    if command is None or "demo" in words or "--plain" in words:
        return None
    after = words.index(command) + 1 + files[command]
    if words[after:after + 1] == ["--block"]:
        after += 2
    return words[:after] + ["--workers", count] + words[after:]


def answer(words):
    """The output, the messages without those of the script ./spf, and the status."""
    done = subprocess.run([SPF] + words, cwd=HERE, capture_output=True)
    lines = done.stderr.decode(errors="replace").splitlines(keepends=True)
    messages = "".join(line for line in lines if not line.startswith("spf: "))
    return {"output": done.stdout, "messages": messages, "status": done.returncode}


def main():
    runs = read_runs()
    for name in sys.argv[1:]:
        if not any(is_named(run, name) for run in runs):
            sys.exit(f"there is no example {name}")
    bad = count = 0
    for run in runs:
        if sys.argv[1:] and not any(is_named(run, name) for name in sys.argv[1:]):
            continue
        for workers in WORKERS:
            words = with_workers(run["words"], workers)
            if words is None:
                continue
            got = answer(words)
            wrong = [part for part in got if got[part] != run[part]]
            count += 1
            bad += bool(wrong)
            print(f"{'WRONG ' + ', '.join(wrong) if wrong else 'ok':<8} spf {' '.join(words)}", flush=True)
            if "messages" in wrong or "status" in wrong:
                print(f"  status {got['status']}, wanted {run['status']}; messages {got['messages']!r}, wanted {run['messages']!r}", flush=True)
    print(f"{count} runs, {bad} wrong")
    sys.exit(1 if bad else 0)


main()
