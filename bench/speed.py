#!/usr/bin/env python3
"""Times the decoders of examples/ on 1, 2 and 4 workers compared with a plain run, prints a table, and draws it as bench/speed.svg.

Inputs and blocks are those of inputs.py, with about 1 MB and about 4 MB; hpack, which has eight cells for each byte, has half of these.
Wall-clock times of whole runs, in rounds (rounds.py). Beside them stand the instructions for a byte more in order, counted by valgrind's
callgrind where it is installed. The picture shows the longer inputs. The first word may name the program that is timed in the place of
crates/spf/out/spf. Needs the built program (`./spf --build`) and idle cores.
"""

import os
import re
import shutil
import subprocess
import tempfile

from inputs import DECODERS, program_text, repeated
from rounds import HERE, Rounds, program

SPF = program()
WORKERS = [1, 2, 4]
ROUNDS = 7
SIZES = [1_000_000, 4_000_000]
COUNTED = [60_000, 120_000]


def held(folder, name, content):
    path = os.path.join(folder, name)
    with open(path, "wb") as file:
        file.write(content)
    return path


def instructions(folder, name, path):
    """The instructions of a run in order, for each byte that the input has more."""
    if not shutil.which("valgrind"):
        return "-"
    counts = []
    for size in COUNTED:
        content = repeated(name, size)
        words = [SPF, "run", path, held(folder, "counted", content), "--plain"]
        done = subprocess.run(["valgrind", "--tool=callgrind", "--callgrind-out-file=/dev/null", *words], capture_output=True)
        counts.append((len(content), int(re.search(rb"Collected : (\d+)", done.stderr)[1])))
    (few, less), (many, more) = counts
    return f"{(more - less) / (many - few):,.0f}"


def measure():
    """For each decoder its name, and how many times as fast as a plain run it is on the longer input, for each number of workers."""
    rows = []
    with tempfile.TemporaryDirectory() as folder:
        for name in DECODERS:
            path = held(folder, name + ".spf", program_text(name).encode())
            count = instructions(folder, name, path)
            for size in SIZES:
                content = repeated(name, size // 2 if name == "hpack" else size)
                run = [SPF, "run", path, held(folder, "input", content)]
                rounds = Rounds({"plain": run + ["--plain"]} | {n: run + ["--workers", str(n)] for n in WORKERS}, ROUNDS)
                ratios = [rounds.ratio("plain", n) for n in WORKERS]
                cells = [name, f"{len(content):,}", count, f"{rounds.seconds('plain'):.3f}"] + [f"{ratio:.2f}" for ratio in ratios]
                print("| " + " | ".join(cells) + " |", flush=True)
            rows.append((name, ratios))
    return rows


def drawn(rows):
    """Bars: how many times as fast as a plain run each decoder is, for each number of workers."""
    left, top, height, bar, gap = 60, 40, 220, 26, 34
    colors = ["#9ecae1", "#4292c6", "#08519c"]
    most = max([1.0] + [ratio for _, ratios in rows for ratio in ratios])
    group = bar * len(WORKERS) + gap
    width = left + group * len(rows) + 20
    scale = height / (int(most) + 1)
    parts = [
        f'<svg xmlns="http://www.w3.org/2000/svg" width="{width}" height="{top + height + 60}" font-family="sans-serif" font-size="12">',
        '<rect width="100%" height="100%" fill="white"/>',
        f'<text x="{left}" y="20">Times as fast as running the blocks in order (--plain)</text>',
    ]
    for n in range(int(most) + 2):
        y = top + height - n * scale
        parts.append(f'<line x1="{left}" y1="{y:.1f}" x2="{width - 20}" y2="{y:.1f}" stroke="{"#888" if n == 1 else "#ddd"}"/>')
        parts.append(f'<text x="{left - 8}" y="{y + 4:.1f}" text-anchor="end">{n}</text>')
    for place, (name, ratios) in enumerate(rows):
        x = left + place * group + gap / 2
        for i, ratio in enumerate(ratios):
            high = ratio * scale
            y = top + height - high
            parts.append(f'<rect x="{x + i * bar:.1f}" y="{y:.1f}" width="{bar - 3}" height="{high:.1f}" fill="{colors[i % 3]}"/>')
            parts.append(f'<text x="{x + i * bar + (bar - 3) / 2:.1f}" y="{y - 4:.1f}" text-anchor="middle" font-size="10">{ratio:.1f}</text>')
        parts.append(f'<text x="{x + bar * len(ratios) / 2:.1f}" y="{top + height + 18}" text-anchor="middle">{name}</text>')
    for i, n in enumerate(WORKERS):
        x = left + i * 110
        parts.append(f'<rect x="{x}" y="{top + height + 34}" width="12" height="12" fill="{colors[i % 3]}"/>')
        parts.append(f'<text x="{x + 18}" y="{top + height + 45}">{n} worker{"s" if n > 1 else ""}</text>')
    return "\n".join(parts + ["</svg>", ""])


def main():
    print("| Decoder | Bytes | Instructions a byte, in order | Plain run, seconds | " + " | ".join(f"{n} worker{'s' if n > 1 else ''}" for n in WORKERS) + " |")
    print("|---" * (4 + len(WORKERS)) + "|")
    rows = measure()
    with open(os.path.join(HERE, "speed.svg"), "w", encoding="utf-8") as file:
        file.write(drawn(rows))


main()
