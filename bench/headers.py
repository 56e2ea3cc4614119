#!/usr/bin/env python3
"""Times `cantoolc generate_c_source` on databases of 1,024 and 16,384 messages.

Prints the time and the peak memory of each, and how fast they grow with the text: an exponent of 1
is linear. Build the program first (./run).
"""
import os
import tempfile

from measuring import exponent, measure
from program import PROGRAM, want_program

RUNS = 5


def database(messages):
    lines = ['VERSION ""', "BU_: X"]
    for i in range(messages):
        lines.append(f"BO_ {i | 1 << 31} MessageNumber{i}: {i % 9} X")
    return "\n".join(lines) + "\n"


def row(folder, messages):
    path = os.path.join(folder, f"bench{messages}.dbc")
    with open(path, "w", encoding="ascii") as f:
        f.write(database(messages))
    run = measure([PROGRAM, "generate_c_source", path], folder, RUNS)
    return os.path.getsize(path), run.seconds, run.peak // 1024


def main():
    want_program()
    with tempfile.TemporaryDirectory() as folder:
        rows = [row(folder, n) for n in (1024, 16384)]
    print(f"{'bytes of text':>14} {'seconds':>10} {'peak KiB':>10}")
    for size, seconds, peak in rows:
        print(f"{size:>14} {seconds:>10.4f} {peak:>10}")
    (small, quick, _), (large, slow, _) = rows
    print(f"exponent of time: {exponent(small, quick, large, slow):.2f}")


main()
