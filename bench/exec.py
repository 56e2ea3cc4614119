#!/usr/bin/env python3
"""Times `cantoolc exec` on generated pairs of C texts beside `check`, and on long functions.

Prints of each pair the bytes of both texts, the seconds of a processor (the best of three) and the peak memory of one
call and of `check`; then the same of functions of one shape (statements, labels, locals), at an eighth and whole, and
how fast the time of `exec` grows with the text: an exponent of 1 is linear. Build the program first (./run).

    exec.py [BYTES]      the larger pair has so many bytes, 8,000,000 if none are given
"""
import os
import sys
import tempfile

from check import RUNS, write_pair
from generated import write_source
from measuring import measure, print_exponent
from program import PROGRAM, want_program

CALL = ["lp64", "vehicle_message_0_pack", "raw:16", "struct:engine_speed=258,oil_temperature=3", "int:16"]
SHAPES = {
    "statements": (100_000, lambda n: "int f(int v) {\n" + "v ^= 1;\n" * n + "return v; }\n"),
    "labels of a switch": (65_536, lambda n: "int f(int v) { switch (v) {\n" + "".join(f"case {i}: v = {i};\n" for i in range(n)) + "} return v; }\n"),
    "locals of a function": (50_000, lambda n: "int f(int v) {\n" + "".join(f"int a{i} = v;\n" for i in range(n)) + f"return a{n - 1}; }}\n"),
    "functions": (100_000, lambda n: "".join(f"int f{i}(int a) {{ return a; }}\n" for i in range(n)) + "int f(int v) { return f1(f2(v)); }\n"),
}


def timed(folder, call):
    files = ["bench.h", "bench.c"]
    size = sum(os.path.getsize(os.path.join(folder, name)) for name in files)
    ours = measure([PROGRAM, "exec", *files, *call], folder, RUNS)
    beside = measure([PROGRAM, "check", *files], folder, RUNS)
    return size, ours, beside


def row(size, ours, beside, name):
    print(f"{size:>10} {ours.used:>10.3f} {ours.peak / 1e6:>10.1f} {beside.used:>10.3f} {beside.peak / 1e6:>10.1f} {ours.used / beside.used:>8.2f}   {name}")


def pairs(larger):
    for limit in (1_000_000, larger):
        with tempfile.TemporaryDirectory() as folder:
            write_pair(folder, limit)
            size, ours, beside = timed(folder, CALL)
        row(size, ours, beside, "pair")
        yield size, ours.used


def shape(name):
    whole, text = SHAPES[name]
    for count in (whole // 8, whole):
        with tempfile.TemporaryDirectory() as folder:
            write_source(folder, text(count))
            size, ours, beside = timed(folder, ["lp64", "f", "int:0"])
        row(size, ours, beside, f"{count} {name}")
        yield size, ours.used


def main():
    want_program()
    print(f"{'bytes':>10} {'exec s':>10} {'exec MB':>10} {'check s':>10} {'check MB':>10} {'ratio':>8}")
    larger = int(sys.argv[1]) if len(sys.argv) > 1 else 8_000_000
    for timings in (pairs(larger), *map(shape, SHAPES)):
        print_exponent(timings)


if __name__ == "__main__":
    main()
