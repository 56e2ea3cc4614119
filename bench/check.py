#!/usr/bin/env python3
"""Times `cantoolc check` on generated pairs of C texts beside `gcc -std=c99 -fsyntax-only`.

Prints of each pair the bytes of both texts, the seconds of a processor (the best of three) and the
peak memory of each program, and how fast the time of `check` grows with the text: an exponent of 1
is linear. Then the same of texts with a fault at the end of one long call, and of texts of one shape (many
functions, fields, locals, labels, calls), at an eighth and whole, without gcc. Build the program first
(./run). Where there is no gcc, its columns stay empty.

    check.py [BYTES]      the larger pair has so many bytes, 8,000,000 if none are given
"""
import os
import shutil
import sys
import tempfile

from generated import pack, signals, write_source
from measuring import measure, print_exponent
from program import PROGRAM, want_program

RUNS = 3
INCLUDES = ["#include <stddef.h>", "#include <stdint.h>", "#include <string.h>", ""]
HELPERS = [
    "static uint8_t pack_left_shift_u16(uint16_t value, uint8_t shift, uint8_t mask)",
    "{",
    "    return (uint8_t)((uint8_t)(value << shift) & mask);",
    "}",
    "",
    "static uint8_t pack_right_shift_u16(uint16_t value, uint8_t shift, uint8_t mask)",
    "{",
    "    return (uint8_t)((uint8_t)(value >> shift) & mask);",
    "}",
    "",
]


def message(number):
    return f"vehicle_message_{number}", signals(number)


def header(number):
    name, names = message(number)
    lines = [f"#define {name.upper()}_LENGTH ({2 * len(names)}u)", "", f"struct {name}_t {{"]
    for signal in names:
        lines += ["    /**", "     * Scale: 1", "     * Offset: 0", "     */", f"    uint16_t {signal};", ""]
    return lines + ["};", "", f"int {name}_pack(uint8_t *dst_p, const struct {name}_t *src_p, size_t size);", ""]


def source(number):
    return pack(*message(number))


def write_pair(folder, limit):
    """Two texts with as many messages as fit into so many bytes."""
    front = ["#ifndef BENCH_H", "#define BENCH_H", ""] + INCLUDES + ["#ifndef EINVAL", "#define EINVAL 22", "#endif", ""]
    size, messages = 0, 0
    while size < limit:
        size += sum(len(line) + 1 for line in header(messages) + source(messages))
        messages += 1
    with open(os.path.join(folder, "bench.h"), "w", encoding="ascii") as f:
        f.write("\n".join(front) + "\n")
        for number in range(messages):
            f.write("\n".join(header(number)) + "\n")
        f.write("#endif\n")
    with open(os.path.join(folder, "bench.c"), "w", encoding="ascii") as f:
        f.write("\n".join(INCLUDES + ['#include "bench.h"', ""] + HELPERS) + "\n")
        for number in range(messages):
            f.write("\n".join(source(number)) + "\n")
    return sum(os.path.getsize(os.path.join(folder, name)) for name in ("bench.h", "bench.c"))


def write_damaged(folder, arguments):
    """A source that is one call with so many arguments, of which the last is two names."""
    return write_source(folder, "int f(void) { return f(" + "a - b, " * arguments + "a b); }\n")


def whole_pairs(larger):
    """Of pairs without a fault: the bytes and the time, printed beside gcc's."""
    gcc = shutil.which("gcc")
    for limit in (1_000_000, larger):
        with tempfile.TemporaryDirectory() as folder:
            size = write_pair(folder, limit)
            ours = measure([PROGRAM, "check", "bench.h", "bench.c"], folder, RUNS)
            beside = ("", "")
            if gcc:
                theirs = measure([gcc, "-std=c99", "-fsyntax-only", "bench.c"], folder, RUNS)
                beside = (f"{theirs.used:.3f}", f"{theirs.peak / 1e6:.1f}")
        print(f"{size:>10} {ours.used:>10.3f} {ours.peak / 1e6:>10.1f} {beside[0]:>10} {beside[1]:>10}")
        yield size, ours.used


def damaged_pairs():
    """Of pairs with a fault in the last of many arguments: the bytes and the time."""
    for arguments in (100_000, 1_000_000):
        with tempfile.TemporaryDirectory() as folder:
            size = write_damaged(folder, arguments)
            ours = measure([PROGRAM, "check", "bench.h", "bench.c"], folder, RUNS, status=3)
        print(f"{size:>10} {ours.used:>10.3f} {ours.peak / 1e6:>10.1f}   damaged")
        yield size, ours.used


SHAPES = {
    "functions": (100_000, lambda n: "".join(f"int f{i}(int a) {{ return a; }}\n" for i in range(n))),
    "fields of a struct": (30_000, lambda n: "struct s {\n" + "".join(f"int a{i};\n" for i in range(n)) + "};\nint f(struct s *p) { return p->a0; }\n"),
    "locals of a function": (50_000, lambda n: "void f(void) {\n" + "".join(f"int a{i} = 1;\n" for i in range(n)) + "}\n"),
    "labels of a switch": (65_536, lambda n: "void f(int v) { switch (v) {\n" + "".join(f"case {i}: break;\n" for i in range(n)) + "} }\n"),
    "calls of a function": (20_000, lambda n: "int g(int a) { return a; }\nvoid f(void) {\n" + "g(1);\n" * n + "}\n"),
}


def shape(name):
    """Of texts of this shape: the bytes and the time."""
    whole, text = SHAPES[name]
    for count in (whole // 8, whole):
        with tempfile.TemporaryDirectory() as folder:
            size = write_source(folder, text(count))
            ours = measure([PROGRAM, "check", "bench.h", "bench.c"], folder, RUNS)
        print(f"{size:>10} {ours.used:>10.3f} {ours.peak / 1e6:>10.1f}   {count} {name}")
        yield size, ours.used


def main():
    want_program()
    print(f"{'bytes':>10} {'check s':>10} {'check MB':>10} {'gcc s':>10} {'gcc MB':>10}")
    larger = int(sys.argv[1]) if len(sys.argv) > 1 else 8_000_000
    for pairs in (whole_pairs(larger), damaged_pairs(), *map(shape, SHAPES)):
        print_exponent(pairs)


if __name__ == "__main__":
    main()
