#!/usr/bin/env python3
"""Times `cantoolc generate_c_source` on whole DBC databases, from 1,024 to 32,768 signals.

Prints the bytes of each text and of the pair that is written of it, the seconds, the peak memory, which part that is of 20
times the text and twice the pair, and how fast the time grows (an exponent of 1 is linear): with few and with many signals a message, with a comment, an attribute and choices
for each signal, with names that are long and alike or have one identifier, and with many statements that speak of one
signal; and those of `encode` and `decode` beside reading and checking alone. Beside it, where python3-canmatrix is there,
the time in which that loads the same file. Build the program first (./run).
"""
import importlib.util
import os
import sys
import tempfile

from measuring import measure, print_exponent
from program import PROGRAM, want_program

RUNS = 3
LOAD = "import sys, canmatrix.formats as f; f.loadp_flat(sys.argv[1])"


def short(i):
    """A name of a few bytes."""
    return f"Signal{i}"


def alike(i):
    """A name of 60 bytes that differs at its end alone."""
    return f"{'A' * 52}{i:08d}"


def one_identifier(i):
    """A name whose identifier is that of all others of its kind: one line or two between its letters."""
    return "a" + "".join("__b" if i >> k & 1 else "_b" for k in range(15))


def database(count, a_message, rich=False, name_of=short):
    """The lines of a text of so many signals of 4 bits, so many a message, each with what is said of it if asked."""
    yield 'VERSION ""'
    yield "BU_: X Y"
    all_names = [name_of(i) for i in range(count)]
    for first in range(0, count, a_message):
        of_message = all_names[first : first + a_message]
        yield f"BO_ {2147483648 + first // a_message} Message{first // a_message}: {(len(of_message) + 1) // 2} X"
        for i, name in enumerate(of_message):
            yield f' SG_ {name} : {4 * i}|4@1+ (0.5,-10) [-10|-2.5] "km/h" Y'
    for i, name in enumerate(all_names if rich else []):
        key = f"{2147483648 + i // a_message} {name}"
        yield f'CM_ SG_ {key} "what the signal means";'
        yield f'BA_ "GenSigStartValue" SG_ {key} {i % 16};'
        yield f'VAL_ {key} 0 "Off" 1 "On" 2 "Fault" 3 "Unknown" ;'


def of_one_signal(count):
    """The lines of a text of so many comments on one signal."""
    yield "BO_ 1 A: 8 X"
    yield ' SG_ S : 0|8@1+ (1,0) [0|0] "" X'
    for _ in range(count):
        yield 'CM_ SG_ 1 S "a";'


SHAPES = {
    "8 signals a message": ((1024, 32768), lambda n: database(n, 8)),
    "4,096 signals a message": ((4096, 32768), lambda n: database(n, 4096)),
    "with comments, start values and choices": ((1024, 32768), lambda n: database(n, 8, rich=True)),
    "names that are long and alike": ((1024, 32768), lambda n: database(n, 8, name_of=alike)),
    "names of one identifier": ((1024, 32768), lambda n: database(n, 4096, name_of=one_identifier)),
    "statements of one signal": ((12500, 400000), of_one_signal),
}


def row(folder, name, lines):
    path = os.path.join(folder, "bench.dbc")
    with open(path, "w", encoding="ascii") as f:
        f.writelines(line + "\n" for line in lines)
    size = os.path.getsize(path)
    run = measure([PROGRAM, "generate_c_source", path], folder, RUNS)
    beside = ""
    if importlib.util.find_spec("canmatrix"):
        beside = f"{measure([sys.executable, '-c', LOAD, path], folder, 1).used:.2f}"
    pair = sum(os.path.getsize(os.path.join(folder, f"bench.{kind}")) for kind in "hc")
    part = run.peak / (20 * size + 2 * pair)
    print(f"{size:>10} {pair:>10} {run.used:>9.4f} {run.peak / 1e6:>9.1f} {part:>7.2f} {beside:>10}   {name}")
    return size, run.used


def print_codec(a_message):
    """The seconds of `encode` and `decode` of one message of 32,768 signals, beside reading and checking alone."""
    with tempfile.TemporaryDirectory() as folder:
        path = os.path.join(folder, "bench.dbc")
        with open(path, "w", encoding="ascii") as f:
            f.writelines(line + "\n" for line in database(32768, a_message))
        words = [f"{short(i)}={i % 16}" for i in range(a_message)]
        frame = "5a" * ((a_message + 1) // 2)
        # Without such a message nothing is done behind the check.
        alone = measure([PROGRAM, "encode", path, "Nope"], folder, RUNS, 2).used
        encode = measure([PROGRAM, "encode", path, "Message0", *words], folder, RUNS).used
        decode = measure([PROGRAM, "decode", path, str(2**31), frame], folder, RUNS).used
        print(f"checked {alone:.4f}, encode {encode:.4f}, decode {decode:.4f}   {a_message} signals a message")


def main():
    want_program()
    print(f"{'bytes':>10} {'of pair':>10} {'seconds':>9} {'peak MB':>9} {'part':>7} {'canmatrix':>10}")
    for name, (counts, text) in SHAPES.items():
        with tempfile.TemporaryDirectory() as folder:
            print_exponent(row(folder, name, text(n)) for n in counts)
    for a_message in (8, 4096):
        print_codec(a_message)


main()
