#!/usr/bin/env python3
"""Makes DBC databases and values at random, and compares `encode` and `decode` with canmatrix's.

The frame of a message's values must be canmatrix's, and so must the values of a frame of random bytes. Prints how many
agree, and ends with 1 where one does not. It wants python3-canmatrix, without which it compares nothing, and the program
built (./run).

    against_codec.py [SEED]
"""
import importlib.util
import os
import random
import sys
import tempfile

from against_canmatrix import file
from program import run_program, want_program

FILES = 60


def told(*words):
    """The report of these words."""
    run = run_program(*words)
    return run.stdout if run.returncode == 0 else f"status {run.returncode}"


def values(rng, signals):
    """A raw value for some of the signals."""
    chosen = {}
    for name, _, bits, _, signed, *_ in signals:
        low, high = (-(2 ** (bits - 1)), 2 ** (bits - 1) - 1) if signed else (0, 2**bits - 1)
        if rng.random() < 0.8:
            chosen[name] = rng.choice([low, high, rng.randint(low, high)])
    return chosen


def differences(rng, path, database, matrix):
    """The messages of a database on whose frames or values the two do not agree, and how many frames were compared."""
    found, count = [], 0
    for number, extended, name, length, _, _, signals in database:
        frame = next(f for f in matrix.frames if f.name == name)
        given = values(rng, signals)
        ours = told("encode", path, name, *(f"{k}={v}" for k, v in given.items()))
        theirs = bytes(frame.encode({s[0]: given.get(s[0], 0) for s in signals})).hex() + "\n"
        if ours != theirs:
            found.append(("encode", name, given, ours, theirs))
        data = rng.randbytes(length)
        ours = told("decode", path, str(number + (2**31 if extended else 0)), data.hex())
        decoded = frame.decode(data)
        theirs = "".join(f"{s[0]}={decoded[s[0]].raw_value}\n" for s in signals)
        if ours != theirs:
            found.append(("decode", name, data.hex(), ours, theirs))
        count += 2
    return found, count


def main():
    want_program()
    if not importlib.util.find_spec("canmatrix"):
        print("canmatrix is not there: nothing was compared")
        return
    import canmatrix.formats

    rng = random.Random(int(sys.argv[1]) if sys.argv[1:] else 1)
    compared, wrong = 0, 0
    for _ in range(FILES):
        database, text = file(rng)
        with tempfile.TemporaryDirectory() as folder:
            path = os.path.join(folder, "a.dbc")
            with open(path, "w", encoding="ascii") as f:
                f.write(text)
            found, count = differences(rng, path, database, canmatrix.formats.loadp_flat(path))
        compared += count
        wrong += len(found)
        for difference in found:
            print("not canmatrix's:", *difference, sep="\n  ")
    print(f"{compared} frames compared, {wrong} wrong")
    sys.exit(1 if wrong else 0)


if __name__ == "__main__":
    main()
