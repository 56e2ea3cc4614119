#!/usr/bin/env python3
"""Makes DBC databases at random, and gives what `cantoolc generate_c_source` writes of them to C compilers.

Each NAME.h, included twice, and each NAME.c that stands beside it must compile without a warning with gcc and with clang,
under -m32 too, and with avr-gcc: -std=c99 -Wall -Wextra -Wpedantic -Wconversion -Werror. Where a pack function of a message
is there, it is built with each compiler whose programs run here, at -O0 and at -O2, and called with the least, the
greatest and random values of the fields: its frame must be that which `encode` tells, no byte behind it may change, and a
buffer that is a byte too short must stay as it was. Messages and signals are named like words of C too, and so that their
identifiers collide. A compiler that is not there, or cannot do its part, is skipped and named. Prints how much was
compiled and compared, and ends with 1 where something is wrong. Build the program first (./run).

    against_compilers.py [--databases N] [--seed N]      200 databases and the seed 1 if none are given
"""
import argparse
import os
import random
import re
import shutil
import subprocess
import sys
import tempfile
from typing import NamedTuple

from against_canmatrix import file
from program import run_program, want_program

STRICT = ["-std=c99", "-Wall", "-Wextra", "-Wpedantic", "-Wconversion", "-Werror"]
COMPILERS = {
    "gcc": ["gcc"],
    "clang": ["clang"],
    "gcc -m32": ["gcc", "-m32"],
    "clang -m32": ["clang", "-m32"],
    "avr-gcc": ["avr-gcc", "-mmcu=atmega328p"],
}
LEVELS = ["-O0", "-O2"]
# Where the C library's headers are not there for a machine, the compiler's own ones and this one are.
STRING_H = "#include <stddef.h>\nvoid *memset(void *s, int c, size_t n);\n"
FREESTANDING = ["-ffreestanding", "-isystem", "standard"]
INCLUDES = "#include <stdbool.h>\n#include <stddef.h>\n#include <stdint.h>\n#include <string.h>\n"
NOTHING = "int main(void)\n{\n    return 0;\n}\n"
NAMES = ["int", "Int", "INT", "True", "size", "dst_p", "memset", "EINVAL", "uint8_t", "EngineSpeed", "Engine_Speed", "engineSpeed2", "x", "X", "_", "__a", "S" * 100]
MESSAGE_H = re.compile(r"int (\w+)\(uint8_t \*dst_p, const struct (\w+) \*src_p, size_t size\);")
FIELD_H = re.compile(r"\b(u?)int(8|16|32|64)_t (\w+);")
ROUNDS = 3
BEHIND = "a5"
SHOW = """
static void show(int given, const uint8_t *bytes, unsigned count)
{
    unsigned i;
    printf("%d ", given);
    for (i = 0; i < count; i++) printf("%02x", bytes[i]);
    printf("\\n");
}
"""


class Field(NamedTuple):
    """A field of a struct: its name, and the values that it holds."""

    name: str
    signed: bool
    bits: int

    def bounds(self):
        return (-(2 ** (self.bits - 1)), 2 ** (self.bits - 1) - 1) if self.signed else (0, 2**self.bits - 1)


class Call(NamedTuple):
    """A call of a pack function: its name, its struct with the values of the fields, the buffer's and the message's bytes."""

    function: str
    tag: str
    values: dict
    size: int
    length: int


def write(folder, name, text):
    with open(os.path.join(folder, name), "w", encoding="ascii") as f:
        f.write(text)


def run(words, folder):
    return subprocess.run(words, cwd=folder, capture_output=True, text=True, check=False)


def renamed(rng, made, text):
    """The database with other names, which differ in each message, and its text."""
    counts = [len(made), max(len(m[6]) for m in made)]
    fresh = [rng.sample(NAMES, min(len(NAMES), n)) + [f"Name{i}" for i in range(n)] for n in counts]
    names = [f"Message{i}" for i in range(counts[0])], [f"Signal{i}" for i in range(counts[1])]
    other = {name: fresh[kind][i] for kind in (0, 1) for i, name in enumerate(names[kind])}
    text = re.sub(r"\b(?:Message|Signal)\d+\b", lambda found: other[found.group()], text)
    return [(*m[:2], other[m[2]], *m[3:6], [(other[s[0]], *s[1:]) for s in m[6]]) for m in made], text


def usable(folder):
    """The compilers that are there, with what they need beside their words, and why the others are skipped."""
    write(folder, "probe.c", INCLUDES + NOTHING)
    os.makedirs(os.path.join(folder, "standard"), exist_ok=True)
    write(folder, "standard/string.h", STRING_H)
    found, skipped = {}, {}
    for name, words in COMPILERS.items():
        if not shutil.which(words[0]):
            skipped[name] = "not there"
            continue
        for beside in ([], FREESTANDING):
            if run([*words, *beside, *STRICT, "-c", "probe.c", "-o", "probe.o"], folder).returncode == 0:
                found[name] = words + beside
                break
        else:
            skipped[name] = "compiles nothing here"
    return found, skipped


def runs(folder, program):
    """Whether this machine runs the program, which may be another one's."""
    try:
        return run([program], folder).returncode == 0
    except OSError:
        return False


def linking(folder, found):
    """Those of the compilers whose programs run here."""
    write(folder, "none.c", "#include <stdio.h>\n" + INCLUDES + NOTHING)
    return {name: words for name, words in found.items() if run([*words, "none.c", "-o", "none"], folder).returncode == 0 and runs(folder, "./none")}


def refused(folder, compilers, stem, files):
    """The compilers that do not take the header and the source, with what they say."""
    write(folder, "twice.c", f'#include "{stem}.h"\n#include "{stem}.h"\n' + NOTHING)
    sources = ["twice.c"] + [name for name in files if name.endswith(".c")]
    for name, words in compilers.items():
        for source in sources:
            compiled = run([*words, *STRICT, "-c", source, "-o", "object.o"], folder)
            if compiled.returncode:
                yield name, source, compiled.stderr


def packs(folder, stem):
    """The pack functions of a header with their structs' tags and fields, in the order of the messages."""
    with open(os.path.join(folder, stem + ".h"), encoding="ascii") as f:
        header = re.sub(r"/\*.*?\*/", "", f.read(), flags=re.DOTALL)
    bodies = dict(re.findall(r"struct (\w+) \{(.*?)\};", header, flags=re.DOTALL))
    for function, tag in MESSAGE_H.findall(header):
        yield function, tag, [Field(name, not unsigned, int(bits)) for unsigned, bits, name in FIELD_H.findall(bodies[tag])]


def chosen(rng, fields, signals):
    """Lists of values of the fields: the least and the greatest ones, and random ones; a dummy field has any."""
    bounds = [field.bounds() for field in fields]
    yield [low for low, _ in bounds]
    yield [high for _, high in bounds]
    for _ in range(ROUNDS):
        raw = [(-(2 ** (s[2] - 1)), 2 ** (s[2] - 1) - 1) if s[4] else (0, 2 ** s[2] - 1) for s in signals]
        yield [rng.choice([low, high, rng.randint(low, high)]) if rng.random() < 0.7 else rng.randint(*field) for field, (low, high) in zip(bounds, raw or bounds)]


def literal(value):
    """A number as C, of any size."""
    if value == -(2**63):
        return "(-9223372036854775807ll - 1ll)"
    return f"{value}ll" if value < 2**63 else f"{value}ull"


def called(call):
    """The C that makes a call and shows it."""
    count = call.length + 1
    values = "".join(f"        values.{name} = {literal(value)};\n" for name, value in call.values.items())
    return (
        f"    {{\n        struct {call.tag} values;\n        uint8_t bytes[{count}];\n"
        f"        memset(&values, 0, sizeof values);\n        memset(bytes, 0x{BEHIND}, sizeof bytes);\n{values}"
        f"        show({call.function}(bytes, &values, {call.size}), bytes, {count});\n    }}\n"
    )


def calls(rng, folder, made, found):
    """Calls of the pack functions of a database, each with the line that it is to show."""
    for message, (function, tag, fields) in zip(made, found):
        _, _, name, length, _, _, signals = message
        for values in chosen(rng, fields, signals):
            words = [f"{s[0]}={v}" for s, v in zip(signals, values)]
            frame = run_program("encode", "a.dbc", name, *words, folder=folder).stdout.strip()
            of_fields = {field.name: value for field, value in zip(fields, values)}
            yield Call(function, tag, of_fields, length, length), f"{length} {frame}{BEHIND}"
        if length:
            yield Call(function, tag, of_fields, length - 1, length), f"-22 {BEHIND * (length + 1)}"


def differing(folder, compilers, stem, wanted):
    """The calls whose programs show something else, by compiler and level."""
    body = "".join(called(call) for call, _ in wanted)
    write(folder, "harness.c", f'#include <stdio.h>\n#include <string.h>\n#include "{stem}.h"\n{SHOW}\nint main(void)\n{{\n{body}    return 0;\n}}\n')
    for name, words in compilers.items():
        for level in LEVELS:
            built = run([*words, level, "-std=c99", "-w", "harness.c", stem + ".c", "-o", "harness"], folder)
            shown = run(["./harness"], folder).stdout.splitlines() if built.returncode == 0 else []
            if len(shown) != len(wanted):
                yield name, level, "not built, or it ended early", built.stderr[-500:]
                continue
            for (call, line), found in zip(wanted, shown):
                if line != found:
                    yield name, level, f"{call}: wanted {line}, found {found}", ""


class Counts(NamedTuple):
    """Of one database: whether a source was written, how many calls were compared, and what is wrong."""

    sources: int
    compared: int
    wrong: list


def ask(rng, folder, compilers, runners):
    """Generates, compiles and calls what is written of one random database."""
    made, text = renamed(rng, *file(rng))
    write(folder, "a.dbc", text)
    generated = run_program("generate_c_source", "a.dbc", folder=folder)
    files = generated.stdout.split()
    if generated.returncode or "a.h" not in files:
        return Counts(0, 0, [("generate_c_source", generated.stdout + generated.stderr, text)])
    wrong = list(refused(folder, compilers, "a", files))
    if "a.c" not in files:
        return Counts(0, 0, wrong)
    found = list(packs(folder, "a"))
    if found and len(found) != len(made):
        wrong.append(("header", f"{len(found)} pack functions of {len(made)} messages", text))
    wanted = list(calls(rng, folder, made, found))
    if wanted:
        wrong += differing(folder, runners, "a", wanted)
    return Counts(1, len(wanted) * len(runners) * len(LEVELS), wrong)


def main():
    options = argparse.ArgumentParser()
    options.add_argument("--databases", type=int, default=200)
    options.add_argument("--seed", type=int, default=1)
    given = options.parse_args()
    want_program()
    rng = random.Random(given.seed)
    counts = []
    with tempfile.TemporaryDirectory() as folder:
        compilers, skipped = usable(folder)
        runners = linking(folder, compilers)
        if not compilers:
            sys.exit("no C compiler is there")
        for _ in range(given.databases):
            counts.append(ask(rng, folder, compilers, runners))
            for difference in counts[-1].wrong:
                print("wrong:", *difference, sep="\n  ")
    wrong = sum(len(count.wrong) for count in counts)
    sources = sum(count.sources for count in counts)
    compared = sum(count.compared for count in counts)
    print(f"{given.databases} databases, {sources} of them with a source; compiled with {', '.join(compilers)}")
    print(f"{compared} calls of pack functions compared, built with {', '.join(runners) or 'nothing'}")
    for name, why in skipped.items():
        print(f"skipped: {name} ({why})")
    print(f"{wrong} wrong")
    sys.exit(1 if wrong else 0)


if __name__ == "__main__":
    main()
