#!/usr/bin/env python3
"""Compares `cantoolc exec` with what gcc and clang make of the same functions.

Makes functions of the subset at random and calls each with random arguments, under LP64 with -m64, and under ILP32 with
-m32 where the compilers can link for it. Where `exec` says that a call
returns, the function that gcc and clang make of it, at -O0 and at -O2, gives the same value and leaves the same
objects, and the sanitizers of gcc report nothing. Where it says that a shift, an overflow, a null pointer or a bound is
undefined, the sanitizers report an error at that line, and none before it. Counted apart is what they do not look for
(a right shift of a negative number, a value that nothing gave, a function without its value), and what they do not see
there (a value that gcc drops, a cell far outside its object). Prints what differs and how many calls of each kind there
were, and ends with 1 where there is a difference. Build the program first (./run). It wants gcc and clang with their sanitizers.

    exec_against_gcc.py [PROGRAMS [SEED]]
"""
import collections
import os
import random
import re
import subprocess
import sys
import tempfile

from against_gcc import FRONT, statements
from program import PROGRAM, run_program, want_program, want_tools

HEAD = "int f{}(int v, unsigned w, struct s *p, uint8_t *q) {{"
BATCH = 25
BYTES = 8
CORNERS = [0, 1, 2, 3, 7, 8, 31, 32, 255, 256, 2147483647]
BUILDS = [(compiler, level) for compiler in ("gcc", "clang") for level in ("-O0", "-O2")]
MODELS = {"lp64": "-m64", "ilp32": "-m32"}
SANITIZED = "-fsanitize=undefined,address"
SHOWN = {"ShiftCount", "ShiftOverflow", "Overflow", "NullUse", "OutOfBounds"}
MAIN = """#include <stdio.h>
#include <stdlib.h>
#include <string.h>
#include <stdint.h>
struct s {{ int a; uint8_t b; }};
{prototypes}
static int (*const calls[])(int, unsigned, struct s *, uint8_t *) = {{ {names} }};
int main(int argc, char **argv) {{
    struct s *p = strcmp(argv[4], "null") ? malloc(sizeof *p) : 0;
    uint8_t *q = strcmp(argv[6], "null") ? malloc({bytes}) : 0;
    if (p) {{ p->a = atoi(argv[4]); p->b = (uint8_t)atoi(argv[5]); }}
    for (int i = 0; q && i < {bytes}; i++) {{ char two[3] = {{ argv[6][2 * i], argv[6][2 * i + 1], 0 }}; q[i] = (uint8_t)strtol(two, 0, 16); }}
    printf("return %d\\n", calls[atoi(argv[1])](atoi(argv[2]), (unsigned)strtoul(argv[3], 0, 10), p, q));
    if (p) printf("arg 3: a=%d b=%d\\n", p->a, p->b);
    if (q) {{ printf("arg 4: "); for (int i = 0; i < {bytes}; i++) printf("%02x", q[i]); printf("\\n"); }}
    return 0;
}}
"""


def function(rng, number):
    """A function on a line for each of its statements' words that end one, so that lines tell places."""
    words = statements(rng, 3, False) + statements(rng, 2, False)
    body = " ".join(words).replace("; ", ";\n").replace("{ ", "{\n")
    return HEAD.format(number) + "\n" + body + "\nreturn v; }\n"


def arguments(rng):
    number = lambda: rng.choice(CORNERS) if rng.random() < 0.6 else rng.randint(-50, 50)
    v, w = number(), abs(number())
    p = None if rng.random() < 0.05 else (number(), rng.randint(0, 255))
    q = None if rng.random() < 0.05 else bytes(rng.choice([0, 1, 2, 255, rng.randint(0, 255)]) for _ in range(BYTES)).hex()
    return v, w, p, q


def words_of(v, w, p, q):
    return [f"int:{v}", f"int:{w}", "null" if p is None else f"struct:a={p[0]},b={p[1]}", "null" if q is None else f"bytes:{q}"]


def native_words(number, v, w, p, q):
    a, b = ("null", "0") if p is None else (str(p[0]), str(p[1]))
    return [str(number), str(v), str(w), a, b, "null" if q is None else q]


def run(words, folder, **rest):
    return subprocess.run(words, cwd=folder, capture_output=True, text=True, check=False, **rest)


def write(folder, name, text):
    with open(os.path.join(folder, name), "w", encoding="ascii") as file:
        file.write(text)


def batch(rng, folder):
    """The text of functions that `check` and both compilers accept, numbered from 0."""
    readers = [[PROGRAM, "check", "h.h", "one.c"]]
    readers += [[compiler, "-std=c99", "-w", "-fsyntax-only", "one.c"] for compiler in ("gcc", "clang")]
    texts = []
    while len(texts) < BATCH:
        text = function(rng, len(texts))
        write(folder, "one.c", FRONT + text)
        if all(run(words, folder).returncode == 0 for words in readers):
            texts.append(text)
    return texts


def build(folder, option, files):
    """Whether all programs of these files could be built."""
    builds = [[compiler, level, "-o", f"{compiler}{level}"] for compiler, level in BUILDS]
    builds.append(["gcc", "-O0", "-g", SANITIZED, "-fno-sanitize-recover=undefined", "-o", "sanitized"])
    return all(run([*words, option, "-w", "-std=c99", *files], folder).returncode == 0 for words in builds)


def models(folder):
    """The models for which the compilers can build a program."""
    write(folder, "none.c", "int main(void) { return 0; }\n")
    return [model for model, option in MODELS.items() if build(folder, option, ["none.c"])]


def sanitized_line(folder, words):
    """The line of s.c at which the sanitizers report an error first."""
    ended = run(["./sanitized", *words], folder, env=dict(os.environ, ASAN_OPTIONS="detect_leaks=0"))
    found = re.search(r"s\.c:(\d+)", ended.stderr)
    return int(found.group(1)) if found and ended.returncode else None


def differs(folder, number, call, report):
    """How a call ended, and what shows that the compilers end it otherwise."""
    words = native_words(number, *call)
    if report.startswith("return"):
        for compiler, level in BUILDS:
            shown = run([f"./{compiler}{level}", *words], folder).stdout
            if shown != report:
                return "returned", f"{compiler} {level}: {shown}"
        line = sanitized_line(folder, words)
        return "returned", line and f"the sanitizers: line {line}"
    kind, line = re.fullmatch(r"undefined (\w+) source line (\d+)\n", report).groups()
    if kind not in SHOWN:
        return kind, None
    shown = sanitized_line(folder, words)
    if shown is None or shown > int(line):
        return kind + " unseen", None
    return kind, None if shown == int(line) else f"the sanitizers: line {shown}"


def main():
    want_program()
    want_tools("gcc", "clang")
    programs = int(sys.argv[1]) if len(sys.argv) > 1 else 500
    rng = random.Random(int(sys.argv[2]) if len(sys.argv) > 2 else 1)
    ends, wrong = collections.Counter(), 0
    with tempfile.TemporaryDirectory() as folder:
        write(folder, "h.h", "")
        known = models(folder)
        for _ in range(-(-programs // BATCH)):
            texts = batch(rng, folder)
            write(folder, "s.c", FRONT + "".join(texts))
            prototypes = "\n".join(HEAD.format(n)[:-2] + ";" for n in range(BATCH))
            names = ", ".join(f"f{n}" for n in range(BATCH))
            write(folder, "main.c", MAIN.format(prototypes=prototypes, names=names, bytes=BYTES))
            for model in known:
                if not build(folder, MODELS[model], ["main.c", "s.c"]):
                    sys.exit("the compilers refuse the functions")
                for number, text in enumerate(texts):
                    for _ in range(4):
                        call = arguments(rng)
                        report = run_program("exec", "h.h", "s.c", model, f"f{number}", *words_of(*call), folder=folder).stdout
                        kind, shown = differs(folder, number, call, report)
                        ends[kind] += 1
                        if shown:
                            wrong += 1
                            print(f"{report}{shown}\n{text}with {model} {words_of(*call)}", file=sys.stderr)
    print(f"{programs} programs, {' and '.join(known)}, {sum(ends.values())} calls: " + ", ".join(f"{count} {kind}" for kind, count in ends.most_common()))
    sys.exit(1 if wrong else 0)


if __name__ == "__main__":
    main()
