#!/usr/bin/env python3
"""Asks gcc of the C texts that `cantoolc check` accepts.

Makes functions of the subset at random, damages most of them by a token or two, and checks each. gcc with
-std=c99 -pedantic-errors must take every text that is ok, under -m32 and under -m64. What is known is left
out: `check` takes a declaration as a branch of an `if`, and one or nothing behind a label, and C99 does not.
Prints the texts on which the two differ and how many were ok, and ends with 1 where there is one. Build the
program first (./run). It wants gcc, which needs no headers of another machine, since the C library's one is
written beside the text.

    against_gcc.py [TEXTS [SEED]]
"""
import os
import random
import subprocess
import sys
import tempfile

from program import run_program, want_program, want_tools

FRONT = """#include <stdbool.h>
#include <stddef.h>
#include <stdint.h>
#include <string.h>
struct s { int a; uint8_t b; };
static int g(int a, uint8_t b) { return a - b; }
"""
STRING_H = "#include <stddef.h>\nvoid *memset(void *s, int c, size_t n);\n"
TYPES = ["int", "unsigned char", "unsigned", "long", "unsigned long long", "uint8_t", "int16_t", "bool", "size_t", "signed char"]
OPERANDS = ["v", "w", "p->a", "p->b", "q[0]", "1", "2u", "0x1fUL", "3ll", "4294967295", "0xffffffffffffffff"]
BINARY = ["||", "&&", "|", "^", "&", "==", "!=", "<", ">", "<=", ">=", "<<", ">>", "+", "-"]
ASSIGN = ["=", "|=", "&=", "^=", "+=", "-=", "<<=", ">>="]
DAMAGE = "( ) { } [ ] ; , : -> = - ! ~ << * v p q g 1 NULL int uint8_t void const static struct if else switch case default break return".split()
WORDS_OF_TYPES = {word for spelling in TYPES for word in spelling.split()} | {"_Bool"}
MODELS = ("-m32", "-m64")


def arguments(rng, depth):
    return expression(rng, depth) + [","] + expression(rng, depth)


def expression(rng, depth):
    if depth == 0:
        return [rng.choice(OPERANDS)]
    inner = expression(rng, depth - 1)
    return rng.choice(
        [
            lambda: [rng.choice(OPERANDS)],
            lambda: inner + [rng.choice(BINARY)] + expression(rng, depth - 1),
            lambda: [rng.choice("-+~!")] + inner,
            lambda: ["(", rng.choice(TYPES), ")"] + inner,
            lambda: ["("] + inner + [")"],
            lambda: ["q", "["] + inner + ["]"],
            lambda: ["g", "("] + arguments(rng, depth - 1) + [")"],
            lambda: [rng.choice("pq"), rng.choice(["==", "!="]), "NULL"],
        ]
    )()


def simple(rng, may_break):
    forms = [
        lambda: [rng.choice(["v", "q[1]", "p->a"]), rng.choice(ASSIGN)] + expression(rng, 2),
        lambda: ["return"] + expression(rng, 2),
        lambda: [],
        lambda: ["g", "("] + arguments(rng, 1) + [")"],
        lambda: ["(", "void", ")", "v"],
        lambda: ["memset", "(", "q", ","] + expression(rng, 1) + [",", "8", ")"],
    ]
    if may_break:
        forms.append(lambda: ["break"])
    return rng.choice(forms)() + [";"]


def declaration(rng):
    name = f"x{rng.randint(0, 99999)}"
    return [rng.choice(TYPES), name] + rng.choice([[], ["="] + expression(rng, 2)]) + [";"]


def statement(rng, depth, may_break):
    if depth == 0:
        return simple(rng, may_break)
    return rng.choice(
        [
            lambda: simple(rng, may_break),
            lambda: ["if", "("] + expression(rng, 2) + [")"] + statement(rng, depth - 1, may_break),
            lambda: ["if", "("] + expression(rng, 2) + [")"] + statement(rng, depth - 1, may_break) + ["else"] + statement(rng, depth - 1, may_break),
            lambda: ["{"] + statements(rng, depth - 1, may_break) + ["}"],
            lambda: ["switch", "("] + expression(rng, 1) + [")", "{"] + parts(rng, depth - 1) + ["}"],
        ]
    )()


def statements(rng, depth, may_break):
    words = []
    for _ in range(rng.randint(0, 3)):
        words += declaration(rng) if rng.random() < 0.2 else statement(rng, depth, may_break)
    return words


def parts(rng, depth):
    words = []
    for _ in range(rng.randint(0, 3)):
        words += rng.choice([["default"], ["case", rng.choice(["1", "-1", "(2)", "- + 3", "-(4u)", "0xffffffff", "4294967297"])]]) + [":"]
        for _ in range(rng.randint(0, 2)):
            words += statement(rng, depth, True)
    return words


def damaged(rng, words):
    words = list(words)
    for _ in range(rng.choice([0, 1, 1, 2])):
        at = rng.randrange(len(words))
        words[at : at + rng.randint(0, 1)] = rng.choice([[], [rng.choice(DAMAGE)]])
    return words


def is_branch(text, line):
    """Whether gcc's error stands at a declaration that is a branch of an `if`."""
    column = int(line.split(":")[2])
    word = line.split("before ")[-1].strip(" ‘’'")
    return word in WORDS_OF_TYPES and text[: column - 1].rstrip().endswith((")", "else"))


def is_known(text, line):
    """Whether gcc's error is one of those that are left out."""
    return "label" in line or ("before " in line and is_branch(text, line))


def shown_by_gcc(option, folder, text):
    """What shows gcc that the last line of the text is no C, but for what is known."""
    words = ["gcc", option, "-std=c99", "-pedantic-errors", "-ffreestanding", "-isystem", ".", "-fsyntax-only", "-w", "s.c"]
    run = subprocess.run(words, cwd=folder, capture_output=True, text=True, check=False)
    errors = [line for line in run.stderr.splitlines() if "error:" in line]
    return [option + line for line in errors if not is_known(text, line)]


def main():
    want_program()
    want_tools("gcc")
    texts, seed = (int(word) for word in (sys.argv[1:] + ["2000", "1"][len(sys.argv) - 1 :]))
    rng = random.Random(seed)
    head = "int f ( int v , long w , struct s * p , uint8_t * q ) {".split()
    accepted, differ = 0, 0
    with tempfile.TemporaryDirectory() as folder:
        for name, content in (("h.h", ""), ("string.h", STRING_H)):
            with open(os.path.join(folder, name), "w", encoding="ascii") as f:
                f.write(content)
        for _ in range(texts):
            text = " ".join(damaged(rng, head + statements(rng, 3, False) + ["}"]))
            with open(os.path.join(folder, "s.c"), "w", encoding="ascii") as f:
                f.write(FRONT + text + "\n")
            status = run_program("check", "h.h", "s.c", folder=folder).returncode
            errors = [line for option in MODELS for line in shown_by_gcc(option, folder, text)] if status == 0 else []
            accepted += status == 0
            if errors or status not in (0, 3):
                differ += 1
                print(f"status {status}, gcc: {errors[:1]}\n    {text}")
    print(f"{texts} texts, {accepted} of them ok, gcc differs on {differ}")
    sys.exit(1 if differ else 0)


if __name__ == "__main__":
    main()
