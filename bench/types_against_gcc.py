#!/usr/bin/env python3
"""Asks gcc of the types of integers that `Widths` computes.

For every pair of the eleven types their common type, for each its promoted type, and for constants of every
base and suffix at the limits of every type their types, under ILP32 (gcc -m32) and under LP64 (gcc -m64). A
scratch program prints what `Widths` says (`rt try`, without a proof); gcc compares the types of expressions.
Prints how many agree, and ends with 1 where one does not. It wants gcc and rt.

    types_against_gcc.py
"""
import re
import subprocess
import sys

from program import try_program, want_tools

CRATES = ["cg_out", "c_text", "c_tree", "c_mean", "c_widths"]
KINDS = {
    "Bool": "_Bool",
    "SignedChar": "signed char",
    "UnsignedChar": "unsigned char",
    "Short": "short",
    "UnsignedShort": "unsigned short",
    "Int": "int",
    "UnsignedInt": "unsigned int",
    "Long": "long",
    "UnsignedLong": "unsigned long",
    "LongLong": "long long",
    "UnsignedLongLong": "unsigned long long",
}
MODELS = [("32, 32, 32", "-m32"), ("32, 64, 64", "-m64")]
SPELLED = {8: lambda n: f"0{n:o}", 10: str, 16: hex}
EDGES = sorted({0, 1} | {2**bits + more for bits in (7, 8, 15, 16, 31, 32, 63) for more in (-1, 0, 1)} | {2**64 - 1})
CONSTANTS = [
    (number, base, unsigned, longs)
    for number in EDGES
    for base in SPELLED
    for unsigned in (False, True)
    for longs in (0, 1, 2)
    if number or base == 10  # the digit 0 alone is decimal here
]


def program():
    """The source of the scratch program."""
    kinds = ", ".join(f"IntType::{kind}" for kind in KINDS)
    constants = ",\n    ".join(f"({n}, {base}, {str(unsigned).lower()}, {longs})" for n, base, unsigned, longs in CONSTANTS)
    body = "".join(
        f"""    for &kind in KINDS {{
        println!(rt; "{{:?}}", Widths::<{model}>::promote(kind))?;
    }}
    for &left in KINDS {{
        for &right in KINDS {{
            let (left, right) = (Widths::<{model}>::promote(left), Widths::<{model}>::promote(right));
            println!(rt; "{{:?}}", Widths::<{model}>::common(left, right))?;
        }}
    }}
    for &(value, base, unsigned, longs) in CONSTANTS {{
        let constant = Constant {{ value, base, unsigned, longs }};
        match Widths::<{model}>::constant_type(&constant) {{
            Some(kind) => println!(rt; "{{:?}}", kind)?,
            None => println!(rt; "None")?,
        }}
    }}
"""
        for model, _ in MODELS
    )
    return f"""//! Types as `Widths` computes them.
#![tactic(auto)]

use c_mean::{{Constant, IntType}};
use c_widths::Widths;
use std::io;

const KINDS: &[IntType] = &[{kinds}];

const CONSTANTS: &[(u64, u8, bool, u8)] = &[
    {constants},
];

fn main(rt: HostRuntime) -> io::Result<()> {{
{body}    Ok(())
}}
"""


def computed():
    """What the program prints: for each model the promoted types, the common types and those of constants."""
    run = try_program("types_table", CRATES, "c_widths c_mean c_text", program())
    found = [line for line in run.stdout.splitlines() if line in KINDS or line == "None"]
    each = len(KINDS) + len(KINDS) ** 2 + len(CONSTANTS)
    if len(found) != each * len(MODELS):
        sys.exit(f"the program printed {len(found)} types:\n{run.stdout[-2000:]}{run.stderr[-2000:]}")
    return [found[i * each : (i + 1) * each] for i in range(len(MODELS))]


def expressions():
    """The expressions whose types these are, in the order of the program."""
    spelled = list(KINDS.values())
    yield from (f"+({kind})0" for kind in spelled)
    yield from (f"({left})0 + ({right})0" for left in spelled for right in spelled)
    for number, base, unsigned, longs in CONSTANTS:
        yield SPELLED[base](number) + "u" * unsigned + "l" * longs


def differences(option, kinds):
    """The lines on which gcc says otherwise; a constant that no type holds is none of C's, and is left out."""
    lines = [
        f'_Static_assert(__builtin_types_compatible_p(__typeof__({expression}), {KINDS[kind]}), "{expression} is no {KINDS[kind]}");'
        for expression, kind in zip(expressions(), kinds)
        if kind != "None"
    ]
    words = ["gcc", "-std=c99", option, "-w", "-fsyntax-only", "-x", "c", "-"]
    run = subprocess.run(words, input="\n".join(lines) + "\n", capture_output=True, text=True, check=False)
    return len(lines), re.findall(r"static assertion failed: (.*)", run.stderr) or ([run.stderr] if run.returncode else [])


def main():
    want_tools("gcc", "rt")
    bad = False
    for (model, option), kinds in zip(MODELS, computed()):
        asked, found = differences(option, kinds)
        print(f"{option}: {asked} types, gcc differs on {len(found)}", *found[:5], sep="\n    ")
        bad = bad or bool(found)
    sys.exit(1 if bad else 0)


main()
