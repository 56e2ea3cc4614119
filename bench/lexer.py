#!/usr/bin/env python3
"""Times `tokens` and `expand` on generated C of 8 MB and of nearly 64 MiB.

Builds a small program over copies of the crates in a folder of its own, which proves what is not kept
on this machine yet. Prints of each run the seconds and the seconds of a processor (the best of three,
reading and freeing included), the bytes a second and the time a byte by the latter, the peak memory
and that beside the text for each token; and how fast the time grows with the text: an exponent of 1 is
linear. `expand` cuts the text first, and takes it as a source with an empty header. With
`--keep FOLDER` that folder is made or used again, and left.
"""
import os

from generated import pack, signals
from measuring import exponent, measure
from program import build_program, work_folders

CRATES = ["cg_out", "c_text", "c_lexer", "c_pre"]
NAME = "lexer_bench"
COLUMNS = ["call", "bytes", "tokens", "left", "macros", "seconds", "processor", "MB/s", "ns/byte", "peak MB", "B/token"]
LIMIT = 67_108_864
RUNS = 3
SOURCE = r"""//! Reads the file of its second word; by its first, `tokens` cuts it and `expand` preprocesses it as
//! a source besides. Prints how many bytes, tokens, tokens that are left and macros there are.
#![tactic(auto)]

use c_lexer::{SOURCE_LIMIT, tokens};
use c_text::CFault;
use c_pre::expand;
use std::alloc::Global;
use std::io::{ErrorKind, Read};
use std::process::ExitCode;
use std::rt::Files;
use std::{env, fs, io};

const PIECE: usize = 16384;

/// The file's bytes, in a Vec of which only the pages are touched that they fill.
fn read_text<R: Files>(rt: &R, alloc: Global, path: &str) -> io::Result<Vec<u8>> {
    let mut file = fs::open(rt, path)?;
    let mut text = Vec::with_capacity(alloc, SOURCE_LIMIT)?;
    let mut piece = [0u8; PIECE];
    for _ in 0..u64::MAX {
        let taken = file.read(&mut piece)?;
        if taken == 0 {
            return Ok(text);
        }
        text.extend_from_slice(&piece[..taken])?;
    }
    Err(ErrorKind::Other.into())
}

/// How many tokens there are, and where they are preprocessed how many are left and how many macros.
fn counts(alloc: Global, word: &str, text: &[u8]) -> Result<(usize, usize, usize), CFault> {
    if word == "read" || text.len() > SOURCE_LIMIT {
        return Ok((0, 0, 0));
    }
    let list = tokens(alloc, text, false)?;
    if word == "tokens" {
        return Ok((list.len(), 0, 0));
    }
    let left = expand(alloc, &[], b"bench.h", &list)?;
    Ok((
        list.len(),
        left.tokens.items().len(),
        left.macros.items().len(),
    ))
}

fn shown(rt: &HostRuntime) -> io::Result<bool> {
    let alloc = rt.alloc();
    let mut words = env::args(rt)?.skip(1);
    let (Some(word), Some(path)) = (words.next(), words.next()) else {
        return Ok(false);
    };
    let text = read_text(rt, alloc, path.as_str())?;
    let bytes = text.len();
    let Ok((all, left, macros)) = counts(alloc, word.as_str(), &text) else {
        return Ok(false);
    };
    println!(rt; "{bytes} {all} {left} {macros}")?;
    Ok(true)
}

fn main(rt: HostRuntime) -> ExitCode {
    match shown(&rt) {
        Ok(true) => ExitCode::SUCCESS,
        _ => ExitCode::FAILURE,
    }
}
"""

MESSAGES = ["abs_data", "engine_status", "gateway_wakeup", "motor_torque", "steering_angle_sensor"]


def message(number):
    return f"vehicle_{MESSAGES[number % 5]}_{number}", signals(number)


def defines(number):
    name, names = message(number)
    upper = name.upper()
    lines = [
        f"/* Message {name} */",
        f"#define {upper}_FRAME_ID (0x{number & 0x7FF:x}u)",
        f"#define {upper}_LENGTH ({2 * len(names)}u)",
        f"#define {upper}_IS_EXTENDED ({number % 2})",
        "",
        "/**",
        f" * Signals in message {name}.",
        " *",
        " * All signal values are as on the CAN bus.",
        " */",
        f"struct {name}_t {{",
    ]
    for signal in names:
        lines += ["    /**", "     * Range: -", "     * Scale: 1", "     * Offset: 0", "     */", f"    uint16_t {signal};", ""]
    return lines + ["};", ""]


def functions(number):
    return pack(*message(number))


def joined(lines):
    return "\n".join(lines) + "\n"


def write_text(path, limit):
    """Writes a header's part and a source's part for so many messages that the text stays below the limit."""
    front = ["/* Generated from a CAN database. Do not edit. */", "", "#ifndef VEHICLE_H", "#define VEHICLE_H", ""]
    front += ["#include <stdbool.h>", "#include <stddef.h>", "#include <stdint.h>", "#include <string.h>", ""]
    front += ["#ifndef EINVAL", "#define EINVAL 22", "#endif", ""]
    end = ["#endif", ""]
    size, messages = len(joined(front)) + len(joined(end)), 0
    while True:
        size += len(joined(defines(messages))) + len(joined(functions(messages)))
        if size >= limit:
            break
        messages += 1
    with open(path, "w", encoding="ascii") as f:
        f.write(joined(front))
        for number in range(messages):
            f.write(joined(defines(number)))
        f.write(joined(end))
        for number in range(messages):
            f.write(joined(functions(number)))


def main():
    with work_folders() as (folder, scratch):
        program = build_program(folder, NAME, CRATES, "c_pre c_lexer c_text cg_out", SOURCE)
        rows = []
        print(" ".join(f"{name:>10}" for name in COLUMNS))
        for size in (8_000_000, LIMIT):
            path = os.path.join(scratch, f"bench{size}.c")
            write_text(path, size)
            for word in ("read", "tokens", "expand"):
                seconds, used, peak, output = measure([program, word, path], scratch, RUNS)
                length, tokens, left, macros = (int(count) for count in output.split())
                beside = f"{(peak - length) / tokens:.1f}" if tokens else ""
                row = [word, length, tokens, left, macros, f"{seconds:.3f}", f"{used:.3f}", f"{length / used / 1e6:.1f}"]
                row += [f"{used / length * 1e9:.2f}", f"{peak / 1e6:.1f}", beside]
                print(" ".join(f"{column:>10}" for column in row))
                rows.append((word, length, used))
    for word in ("tokens", "expand"):
        (small, quick), (large, slow) = [(length, used) for w, length, used in rows if w == word]
        print(f"exponent of time of {word}: {exponent(small, quick, large, slow):.2f}")


main()
