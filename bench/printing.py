#!/usr/bin/env python3
"""Times `print` on units of functions, of which the text takes 1 MB and 8 MB.

Builds a small program over copies of the crates in a folder of its own, which proves what is not kept
on this machine yet. Prints of each size the seconds of a processor that one printing takes (of 20 more
than one, the best of three), the bytes a second, and the memory beside that of the tree for each byte
of the text; and how fast the time grows with the text: an exponent of 1 is linear. With `--keep FOLDER`
that folder is made or used again, and left.
"""
from measuring import measure, print_exponent
from program import build_program, work_folders

CRATES = ["cg_out", "c_text", "c_tree", "c_parts", "c_printed", "c_recut", "c_printer"]
NAME = "printing_bench"
RUNS, TIMES = 3, 20
SOURCE = r"""//! Builds a unit of as many functions as its first word says, and prints it as many times as its
//! second word says. Prints how many bytes its text takes.
#![tactic(auto)]

use c_printer::{Part, PrintUnit, print};
use c_text::{Constant, Place, Spelled};
use c_tree::{AssignOp, BinaryOp, CType, Expr, ExprKind, Field, Function, Stmt, StmtKind, Target};
use cg_out::{Boxed, List, Memory, Text};
use std::alloc::Global;
use std::process::ExitCode;
use std::env;
use std::io;

const BYTE: Spelled = Spelled::Exact { width: 8, signed: false };

fn nowhere() -> Place {
    Place { header: false, line: 0, start: 0, end: 0 }
}

fn expr(kind: ExprKind) -> Expr {
    Expr { place: nowhere(), kind }
}

fn number(value: u64, base: u8) -> Expr {
    expr(ExprKind::Constant(Constant { value, base, unsigned: true, longs: 0 }))
}

fn text(alloc: Global, bytes: &[u8]) -> Result<Text, Memory> {
    Text::copy_of(alloc, bytes)
}

fn binary(alloc: Global, op: BinaryOp, left: Expr, right: Expr) -> Result<Expr, Memory> {
    Ok(expr(ExprKind::Binary { op, left: Boxed::new(alloc, left)?, right: Boxed::new(alloc, right)? }))
}

fn cast(alloc: Global, inner: Expr) -> Result<Expr, Memory> {
    let operand = Boxed::new(alloc, expr(ExprKind::Bracket(Boxed::new(alloc, inner)?)))?;
    Ok(expr(ExprKind::Cast { to: BYTE, operand }))
}

/// `dst_p[K] |= (uint8_t)((uint8_t)(src_p->average_radius >> 3u) & 0x7fu);`
fn segment(alloc: Global, index: u64) -> Result<Stmt, Memory> {
    let base = text(alloc, b"dst_p")?;
    let target = expr(ExprKind::Element { base, index: Boxed::new(alloc, number(index, 10))? });
    let base = text(alloc, b"src_p")?;
    let field = text(alloc, b"average_radius")?;
    let member = expr(ExprKind::Member { base, field });
    let shifted = cast(alloc, binary(alloc, BinaryOp::ShiftRight, member, number(3, 10))?)?;
    let value = cast(alloc, binary(alloc, BinaryOp::BitAnd, shifted, number(127, 16))?)?;
    Ok(Stmt { place: nowhere(), kind: StmtKind::Assign { target, op: AssignOp::BitOr, value } })
}

fn parameter(alloc: Global, kind: CType, name: &[u8]) -> Result<Field, Memory> {
    Ok(Field { kind, name: text(alloc, name)?, place: nowhere() })
}

fn function(alloc: Global) -> Result<Function, Memory> {
    let mut params = List::new(alloc);
    params.push(parameter(alloc, CType::Pointer { target: Target::Byte, constant: false }, b"dst_p")?)?;
    let target = Target::Struct(text(alloc, b"vehicle_engine_status_t")?);
    params.push(parameter(alloc, CType::Pointer { target, constant: true }, b"src_p")?)?;
    let mut body = List::new(alloc);
    for index in 0..8u64 {
        body.push(segment(alloc, index)?)?;
    }
    Ok(Function {
        fixed: false,
        returns: CType::Void,
        name: text(alloc, b"vehicle_engine_status_pack")?,
        params,
        body: Some(body),
        place: nowhere(),
        close: nowhere(),
    })
}

fn unit(alloc: Global, functions: u64) -> Result<PrintUnit, Memory> {
    let mut parts = List::new(alloc);
    for _ in 0..functions {
        parts.push(Part::Function(function(alloc)?))?;
        parts.push(Part::Blank)?;
    }
    Ok(PrintUnit { parts })
}

fn printed(alloc: Global, functions: u64, times: u64) -> Result<usize, Memory> {
    let unit = unit(alloc, functions)?;
    let mut out = Vec::new(alloc);
    for _ in 0..times {
        out.clear();
        print(&unit, &mut out)?;
    }
    Ok(out.len())
}

fn shown(rt: &HostRuntime) -> io::Result<bool> {
    let alloc = rt.alloc();
    let mut words = env::args(rt)?.skip(1);
    let (Some(functions), Some(times)) = (words.next(), words.next()) else {
        return Ok(false);
    };
    let (Ok(functions), Ok(times)) = (functions.as_str().parse::<u64>(), times.as_str().parse::<u64>()) else {
        return Ok(false);
    };
    let Ok(bytes) = printed(alloc, functions, times) else {
        return Ok(false);
    };
    println!(rt; "{bytes}")?;
    Ok(true)
}

fn main(rt: HostRuntime) -> ExitCode {
    match shown(&rt) {
        Ok(true) => ExitCode::SUCCESS,
        _ => ExitCode::FAILURE,
    }
}
"""


def main():
    with work_folders() as (folder, scratch):
        program = build_program(folder, NAME, CRATES, "c_printer c_tree c_text cg_out", SOURCE)
        timings = []
        print(" ".join(f"{name:>12}" for name in ("functions", "bytes", "ms", "MB/s", "memory/text")))
        for functions in (1_500, 12_000):
            none, once, often = (measure([program, str(functions), str(n)], scratch, RUNS) for n in (0, 1, 1 + TIMES))
            size = int(once.output)
            used = (often.used - once.used) / TIMES
            row = [functions, size, f"{used * 1e3:.1f}", f"{size / used / 1e6:.0f}", f"{(once.peak - none.peak) / size:.2f}"]
            print(" ".join(f"{column:>12}" for column in row))
            timings.append((size, used))
        print_exponent(timings)


main()
