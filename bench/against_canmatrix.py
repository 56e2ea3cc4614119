#!/usr/bin/env python3
"""Makes DBC databases at random, and asks what is read of them.

A scratch program prints what `read_dbc` gives (`rt try`, without a proof): ids, names, lengths, cycles, comments, places,
signs, factors, offsets, limits, units, start values and choices. It must be what was written; and, where python3-canmatrix
is there, what that reads of the same files. Prints how many agree, and ends with 1 where one does not. It wants rt.

    against_canmatrix.py [SEED]
"""
import importlib.util
import random
import sys
import tempfile
from decimal import Decimal

from program import try_program

CRATES = ["limit_fraction", "cg_out", "name_table", "can_model", "dbc_reader", "dbc_build", "db_check", "db_text"]
FILES = 40
SOURCE = r"""//! What is read of texts.
#![tactic(auto)]

use cg_out::Text;
use db_text::read_dbc;
use limit_fraction::Decimal;
use std::io;

const TEXTS: &[&str] = &[@];

fn shown(text: &Text) -> &str {
    str::from_utf8(text.bytes()).unwrap_or("?")
}

fn mantissa(limit: Option<Decimal>) -> i128 {
    match limit {
        Some(decimal) => decimal.mantissa,
        None => 0,
    }
}

fn exponent(limit: Option<Decimal>) -> i16 {
    match limit {
        Some(decimal) => decimal.exponent,
        None => 0,
    }
}

fn main(rt: HostRuntime) -> io::Result<()> {
    for &text in TEXTS {
        println!(rt; "file")?;
        let Ok(checked) = read_dbc(rt.alloc(), text.as_bytes()) else {
            println!(rt; "refused")?;
            continue;
        };
        for m in checked.database().messages.items() {
            println!(rt; "message|{}|{}|{}|{}|{}|{}", m.id, m.extended, shown(&m.name), m.length, m.cycle.unwrap_or(0), shown(&m.comment))?;
            for s in m.signals.items() {
                println!(rt; "signal|{}|{}|{}|{}|{}", shown(&s.name), s.start, s.length, s.motorola, s.signed)?;
                println!(rt; "scale|{}e{}|{}e{}", s.factor.mantissa, s.factor.exponent, s.offset.mantissa, s.offset.exponent)?;
                println!(rt; "limits|{}|{}e{}|{}e{}", s.min.is_some(), mantissa(s.min), exponent(s.min), mantissa(s.max), exponent(s.max))?;
                println!(rt; "texts|{}|{}|{}|{}", shown(&s.unit), shown(&s.comment), s.initial.is_some(), s.initial.unwrap_or(0))?;
                for c in s.choices.items() {
                    println!(rt; "choice|{}|{}", c.value, shown(&c.name))?;
                }
            }
        }
    }
    Ok(())
}
"""


def number(rng):
    """A decimal, spelled one way of several."""
    return rng.choice(["0", "1", "0.5", "-0.25", "40", "1E1", "2.50", "1e-3", "+3", "-12.5E-1", str(rng.randrange(1000))])


def layout(rng, length):
    """Places of signals in a message of so many bytes, none of which overlap: start, length, Motorola."""
    found, at = [], 0
    while at < 8 * length:
        bits = rng.randrange(1, min(64, 8 * length - at) + 1)
        if rng.random() < 0.5:
            found.append((at, bits, False))
        elif at % 8 == 0:
            # From the top of a byte on: the bits of whole bytes, so that no other signal has a part of them.
            bits = min(8 * max(1, bits // 8), 64)
            found.append((at + 7, bits, True))
        at += bits
    return found


def message(rng, number_of_it):
    """A message as it is written: its values, and the lines of the text."""
    extended = rng.random() < 0.5
    length = rng.randrange(1, 65)
    name = f"Message{number_of_it}"
    key = number_of_it + 1 + (2**31 if extended else 0)
    cycle = rng.choice([0, 0, 10, 1000])
    comment = rng.choice(["", "what it says", "a; b: c"])
    lines, facts, signals = [f"BO_ {key} {name}: {length} {rng.choice(['X', 'Vector__XXX'])}"], [], []
    if cycle:
        facts.append(f'BA_ "GenMsgCycleTime" BO_ {key} {cycle};')
    if comment:
        facts.append(f'CM_ BO_ {key} "{comment}";')
    for i, (start, bits, motorola) in enumerate(layout(rng, length)):
        signal = f"Signal{i}"
        signed = rng.random() < 0.5
        factor, offset = number(rng), number(rng)
        low, high = rng.choice([("0", "0"), (number(rng), number(rng)), ("0.0", "-0")])
        unit = rng.choice(["", "km/h", "%"])
        lines.append(
            f' SG_ {signal} : {start}|{bits}@{0 if motorola else 1}{"-" if signed else "+"} ({factor},{offset}) [{low}|{high}] "{unit}" X'
        )
        least, most = (-(2 ** (bits - 1)), 2 ** (bits - 1) - 1) if signed else (0, 2**bits - 1)
        said = rng.choice(["", "of this signal"])
        if said:
            facts.append(f'CM_ SG_ {key} {signal} "old";')
            facts.append(f'CM_ SG_ {key} {signal} "{said}";')
        initial = rng.choice([None, least, most, most + 1])
        if initial is not None:
            facts.append(f'BA_ "GenSigStartValue" SG_ {key} {signal} {initial};')
        choices = [(v, f"name {v}") for v in rng.sample([least, 0, most, most + 1], rng.randrange(4))]
        if choices:
            facts.append(f"VAL_ {key} {signal} " + " ".join(f'{v} "{t}"' for v, t in choices) + " ;")
        limits = None if Decimal(low) == 0 and Decimal(high) == 0 else (Decimal(low), Decimal(high))
        kept = [(v, t) for v, t in choices if least <= v <= most]
        start_value = initial if initial is not None and least <= initial <= most else None
        signals.append((signal, start, bits, motorola, signed, Decimal(factor), Decimal(offset), limits, unit, said, start_value, kept))
    return (number_of_it + 1, extended, name, length, cycle, comment, signals), lines, facts


def file(rng):
    """A database as it is written, and its text."""
    made = [message(rng, n) for n in range(rng.randrange(1, 6))]
    lines = ['VERSION "1"', "NS_ :", "\tCM_", "BS_:", "BU_: X"]
    for _, of_message, _ in made:
        lines += of_message + [""]
    facts = [fact for _, _, of_message in made for fact in of_message]
    lines += ['BA_DEF_ BO_ "GenMsgCycleTime" INT 0 65535;', 'BA_DEF_DEF_ "GenMsgCycleTime" 0;'] + facts
    return [m for m, _, _ in made], "\n".join(lines) + "\n"


def read(texts):
    """What the scratch program prints of these texts, as databases."""
    quoted = ", ".join('"' + t.replace("\\", "\\\\").replace('"', '\\"').replace("\n", "\\n").replace("\t", "\\t") + '"' for t in texts)
    run = try_program("database_shown", CRATES, "db_text db_check can_model cg_out limit_fraction", SOURCE.replace("@", quoted))
    databases = []
    for line in run.stdout.splitlines():
        kind, *parts = line.split("|")
        if kind == "file":
            databases.append([])
        elif kind == "refused":
            databases[-1] = None
        elif kind == "message":
            databases[-1].append((int(parts[0]), parts[1] == "true", parts[2], int(parts[3]), int(parts[4]), parts[5], []))
        elif kind == "signal":
            signal = [parts[0], int(parts[1]), int(parts[2]), parts[3] == "true", parts[4] == "true"]
        elif kind == "scale":
            signal += [Decimal(parts[0]), Decimal(parts[1])]
        elif kind == "limits":
            signal += [(Decimal(parts[1]), Decimal(parts[2])) if parts[0] == "true" else None]
        elif kind == "texts":
            signal += [parts[0], parts[1], int(parts[3]) if parts[2] == "true" else None, []]
            databases[-1][-1][-1].append(signal)
        elif kind == "choice":
            signal[-1].append((int(parts[0]), parts[1]))
    if len(databases) != len(texts):
        sys.exit(f"the program printed {len(databases)} databases of {len(texts)}:\n{run.stdout[-2000:]}{run.stderr[-2000:]}")
    return [d and [m[:-1] + ([tuple(s) for s in m[-1]],) for m in d] for d in databases]


def loaded(text):
    """What canmatrix reads of a text, as far as it keeps it."""
    import canmatrix.formats

    with tempfile.NamedTemporaryFile("w", suffix=".dbc", encoding="ascii") as f:
        f.write(text)
        f.flush()
        matrix = canmatrix.formats.loadp_flat(f.name)
    return {
        frame.name: {
            s.name: (s.get_startbit(bit_numbering=1), s.size, not s.is_little_endian, s.is_signed, s.factor, s.offset, s.comment or "", s.unit)
            for s in frame.signals
        }
        for frame in matrix.frames
    }


def seen(database):
    """The same of a database that was read here."""
    return {m[2]: {s[0]: (s[1], s[2], s[3], s[4], s[5], s[6], s[9], s[8]) for s in m[6]} for m in database}


def main():
    rng = random.Random(int(sys.argv[1]) if sys.argv[1:] else 1)
    files = [file(rng) for _ in range(FILES)]
    found = read([text for _, text in files])
    beside = importlib.util.find_spec("canmatrix")
    wrong = signals = 0
    for (made, text), database in zip(files, found):
        signals += sum(len(m[6]) for m in made)
        if database != made:
            wrong += 1
            print(f"not read as written:\n{text}\n{made}\n{database}")
        elif beside and loaded(text) != seen(database):
            wrong += 1
            print(f"not as canmatrix reads it:\n{text}\n{loaded(text)}\n{seen(database)}")
    print(f"{FILES} files with {signals} signals, {wrong} wrong" + ("" if beside else "; canmatrix is not there"))
    sys.exit(1 if wrong else 0)


if __name__ == "__main__":
    main()
