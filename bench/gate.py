#!/usr/bin/env python3
"""What the gate costs: runs `rt ci` from nothing and prints its processor minutes, crate by crate.

python3 bench/gate.py          proves every crate anew, which takes as long as the gate from nothing
python3 bench/gate.py --kept   takes what earlier runs of the gate kept, so counts what is new alone
python3 bench/gate.py NAME..   the same for these crates and those below them

The processes of the run are looked at five times a second, so what a process does last may be missed.
The lines are rows of docs/GATE.md; the gate's own output goes to out/gate.log.
"""
import collections
import os
import subprocess
import sys
import time

TOP = os.path.dirname(os.path.dirname(os.path.abspath(__file__)))
TICKS = os.sysconf("SC_CLK_TCK")
KINDS = ["proof", "tests", "edits"]


def kind_of(words, folder):
    """What a process of the prover does, and for which crate; None of any other process."""
    if "--crate-name" not in words:
        return None
    crate = words[words.index("--crate-name") + 1]
    if os.path.basename(os.path.dirname(folder)).startswith("rt-edit") or "/rt-edit" in folder:
        return crate, "edits"
    return crate, "tests" if "--test" in words else "proof"


def look(session, seen):
    """Notes the processor seconds so far of the session's processes."""
    for pid in filter(str.isdigit, os.listdir("/proc")):
        try:
            with open(f"/proc/{pid}/stat", encoding="utf-8", errors="replace") as f:
                fields = f.read().rsplit(")", 1)[1].split()
            if int(fields[3]) != session:
                continue
            with open(f"/proc/{pid}/cmdline", "rb") as f:
                words = [w.decode("utf-8", "replace") for w in f.read().split(b"\0")]
            found = kind_of(words, os.readlink(f"/proc/{pid}/cwd"))
        except (OSError, IndexError):
            continue
        if found:
            seconds = (int(fields[11]) + int(fields[12])) / TICKS
            seen[(pid, fields[19])] = (found, seconds)


def main():
    names = [word for word in sys.argv[1:] if word != "--kept"]
    words = ["rt", "ci", *(names if sys.argv[1:] else ["--anew"])]
    os.makedirs(os.path.join(TOP, "out"), exist_ok=True)
    seen = {}
    start = time.time()
    with open(os.path.join(TOP, "out", "gate.log"), "w", encoding="utf-8") as log:
        gate = subprocess.Popen(words, cwd=TOP, stdout=log, stderr=log, start_new_session=True)
        while gate.poll() is None:
            look(gate.pid, seen)
            time.sleep(0.2)
    minutes = collections.Counter()
    for found, seconds in seen.values():
        minutes[found] += seconds / 60
    print("| Crate | " + " | ".join(k.capitalize() for k in KINDS) + " |")
    print("|---|" + "---|" * len(KINDS))
    for crate in sorted({c for c, _ in minutes}):
        print(f"| `{crate}` | " + " | ".join(f"{minutes[(crate, k)]:.1f}" for k in KINDS) + " |")
    totals = [sum(m for (_, k), m in minutes.items() if k == kind) for kind in KINDS]
    print("| all | " + " | ".join(f"{t:.1f}" for t in totals) + " |")
    clock = (time.time() - start) / 60
    print(f"\n{sum(totals):.0f} processor minutes, {clock:.0f} on the clock, {os.cpu_count()} processors")
    sys.exit(gate.returncode)


if __name__ == "__main__":
    main()
