"""How much time and memory a program takes, and how fast the time grows."""
import math
import os
import subprocess
import sys
import time
from typing import NamedTuple


class Run(NamedTuple):
    """The best of some runs: seconds, seconds of a processor, peak memory in bytes, and the output.

    The peak is at least that of the script that measures, some 15 MB.
    """

    seconds: float
    used: float
    peak: int
    output: bytes


def measure(words, folder, runs, status=0):
    """Runs a program some times in a folder; the script ends where it does not exit with the status."""
    seconds, used, peak, output = math.inf, math.inf, 0, b""
    for _ in range(runs):
        start = time.perf_counter()
        process = subprocess.Popen(words, cwd=folder, stdout=subprocess.PIPE, stderr=subprocess.DEVNULL)
        output = process.stdout.read()
        _, ended, usage = os.wait4(process.pid, 0)
        seconds = min(seconds, time.perf_counter() - start)
        used = min(used, usage.ru_utime + usage.ru_stime)
        peak = max(peak, usage.ru_maxrss * 1024)
        if os.waitstatus_to_exitcode(ended) != status:
            sys.exit(f"{' '.join(words)} ended otherwise than with {status}")
    return Run(seconds, used, peak, output)


def exponent(small, quick, large, slow):
    """How fast the time grows from a small text to a large one: 1 is linear."""
    return math.log(slow / quick) / math.log(large / small)


def print_exponent(timings):
    """Prints how fast the time grows, of the sizes and seconds of a small and a large text."""
    (small, quick), (large, slow) = timings
    print(f"exponent of time: {exponent(small, quick, large, slow):.2f}")
