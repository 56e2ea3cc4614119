"""The program that is measured, and scratch programs over the crates of the repository."""
import contextlib
import os
import shutil
import subprocess
import sys
import tempfile

TOP = os.path.dirname(os.path.dirname(os.path.abspath(__file__)))
PROGRAM = os.path.join(TOP, "crates", "cantoolc", "out", "cantoolc")


def want_program():
    """The script ends where the program is not built."""
    if not os.path.exists(PROGRAM):
        sys.exit("build the program first: ./run generate_c_source examples/can.dbc")


def want_tools(*names):
    """The script ends where one of these tools is not there."""
    lacking = [name for name in names if not shutil.which(name)]
    if lacking:
        sys.exit("not there: " + ", ".join(lacking))


def run_program(*words, folder=None):
    """What a run of the program with these words wrote, in a folder, and its status."""
    return subprocess.run([PROGRAM, *words], cwd=folder, capture_output=True, text=True, check=False)


def lay_out(folder, name, crates, depends, source):
    """A repository in the folder, of copies of these crates and a program of this source; gives the program's crate."""
    for crate in crates:
        for part in ("src", "specs", "proofs"):
            path, to = (os.path.join(top, "crates", crate, part) for top in (TOP, folder))
            shutil.rmtree(to, ignore_errors=True)
            if os.path.isdir(path):
                shutil.copytree(path, to)
    with open(os.path.join(TOP, "crates.txt"), encoding="utf-8") as f:
        lines = [line for line in f if line.split(":")[0] in crates]
    with open(os.path.join(folder, "crates.txt"), "w", encoding="utf-8") as f:
        f.write("".join(lines) + f"{name}: {depends}\n")
    crate = os.path.join(folder, "crates", name)
    os.makedirs(os.path.join(crate, "src"), exist_ok=True)
    with open(os.path.join(crate, "src", "main.rt"), "w", encoding="utf-8") as f:
        f.write(source)
    return crate


def try_program(name, crates, depends, source):
    """Runs such a program (`rt try`, which proves nothing): what it wrote."""
    with tempfile.TemporaryDirectory() as folder:
        crate = lay_out(folder, name, crates, depends, source)
        return subprocess.run(["rt", "try"], cwd=crate, capture_output=True, text=True, check=False)


def build_program(folder, name, crates, depends, source):
    """Such a program, built in the folder, which proves what is not kept on this machine yet; the script ends where it is not."""
    crate = lay_out(folder, name, crates, depends, source)
    for part in ("specs", "proofs"):
        os.makedirs(os.path.join(crate, part), exist_ok=True)
        open(os.path.join(crate, part, "Lib.antt"), "a", encoding="ascii").close()
    log = os.path.join(folder, "log")
    with open(log, "w", encoding="utf-8") as f:
        subprocess.run(["rt", "run"], cwd=crate, stdin=subprocess.DEVNULL, stdout=f, stderr=f, check=False)
    program = os.path.join(crate, "out", name)
    if not os.path.exists(program):
        with open(log, encoding="utf-8") as f:
            sys.exit("not built:\n" + "".join(f.readlines()[-20:]))
    return program


@contextlib.contextmanager
def work_folders():
    """The folder behind `--keep`, which is made or used again and left, or one that goes; and one that goes."""
    with tempfile.TemporaryDirectory() as scratch:
        folder = scratch
        if sys.argv[1:2] == ["--keep"]:
            folder = os.path.abspath(sys.argv[2])
            os.makedirs(folder, exist_ok=True)
        yield folder, scratch
