"""The program `ga_rows` compared with a careful one in Rust."""
import random
import statistics
import subprocess
import time

from counts import count_program
from lay import run_logged, stop
from table import aligned

PROGRAMS = ("ga_rows", "rows_careful")
MODES = ["dec 4", "dec 1", "dec 16", "hex 16", "hex 4", "back 4", "sum 4", "last 4"]
COUNTED, TIMED, ROUNDS = 1 << 20, 1 << 24, 5


def build_program(folder):
    """Proves and builds our program, in the copy of this checkout that is laid out."""
    crate = folder / "ours" / "crates" / "ga_rows"
    run_logged(["rt", "run"], folder / "program.log", cwd=crate, stdin=subprocess.DEVNULL)
    return crate / "out" / "ga_rows"


def put_input(folder, length):
    path = folder / f"input_{length}"
    if not path.exists():
        path.write_bytes(random.Random(1).randbytes(length))
    return path


def compare(programs, mode, given):
    """Stops where the programs write something else: a rest stands in the input."""
    ran = []
    for path in programs:
        with open(given, "rb") as file:
            how = {"stdin": file, "capture_output": True, "check": False}
            done = subprocess.run([path, *mode.split()], **how)
        ran.append((done.returncode, done.stdout))
    if ran[0] != ran[1]:
        stop(f"{' and '.join(PROGRAMS)} differ with {mode}")


def nanoseconds(command, given):
    with open(given, "rb") as file:
        start = time.monotonic()
        subprocess.run(command, stdin=file, stdout=subprocess.DEVNULL, check=False)
        return (time.monotonic() - start) * 1e9


def measure_mode(programs, mode, folder):
    """The line of a mode: instructions and nanoseconds for one byte of both, and their ratios."""
    compare(programs, mode, put_input(folder, 99_991))
    commands = [[path, *mode.split()] for path in programs]
    counts = []
    for command in commands:
        many, few = [
            count_program(command, put_input(folder, it), folder / "dump", folder / "callgrind.log")
            for it in (COUNTED, 0)
        ]
        counts.append((many - few) / COUNTED)
    given = put_input(folder, TIMED)
    rounds = [[nanoseconds(it, given) / TIMED for it in commands] for _ in range(ROUNDS)]
    times = [statistics.median(it) for it in zip(*rounds)]
    cells = [f"{a:.2f}/{b:.2f} {a / b:.2f}".split() for a, b in (counts, times)]
    return [mode, *cells[0], *cells[1]]


def measure_program(folder, careful):
    """The table of the program."""
    programs = [build_program(folder), careful]
    files = folder / "files"
    files.mkdir(exist_ok=True)
    head = ["ga_rows", "instructions a byte, ours/other", "ratio", "ns a byte, ours/other", "ratio"]
    return aligned(head, [measure_mode(programs, mode, files) for mode in MODES])
