"""Instructions, as callgrind counts them: of one call of a case, or of a whole program."""
import collections
import os
import re

from lay import run_logged

# Callgrind counts `rep stosb` and `rep movsb` once for each byte, so glibc is kept to vector code.
VECTORS = ":".join(
    f"glibc.cpu.x86_rep_{it}_threshold=10000000" for it in ("movsb", "stosb")
)
DUMPED = re.compile(r"^desc: Trigger: Client Request: (\S+)$", re.MULTILINE)
TOTAL = re.compile(r"^(?:summary|totals): (\d+)$", re.MULTILINE)


def callgrind(command, out, log, **how):
    flags = ["valgrind", "--tool=callgrind", f"--callgrind-out-file={out}"]
    environment = {**os.environ, "GLIBC_TUNABLES": VECTORS}
    run_logged([*flags, *map(str, command)], log, env=environment, **how)


def count_cases(driver, folder):
    """The instructions of one call on both sides, by case and kind: what more repeats cost more."""
    dumps = folder / "dumps"
    dumps.mkdir(exist_ok=True)
    for old in dumps.iterdir():
        old.unlink()
    callgrind([driver, "count"], dumps / "dump", folder / "callgrind.log")
    totals, counted = collections.defaultdict(dict), collections.defaultdict(dict)
    for path in dumps.iterdir():
        text = path.read_text(errors="replace")
        if name := DUMPED.search(text):
            case, kind, side, repeats = name[1].split("/")
            totals[case, kind, side][int(repeats)] = int(TOTAL.search(text)[1])
    for (case, kind, side), by in totals.items():
        few, many = sorted(by)
        counted[case, kind][side] = (by[many] - by[few]) / (many - few)
    return {case: (it["ours"], it["other"]) for case, it in counted.items()}


def count_program(command, given, out, log):
    """The instructions of a whole run on a file."""
    with open(given, "rb") as file:
        callgrind(command, out, log, stdin=file)
    return int(TOTAL.search(out.read_text(errors="replace"))[1])
