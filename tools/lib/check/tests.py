"""Every test of every crate, and each program, unproved: `rt ci` proves them.

A program is run as `rt ci` runs it: with the file `stdin` of its crate, to print what `stdout` has
and to end with `status`.
"""
import functools
import re

from check.building import Run, run_all
from check.copies import TOP
from check.running import Seen, differences

# What is printed of all tests of a crate, and the last line of `rt try` where a program ended.
RESULT = re.compile(rb"^test result: .* (\d+) passed; (\d+) failed", re.M)
ENDED = re.compile(rb"^run=ended status=(\d+) .*\n\Z", re.M)


class Tests(Run):
    """The tests of a crate."""

    def __init__(self, crate, kind="tests"):
        super().__init__(crate, kind, ["--test"])

    def judge(self):
        result = RESULT.search(self.seen.out)
        passed, failed = map(int, result.groups()) if result else (0, 0)
        is_right = passed and not failed and not self.seen.status
        text = (self.seen.out + self.seen.err).decode(errors="replace").strip()
        title = f"{self.name}: {passed + failed} {self.kind}"
        return title, "" if is_right else f"{failed or 'all'} of them fail: {text}"


class Program(Run):
    """A crate that is a program, with the files next to its src/."""

    def __init__(self, crate):
        super().__init__(crate, "program", given=bytes_in(crate, "stdin"))

    def judge(self):
        ended = ENDED.search(self.seen.err)
        status, out = int(bytes_in(self.crate, "status") or 0), bytes_in(self.crate, "stdout")
        seen = Seen(ended and int(ended[1]), self.seen.out, b"")
        wrong = differences(seen, Seen(status, out, b""))
        text = self.seen.err.decode(errors="replace").strip()
        return f"{self.name}: the program", wrong and f"{wrong}: {text}"


def bytes_in(crate, name):
    return (crate / name).read_bytes() if (crate / name).exists() else b""


@functools.lru_cache(None)
def runs():
    """The tests of each crate that has some, the longest first, and the programs."""
    crates = sorted((TOP / "crates").iterdir())
    texts = {it: "".join(file.read_text("utf-8") for file in it.glob("src/**/*.rt"))
             for it in crates}
    with_tests = [it for it in crates if re.search(r"(?m)^\s*#\[test\]$", texts[it])]
    programs = [Program(it) for it in crates if (it / "src" / "main.rt").exists()]
    return [*map(Tests, sorted(with_tests, key=lambda it: -len(texts[it]))), *programs]


def run(tally, words):
    run_all(tally, runs(), words)
