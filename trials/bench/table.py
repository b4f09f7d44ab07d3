"""The table: a line for each case, and what they come to. The committed one says which cases there
are."""
import collections
import pathlib
import statistics

HERE = pathlib.Path(__file__).resolve().parent
HEAD = (
    "case | kind | group | instructions, ours/other | ratio | without what it is given"
    " | nanoseconds, ours/other | ratio"
).split(" | ")
# What is compared with plain Rust.
PLAIN = ("lists", "long arrays")


class Case(collections.namedtuple("Case", "name kind group")):
    """A call at a kind, as `map` at `u8_64`: its item and its length."""

    @property
    def item(self):
        return self.kind.split("_")[0]

    @property
    def length(self):
        return int(self.kind.split("_")[1])


def read_cases(path=HERE / "TABLE.md"):
    """The cases of the committed table. A new one is a line with a name, a kind and a group."""
    lines = path.read_text("utf-8").split("\n\n")[1].splitlines()[2:]
    return [Case(*[it.strip() for it in line.split("|")[:3]]) for line in lines]


class Row:
    """A case, its instructions and times of both sides, and what it is given costs."""

    def __init__(self, case, counted, times, contained):
        self.case, self.times = case, times.get((case.name, case.kind))
        self.counts = counted.get((case.name, case.kind))
        given = [counted.get((it, case.kind)) for it in contained]
        self.alone = None
        if self.counts and given and all(given):
            self.alone = [whole - sum(it) for whole, *it in zip(self.counts, *given)]

    def ratio(self, sides):
        # Where the other side's call costs nothing, there is no ratio.
        return sides[0] / sides[1] if sides and sides[1] >= 1 else None

    def cells(self):
        numbers = [
            *cells_of(self.counts, self.ratio(self.counts), "{:.0f}"),
            " = ".join(filter(None, cells_of(self.alone, self.ratio(self.alone), "{:.0f}"))),
            *cells_of(self.times, self.ratio(self.times), "{:.1f}"),
        ]
        return [*self.case, *numbers]


def cells_of(sides, ratio, form):
    both = "/".join(form.format(it) for it in sides or [])
    return [both, f"{ratio:.2f}" if ratio is not None else ""]


def read_times(text):
    times = {}
    for line in text.splitlines():
        name, kind, *medians = line.split(",")
        times[name, kind] = [float(it) for it in medians]
    return times


def aligned(head, lines):
    """Lines of cells below their heads, as a table of Markdown whose columns stand below each
    other."""
    widths = [max(map(len, column)) for column in zip(head, *lines)]
    lines = [head, ["-" * width for width in widths], *lines]
    joined = [" | ".join(cell.ljust(width) for cell, width in zip(line, widths)) for line in lines]
    return "".join(f"{line.rstrip()}\n" for line in joined)


def table_of(rows):
    return aligned(HEAD, [row.cells() for row in rows])


def summary_line(name, rows):
    """Medians by instructions and by time, and how many ratios are small or large."""
    cells = [name, str(len(rows))]
    for ratios in ([row.ratio(row.counts) for row in rows], [row.ratio(row.times) for row in rows]):
        ratios = [it for it in ratios if it is not None]
        few, many = sum(it < 1.005 for it in ratios), sum(it > 2 for it in ratios)
        cells += [f"{statistics.median(ratios):.2f}", str(few), str(many)] if ratios else [""] * 3
    return cells


def summary(rows):
    """A line for each group, and one for all cases compared with the Rust crate."""
    words = ["median", "at most 1.00", "above 2"]
    groups = dict.fromkeys(row.case.group for row in rows)
    lines = [summary_line(it, [row for row in rows if row.case.group == it]) for it in groups]
    compared = [row for row in rows if row.case.group not in PLAIN]
    head = ["ours/other", "cases", *words, *(f"{it}, by time" for it in words)]
    return aligned(head, [*lines, summary_line("all compared with the Rust crate", compared)])
