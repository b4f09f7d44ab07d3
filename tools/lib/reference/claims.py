"""Checks that whatever a document calls tested names its test.

A claim is a paragraph, an item of a list or a cell of a table that says "tested", or that stands
below a heading, a lead-in or a column's title that does. It names a test as `module::test`, a file
of `trials/`, or a part of `tools/check` as code. What says "not tested" or "nor tested" names none.
"""
import re

from reference.paths import is_named
from reference.rows import CODE, blocks_of, documents

DOCUMENTS = ("README.md", "docs/TRUST.md", "crates/*/README.md", "trials/**/README.md")
TEST = re.compile(r"(?m)^ *#\[test\]\n(?: *#\[.*\n)* *fn (\w+)")
TESTED, UNTESTED = re.compile(r"(?i)\btested\b"), re.compile(r"(?i)\b(?:not|nor)\s+tested\b")
PART = re.compile(r"^tools/check (\w+).*")


class Tests:
    """The tests of the crates and of trials/, by their names, with the parts of their paths."""

    def __init__(self, top):
        self.top, self.paths, self.modules = top, {}, set()
        for file in (*top.glob("crates/*/src/**/*.rt"), *top.glob("trials/**/*.rattle")):
            path = file.relative_to(top).with_suffix("").parts
            for name in TEST.findall(file.read_text("utf-8")):
                self.paths.setdefault(name, []).append([*path, name])
                self.modules.add(path[-1])

    def has(self, code):
        """Whether code is the path of a test."""
        parts = code.split("::")
        return len(parts) > 1 and any(
            is_named(path, parts) for path in self.paths.get(parts[-1], ()))

    def is_witness(self, code):
        """Whether code names a test, a file of trials/ or a part of `tools/check`."""
        file = PART.sub(r"tools/lib/check/\1.py", code)
        is_test = file.startswith("trials/") and not file.endswith(".md")
        return self.has(code) or (file != code or is_test) and (self.top / file).is_file()


def claims_of(text):
    """The claims of a document, each with its line."""
    above = lead = ""
    for line, heading, titles, cells in blocks_of(text):
        lead, above = lead * (heading == above), heading
        for title, cell in zip(titles or [heading], cells):
            said = f"{title} {lead * cell.startswith('- ')} {cell}"
            if cell.endswith(":"):
                lead = cell
            elif cell and TESTED.search(said) and not UNTESTED.search(cell):
                yield line, cell


def check_claims(names):
    """Looks at each claim for its test."""
    tests = Tests(names.site.top)
    for place, text in documents(names.site.top, *DOCUMENTS):
        for line, claim in claims_of(text):
            is_right = any(map(tests.is_witness, CODE.findall(claim)))
            yield None if is_right else f"{place}:{line}: it names no test: {claim}"
