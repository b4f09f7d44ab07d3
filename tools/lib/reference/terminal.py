"""Prints what a name means: items, and rows of the documents."""
import re
import shutil
import subprocess
import sys

from reference.items import Items, part
from reference.layout import indent
from reference.lookup import MOST_ROWS
from reference.rows import OF_MESSAGES
from reference.text import Text


def of_kit(name, rows):
    """What the kit says of a word or a lemma of std that has a name, or else of those that have it
    as a part, but of a goal's name: of `wrapping_mul`, which is built in, `int_wrapping_mul`."""
    last, is_goal = re.split(r"::|\.", name)[-1], any(f"`{name}`" in row.theirs for row in rows)
    command = shutil.which("rt") and re.fullmatch(r"\S+", name)
    said = command and subprocess.run(["rt", "lemma", last], capture_output=True, text=True).stdout
    for named in (re.escape(last), rf"(?:\w+[_-])?{re.escape(last)}(?:[_-]\w+)?")[:2 - is_goal]:
        if found := re.findall(rf"(?m)^use \S+\.{{{named}}}.*\n(?: .*\n)*", said or ""):
            return [f"Of std, by `rt lemma {last}`", "", *"".join(found).splitlines()]
    return []


def unknown(names, name):
    """What is printed for a name that nothing has, and for words that stand in no row."""
    rows = "no row of " + " or ".join(f"docs/{document}.md" for document in OF_MESSAGES)
    return [f"tools/reference: {rows} has these words: give fewer, or read there."] if (
        " " in name) else [f"tools/reference: nothing is called {name}, and {rows} has it. Near it:",
                           *indent(names.near(name))]


def show(names, name):
    """Shows what a name means, or the rows that have a message's words, if there is such."""
    answer, items = names.answer(name), Items(names)
    is_known, rows = answer.first or answer.rows, names.rows_of_messages(name, answer)
    most = MOST_ROWS if is_known else len(rows)
    parts = [*(items.answer(answer) if is_known else ()), *items.rows(rows[:most]),
             *part("docs", f"And {len(rows) - most} more rows have it." * (len(rows) > most))]
    text = Text(names, shutil.get_terminal_size().columns)
    lines = [*([] if is_known else of_kit(name, rows)), *text.lines(parts)]
    print("\n".join(lines or unknown(names, name)).rstrip("\n"),
          file=sys.stdout if lines else sys.stderr)
