"""A page that a newcomer follows: what it has one write, run and see.

A block of code says what it is behind its language. `rust FILE`, `antt FILE` and `c FILE` are a
whole file, and `diff FILE` is a change of one: its lines with `-` stand there once. `console` has
commands behind `$ `, each with lines that it prints in this order, among others: `..` in one stands
for any text. A command without lines has to end well. `../mine` is a new folder for each page.

What `rt lib` has proved in this checkout is proved already; else the first check of a page proves
it, for some ten minutes.
"""
import re
import tempfile
import time

from check.copies import TOP
from check.running import call

BLOCK = re.compile(r"(?ms)^```(rust|antt|diff|console|c) ?(\S*)\n(.*?)^```$")
COMMAND = re.compile(r"(?m)^\$ (.*?)(?: *#.*)?\n((?:(?!\$ ).*\n)*)")
MINE = "../mine"


def changed_text(text, change):
    """A file's text with the lines of a change: those with `-` go, those with `+` stand there then.
    A change without `-` is added at the end."""
    lines = change.splitlines()
    old = "\n".join(it[1:] for it in lines if not it.startswith("+"))
    new = "\n".join(it[1:] for it in lines if not it.startswith("-"))
    if not old:
        return f"{text.rstrip()}\n{new}\n"
    if text.count(old) != 1:
        raise ValueError(f"stands {text.count(old)} times, and not once: {old}")
    return text.replace(old, new)


def first_missing(text, wanted):
    """The first of the wanted parts that isn't printed behind the others, or nothing: a part is a
    line, or what stands between two `..` of one."""
    text, at = " ".join(text.split()), 0
    for part in (" ".join(it.split()) for line in wanted.splitlines() for it in line.split("..")):
        at = text.find(part, at)
        if at < 0:
            return part
        at += len(part)
    return None


def run_command(tally, page, command, wanted, folder, mine):
    """Runs a command, which prints what is wanted."""
    begun = time.monotonic()
    status, text = call("bash", "-c", command.replace(MINE, mine), cwd=folder)
    lacks = first_missing(text.replace(mine, MINE), wanted)
    wrong = f"it doesn't print {lacks!r}" if lacks else ""
    if status and not wanted.strip():
        wrong = f"it ends with {status}"
    took = "" if wrong else f", {time.monotonic() - begun:.0f} s"
    tally.case(f"{page}: {command}{took}", wrong and f"{wrong}, but {text[-2000:]}")


def run_page(tally, page):
    mine, folder = f"{tempfile.mkdtemp()}/mine", TOP
    blocks = BLOCK.findall((TOP / page).read_text("utf-8"))
    tally.case(f"{page}: blocks of commands", "" if blocks else "there are none")
    for kind, file, text in blocks:
        path = folder / file
        if kind == "console":
            for command, wanted in COMMAND.findall(text):
                if command.startswith("cd "):
                    folder = folder / command[3:].replace(MINE, mine)
                else:
                    run_command(tally, page, command, wanted, folder, mine)
        elif file:
            path.parent.mkdir(parents=True, exist_ok=True)
            try:
                path.write_text(changed_text(path.read_text(), text) if kind == "diff" else text)
            except (OSError, ValueError) as why:
                tally.case(f"{page}: a change of {file}", why)


def run(tally, words):
    for page in words or ("README.md", "docs/TOUR.md", "docs/FROM_RUST.md"):
        run_page(tally, page)
