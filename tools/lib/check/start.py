"""tools/start, after `rt ci`.

From a copy of this checkout it starts a crate on each library, and runs the commands that are
printed: the test, unproved, and the proof, which must prove nothing of the libraries. The proof is
run where they are proved in this checkout and not edited since; ga_views is proved first where it
isn't, in two minutes. Then it makes calls that must be refused, and an update.
"""
import pathlib
import re
import tempfile

from check.copies import copy, take_proved, write
from check.running import at_once, call
from start.crates import LICENSE, LIST, OURS, PARTS, crates_for, is_proved
from start.first import ON

# Calls that must be refused: what they are, their words, a part of what is printed.
BAD_CALLS = [
    ("no crate is named", "there", "error: FOLDER NAME"),
    ("a library that is none", "there mine --on ga_core,ga_rows", "error: FOLDER NAME"),
    ("a word of the language", "there match", "match is a keyword"),
    ("a crate that is there", "there first", "there/crates/first is there already"),
    ("a crate of ours that is theirs", "theirs mine", "theirs/crates/ga_views is there already"),
    ("an update of what wasn't started", "--update theirs", "no crates that tools/start copied"),
]
# What these calls name, and a repository that is there before a crate is started in it.
FILES = {
    "theirs/crates/ga_views/src/lib.rt": "", "there/crates/first/src/lib.rt": "#![tactic(auto)]\n",
    f"there/{LIST}": "first:   hex # by hand\n", "there/HANDLES": "Handles allowed: Threads.\n",
    "there/.gitignore": "*.swp\n", "checkout/CHANGELOG.md": "## 0.1.0\n",
}
# What is added to its files.
ADDED = {"HANDLES": [], ".gitignore": ["out/"],
         LIST: [OURS[it] for it in crates_for(*ON)] + [f"on_{it}: {ON[it]}" for it in ON]}


class Copy:
    """A folder with a copy of this checkout, in which tools/start is called."""

    def __init__(self, tally):
        self.tally, self.folder = tally, pathlib.Path(tempfile.mkdtemp())
        self.checkout, self.there = self.folder / "checkout", self.folder / "there"
        copy(self.checkout, "tools", "crates", "docs", LIST, LICENSE)
        take_proved(self.checkout)
        write(self.folder, FILES)

    def start(self, words):
        return call(self.checkout / "tools" / "start", *words.split(), cwd=self.folder)

    def refuse(self, what, words, wanted):
        before = texts_in(self.folder)
        status, text = self.start(words)
        is_refused = status and wanted in text and texts_in(self.folder) == before
        self.tally.case(f"refused: {what}", "" if is_refused else f"status {status}, {text}")

    def run_first(self, commands):
        """Runs the commands that are printed of a crate: what is wrong with its test and with its
        proof, and why it isn't proved."""
        test, proof = re.findall(r"(?m)^    (.*?) +#", commands) or ["false", "false"]
        text = call("bash", "-c", f"{test} && rt fmt", cwd=self.folder)[1]
        is_right = re.search(r"ok\. \d+ passed; 0 failed", text) and "formatted" not in text
        wrong = "" if is_right else text
        if "come proved" not in commands:
            return wrong, "", "its libraries aren't proved, or were edited"
        proof = f"{test.partition(' && ')[0]} && {proof}"
        status, text = call("bash", "-c", proof, cwd=self.folder)
        return wrong, text if status or re.search(r"(?m)^fn (?!on_)", text) else "", ""

    def compare(self, what):
        """A case: the copied crates are those of the checkout, and what was there is as it was."""
        differ = [it for it in ADDED if sorted((self.there / it).read_text().splitlines())
                  != sorted([FILES[f"there/{it}"].strip(), *ADDED[it]])]
        differ += [f"{it}/{part}" for it in crates_for(*ON) for part in PARTS
                   if texts_in(self.checkout / "crates" / it / part)
                   != texts_in(self.there / "crates" / it / part)]
        self.tally.case(what, differ)


def texts_in(folder):
    """The text of each file below a folder, but for what is built."""
    return {it.relative_to(folder): it.read_bytes() for it in sorted(folder.rglob("*"))
            if it.is_file() and "out" not in it.parts}


def run(tally, words):
    copies = Copy(tally)
    if not is_proved(copies.checkout, "ga_views"):
        status, text = call("rt", "lib", cwd=copies.checkout / "crates" / "ga_views")
        tally.case("ga_views is proved", text if status else "")
    for it in BAD_CALLS:
        copies.refuse(*it)
    commands = [copies.start(f"there on_{it} --on {it}")[1] for it in ON]
    copies.compare("what is copied, and what was there")
    for it, (of_test, *of_proof) in zip(ON, at_once(copies.run_first, commands)):
        tally.case(f"on_{it}: its test passes", of_test)
        tally.case(f"on_{it}: it is proved, and nothing below", *of_proof)
    (copies.checkout / "crates/ga_views/src/length_error.rt").unlink()
    write(copies.checkout, {"CHANGELOG.md": "## 0.2.0\n", "crates/ga_views/src/later.rt": ""})
    copies.refuse("crates of another version", "there other", "first tools/start --update there")
    status, text = copies.start("--update there")
    is_wrong = status or not re.search("^there: of 0.2.0, .*, before of 0.1.0, ", text)
    tally.case("an update", is_wrong and text)
    copies.compare("what is copied again, and what was there")
