"""The mutants of trials/mutants, each of which the prover has to refuse, with those of `must-fail`.

It proves the crates first, in a copy. trials/mutants/README.md says why `rt ci` leaves them out.
"""
import pathlib
import re
import tempfile

from check.copies import TOP, copy_crates
from check.running import call
from reference.checks import text_of

RESULT = re.compile(r"(?m)^rt: must-fail (\S+): (.*)$")


def run(tally, words):
    copy, mutants = pathlib.Path(tempfile.mkdtemp()), TOP / "trials" / "mutants"
    copy_crates(copy)
    for edit in mutants.glob("*/**/*.edit"):
        folder = copy / "crates" / edit.relative_to(mutants).parts[0] / "must-fail"
        folder.mkdir(exist_ok=True)
        (folder / edit.name).write_text(text_of(edit), "utf-8")
    status, text = call("rt", "must-fail", *words, cwd=copy)
    results = dict(RESULT.findall(text))
    edits = [f"{it.parent.parent.name}/{it.name}" for it in copy.glob("crates/*/must-fail/*.edit")]
    for name in sorted(it for it in edits if not words or it.split("/")[0] in words):
        result = results.get(name, f"it isn't tried: {text[-2000:]}")
        tally.case(name, "" if result.startswith("refused, as it must be") else result)
    tally.case("rt must-fail", status and f"status {status}: {text[-2000:]}")
