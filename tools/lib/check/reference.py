"""What no compiler sees of documents, names, imports, claims, mutants and rows of limits."""
from check.copies import TOP
from check.limits import STUCK, document
from reference.checks import CHECKS
from reference.lookup import Names
from reference.meanings import Site
from reference.sources import Library, toolchain


def run(tally, words):
    names = Names(Site(TOP, Library(TOP, toolchain())))
    for name, (check, least) in CHECKS.items():
        tried = list(check(names))
        wrong, count = [it for it in tried if it], tried.count(None)
        if count < least:
            wrong.append(f"{count} passed, and not {least}")
        tally.case(f"{name}: {count} passed", "".join(f"\n  {it}" for it in wrong))
    is_stale = document() != STUCK.read_text("utf-8")
    tally.case("rows of limits stand in STUCK", is_stale and "tools/check limits --write does that")
