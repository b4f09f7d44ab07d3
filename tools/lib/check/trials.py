"""The tests of trials/sweeps, unproved, in a copy of the checkout where they stand as crates. What they
draw comes from a seed, which is printed: `SEED=7 tools/check trials` draws from 7."""
import functools
import os
import pathlib
import random
import tempfile

from check.building import run_all
from check.copies import copy_crates
from check.tests import Tests
from lay import add_sweeps


@functools.lru_cache(None)
def runs():
    copy = pathlib.Path(tempfile.mkdtemp())
    copy_crates(copy)
    seed = int(os.environ.get("SEED") or random.randrange(1_000_000))
    print(f"trials: drawn from SEED={seed}", flush=True)
    return [Tests(copy / "crates" / it, "trials") for it in add_sweeps(copy, seed)]


def run(tally, words):
    run_all(tally, runs(), words)
