"""Draws numbers of trials/sweeps from a seed, and the lengths and items of the calls of `calls`.

Lengths are types, so what is drawn is source. In a file `drawn!(9)` stands for a number from 1 to
9, and `shared!(9)` for this run's share of these: seeds that follow one another have them all. The
tables of `calls` are called in turns, each at one length: first at the edges.
"""
import random
import re

# Common items by their bytes, which are copied.
COPIED = {0: "()", 1: "u8", 2: "u16", 4: "u32", 8: "u64", 16: "[u64; 2]"}
# Of so many counted items, of three words and more, and of other sizes a run has its share.
WORDS, OTHERS = 14, [0, *(it for it in range(3, 64) if it % 8 and it != 4)]
# No item, one, and one below, at and above each number of items at which sources go another way:
# calls in blocks, and writes to slots that are unrolled.
EDGES = [0, 1, *(it + more for it in (8, 64) for more in (-1, 0, 1))]
# The same in bytes: a word, the entries of a fold, an exchange of all items of a builder, and an
# iterator that is folded from the back. It has up to so many bytes besides its items.
LIMITS, BESIDE = [8, 32, 512, 1024], 24
# Of the lengths up to this one a run has its share, one of so many.
SHORT, SHARES = 100, 5
# How many longer ones it has, whose items have up to so many bytes in all, and how many of its
# lengths have shapes.
LONGER, MOST_BYTES, SHAPES = 1, 65_536, 2

TABLE = re.compile(r"pub fn (\w+)<'a, T: Item<'a>( \+ Copy)?, const U: usize>"
                   r"\(run: &'a Run(, len: usize)?\) \{")


def share(most, seed):
    numbers = [*range(1, most + 1)]
    random.Random(most).shuffle(numbers)
    return numbers[seed % SHARES::SHARES]


def filled(text, name, seed):
    """A file with what is drawn in it."""
    drawn = random.Random(f"{name} {seed}")
    text = re.sub(r"drawn!\((\w+)\)", lambda it: str(drawn.randint(1, int(it[1]))), text)
    return re.sub(r"shared!\((\w+)\)", lambda n: ", ".join(map(str, share(int(n[1]), seed))), text)


def tables_of(text, module):
    """The tables of a file: their paths, and whether they copy items or take a number of them."""
    return [(f"{module}::{it[1]}", it[2], it[3]) for it in TABLE.finditer(text)]


def turns_of(seed):
    """The length of each turn with a plain, a counted and a copied item, and how many are short.
    All tables pick among these few: each pair of a length and an item takes memory to build."""
    drawn, others = random.Random(seed), [it for it in share(SHORT, seed) if it not in EDGES]
    common, words, sizes = [*COPIED.values()], share(WORDS, seed), share(len(OTHERS), seed)
    turns = [(it, *[common[1 + (it % 2 + seed) % 5]] * 2) for it in EDGES]
    for number, length in enumerate(others):
        place = number * len(sizes) // len(others) + seed // SHARES
        plain = f"[u8; {OTHERS[sizes[place % len(sizes)] - 1]}]"
        turns.append((length, plain, f"[u64; {words[0] + 2}]" if number % 2 else plain))
    turns = [(it, plain, f"Counted<[u64; {words[number % len(words)] - 1}]>", copied)
             for number, (it, plain, copied) in enumerate(turns)]
    for limit in LIMITS:
        size = drawn.choice([it for it in COPIED if 0 < it <= limit])
        length = (limit - drawn.choice([0, BESIDE])) // size + drawn.choice([-1, 0, 1])
        turns.append((max(length, 0), COPIED[size], "", COPIED[size]))
    short = len(turns)
    for length in [int(2 ** drawn.uniform(6.7, 13)) for _ in range(LONGER)]:
        plain = drawn.choice([COPIED[it] for it in COPIED if it * length <= MOST_BYTES])
        turns.append((length, plain, "Counted" if 24 * length <= MOST_BYTES else "u8", plain))
    return turns, short


def calls_of(tables, seed, number, length, plain, counted, copied):
    """The calls of a turn: at edges above one of both items, else of one; clones of a counted."""
    for index, (path, copies, takes) in enumerate(tables):
        turn = path == "builds::clones" or (index + number + seed) % 2
        items = [plain, counted] if 1 < number < len(EDGES) else [[plain, counted][turn]]
        for item in [copied] if copies else filter(None, items):
            call = f"crate::{path}::<{item}, {length}>(run"
            yield f"for len in run.counts({length}) {{ {call}, len); }}" if takes else f"{call});"
    if number in range(len(EDGES), len(EDGES) + SHAPES):
        yield f"crate::builders::shapes::<{counted}, {length}, {length + 1}, {2 * length}>(run);"


def module_of(tables, seed):
    """The module that makes the calls."""
    turns, short = turns_of(seed)
    lines = ["//! The turns.", "use crate::cases::{Counted, Run};",
             f"pub const LENGTHS: [usize; {len(turns)}] = {[it for it, *_ in turns]};",
             f"pub const SHORT_TURNS: usize = {short};", f"pub const DRAWN: usize = {len(EDGES)};",
             "pub fn make(run: &Run, turn: usize) {", "match turn {",
             *(f"{it} => turn_{it}(run)," for it in range(len(turns))), "_ => {}", "}", "}"]
    for number, turn in enumerate(turns):
        lines += [f"fn turn_{number}(run: &Run) {{", *calls_of(tables, seed, number, *turn), "}"]
    return "\n".join(lines) + "\n"
