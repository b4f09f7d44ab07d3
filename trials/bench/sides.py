"""The texts of both sides, with the loops over their cases, and the driver's list of cases."""
import collections
import pathlib
import re

from exports import declarations, export, fill_in, texts_of
from loops import find, functions_of, loop, maker_of
from table import read_cases

HERE = pathlib.Path(__file__).resolve().parent
LIBRARIES = ["ga_core", "ga_views", "ga_boxed", "generic_array"]
NUMBERS = "kind: u32, seed: u64, reps: u64"
# The function that ours is compared with, where the Rust crate has none of that name.
OTHERS = {
    "map_inline": "map", "map_inline_ref": "map_view", "try_map_inline": "try_map",
    "zip_inline": "zip", "zip_inline_ref": "zip_view", "zip_ref_boxed": "boxed_generate_from",
}
# The length `M`, by the length `N`.
SECOND = {
    "append": lambda n: n + 1, "prepend": lambda n: n + 1, "pop_back": lambda n: n - 1,
    "pop_front": lambda n: n - 1, "remove": lambda n: n - 1, "swap_remove": lambda n: n - 1,
    "concat": lambda n: 2 * n, "split": lambda n: n // 2, "rows": lambda n: 4099,
}
LOOPS = """//! The loop of each case, written by trials/bench/run.
ghost use Rattle.ga_views.specs.Length.{FitsInline};
ghost use Rattle.std.specs.Prelude.{◌≡◌, ◌+◌, ◌<◌};
use crate::items::{Check, Poke, Word, place};
use generic_array::{ArrayLength, Const, GenericArray, Unsigned};
use std::alloc::Global;
"""
TABLE = """//! The cases, written by trials/bench/run.
use super::{{library::*, loops, Case}};

{declared}

pub static CASES: &[Case] = &[
{entries}
];
"""
ENTRY = """    Case {{
        name: "{0.name}", kind: "{0.kind}", length: {0.length}, ours: (ours_{0.name}, {1}),
        other: loops::{2},
    }},"""


def tuple_words(item, length):
    values = ", ".join(f"{item}::make(seed, {it})" for it in range(length))
    words = {"TYPES": ", ".join([item] * length), "VALUES": values, "ITEM": item}
    return {**words, "LENGTH": length, "LAST": length - 1}


def row_words(item, length):
    width = 2 if length == 4 else 8
    return {"ITEM": item, "LENGTH": length, "WIDTH": width, "ROWS": length // width}


# What stands for the words in capitals of a text that is laid out more than once.
LAID_OUT = {
    "walks": {
        "inline": {"ARRAY": "GenericArray", "NAME": "walk", "NTH": "nth3"},
        "boxed": {"ARRAY": "BoxedArray", "NAME": "boxed", "NTH": "boxed_nth3"},
    },
    "zips": {it: {"ITEM": it} for it in ("u8", "u64")},
    "concrete": {f"{it}_{n}": row_words(it, n) for it in ("u8", "u64") for n in (4, 64, 1024)},
    "tuples": {f"{it}_{n}": tuple_words(it, n) for it in ("u8", "u64") for n in (4, 12)},
}


class Side:
    """The modules of one side by name, the functions in them, and what a loop is given."""

    def __init__(self, texts, given):
        self.given, self.modules = given, {}
        for name, text in texts.items():
            # Each function is compiled by itself, unless its text says otherwise.
            text = re.sub(r"(?m)(?<!#\[inline\]\n)^pub fn ", "#[inline(never)]\npub fn ", text)
            for suffix, words in LAID_OUT.get(name, {"": {}}).items():
                self.modules[f"{name}_{suffix}".rstrip("_")] = fill_in(text, words)
        self.functions = [it for found in self.modules.items() for it in functions_of(*found)]

    def of_case(self, case):
        is_there = any(it.name == case.name for it in self.functions)
        name = case.name if is_there else OTHERS.get(case.name, case.name)
        return find(self.functions, name, f"_{case.kind}", f"_{case.item}")

    def contained(self, case):
        """The functions that make what a case takes by value."""
        function = self.of_case(case)
        types = [it for _, it in function.params if it[0].isupper() and it != "Global"]
        return [maker_of(self.functions, it, function.module).name for it in types]

    def loops(self):
        """The module of all loops."""
        functions = dict.fromkeys(map(self.of_case, read_cases()))
        return LOOPS + "".join(loop(self.functions, it, self.given) for it in functions)

    def call(self, case, length_type):
        """A case's loop at its types."""
        function = self.of_case(case)
        types = {"T": case.item, "N": length_type(case.length)}
        if case.name in SECOND:
            types["M"] = length_type(SECOND[case.name](case.length))
        types = ", ".join(types[it] for it in function.types)
        return f"{function.loop_name}::<{types}>" if types else function.loop_name


def rust_length(number):
    """A length of the Rust crate, which has no name for some."""
    if number <= 1024 or re.fullmatch("10+", f"{number:b}") or re.fullmatch("10+", f"{number}"):
        return f"Const<{number}>"
    return f"Sum<U1024, {rust_length(number - 1024)}>"


def as_rust(text):
    """A text of both sides as Rust reads it."""
    text = re.sub(r"^ *(ghost use|requires|use std::alloc).*\n", "", text, flags=re.M)
    return re.sub(r"^use generic_array::.*;$", "use crate::library::*;", text, flags=re.M)


def ours():
    texts = texts_of(HERE / "both") | texts_of(HERE / "ours")
    texts = {name: re.sub(r"^where .*\n", "", it, flags=re.M) for name, it in texts.items()}
    return Side(texts, "alloc: Global, seed: u64, reps: u64")


def rust():
    texts = {name: as_rust(it) for name, it in texts_of(HERE / "both").items()}
    texts |= {it.stem: it.read_text() for it in (HERE / "rust").glob("*.rs")}
    return Side(texts, "seed: u64, reps: u64")


def cases_by_name():
    found = collections.defaultdict(list)
    for case in read_cases():
        found[case.name].append(case)
    return found


def our_modules():
    """The modules of ga_bench, by name."""
    side = ours()
    text = side.loops()
    for name, cases in cases_by_name().items():
        calls = [f"{side.call(it, 'Const<{}>'.format)}(alloc, seed, reps)" for it in cases]
        text += export(name, NUMBERS, dict(enumerate(calls)), alloc=True)
    modules = side.modules | {"loops": text}
    names = "".join(f"mod {it};\n" for it in sorted(modules.keys() - {"lib"}))
    return modules | {"lib": f"{modules['lib']}\n{names}"}


def driver_sources():
    """The Rust files of the driver, by their names below src/, and the program in Rust."""
    side, cases = rust(), cases_by_name()
    entries = [
        ENTRY.format(case, number, side.call(case, rust_length))
        for them in cases.values() for number, case in enumerate(them)
    ]
    functions = declarations(dict.fromkeys(cases, NUMBERS))
    table = TABLE.format(declared=functions, entries="\n".join(entries))
    modules = side.modules | {"loops": as_rust(side.loops()), "cases": table}
    sources = {f"{name}.rs": text for name, text in modules.items()}
    sources["modules.rs"] = "".join(f"mod {it};\n" for it in sorted(modules.keys() - {"main"}))
    sources["bin/rows_careful.rs"] = (HERE / "rows" / "rows_careful.rs").read_text()
    return sources
