"""The cases of both sides, and what is written of them: our functions and the list of the Rust
program."""
import collections
import pathlib
import re

from exports import crate, declarations, export, fill_in, texts_of

HERE = pathlib.Path(__file__).resolve().parent
LIBRARIES = ["ga_core", "ga_views", "arrayvec", "ga_boxed", "generic_array"]

EVERY = range(17)
SOME = (0, 1, 2, 3, 5, 8, 16)
SHORT_HEX = (0, 1, 2, 3, 5, 8, 16, 20, 32, 64)
LONG_HEX = (511, 512, 1000, 1023, 1024, 1025, 1500, 2000, 2047, 2048, 2049, 3000)
# The width of the rows, a hundred times, and their number.
FLAT = (104, 203, 302, 404, 1203, 500)
TUPLES = range(1, 13)
SIZES = (0, 1, 2, 3, 5, 8, 20, 64)

# The texts of calls/ that both sides have. Of those of kinds there is one for each kind of array,
# with `KIND` for its module and `PLACE` for what its builds by the traits are passed; at the
# original's side also one with another `nth_back`.
SHARED = (
    "random", "sources", "noted", "comparisons", "closures", "references", "boxed_closures",
    "builds", "build_drops", "boxed_drops", "views", "rows", "macros",
)
OF_KINDS = ("walks", "walk_drops", "access", "sequences")
KINDS = {"inline": "()", "boxed": "alloc"}
# Those that are laid out for each of these lengths, and one that only our side has.
OF_LENGTHS = {"natives": EVERY, "tuples": TUPLES}
OURS_OF_LENGTHS = {"flat": FLAT}

# The call of a run, NAME_run, on our side and on the other. A letter in braces stands for a length
# as a type: N for the length itself, L for one more, K for a third of it and M for the rest; W, R
# and A for the width of rows, their number and the product. One seed in `share` is taken. A
# difference that is wanted has a name, and the call of the original that has this difference.
Case = collections.namedtuple("Case", "title ours original lengths share wanted")


def case(title, ours, original=None, lengths=EVERY, share=1, wanted=None):
    """A case, whose other side has the same call where none is given: with `Global` for the
    allocator, and a log of its own."""
    return Case(title, ours, original or ours, lengths, share, wanted)


# Answers, and the calls that closures and iterators saw.
CASES = [
    case("walks by value", "walks_inline::walks_run::<{N}>(alloc, seed)"),
    case("arrays of what a walk left", "walks_inline::reverse_run::<{N}>(alloc, seed)", share=4),
    case("builds", "builds::builds_run::<{N}>(seed)"),
    case("access to items", "access_inline::access_run::<{length}>(alloc, seed)",
         "access_inline::access_run::<{N}>(alloc, seed)"),
    case("access to boxed items", "access_boxed::access_run::<{length}>(alloc, seed)",
         "access_boxed::access_run::<{N}>(alloc, seed)"),
    case("builds by the traits", "sequences_inline::sequences_run::<{N}>(alloc, seed)"),
    case("boxed builds by the traits", "sequences_boxed::sequences_run::<{N}>(alloc, seed)"),
    case("builders compared with a vector", "builders::builders_run::<{N}>(seed)"),
    case("comparisons, hashes, Debug, views", "comparisons::comparisons_run::<{N}>(seed)"),
    case("calls of closures, arrays and views", "closures::closures_run::<{N}>(seed)"),
    case("calls of closures, boxed arrays", "boxed_closures::boxed_closures_run::<{N}>(alloc, seed)"),
    case("views of slices and arrays", "views::views_run::<{N}>(seed)"),
    case("split of references", "shapes::halves_run::<{N}, {K}, {M}>(seed)", share=10),
    case("plain calls of closures", "plain_calls::plain_calls_run::<{N}>(seed)"),
    case("calls of closures, references to arrays", "references::references_run::<{N}>(seed)"),
    case("arr!, box_arr!", "macros::macros_run(alloc, {length}, seed)", lengths=(0, 1, 3, 6)),
    case("append, prepend, pops", "shapes::ends_run::<{N}, {L}>(seed)"),
    case("remove, swap_remove", "shapes::remove_run::<{N}, {L}>(seed)"),
    case("concat, split", "shapes::join_run::<{N}, {K}, {M}>(seed)"),
    case("flatten, unflatten", "flat_{length}::flat_run(seed)",
         "flat::flat_run::<{W}, {R}, {A}>(seed)", FLAT, 4),
    case("rows of a slice", "rows::rows_run::<{N}>(seed)", lengths=EVERY[1:]),
    case("walks over rows", "rows::row_walks_run::<{N}>(seed)", lengths=EVERY[1:]),
    case("hex text, short", "hex::hex_run::<{N}>(alloc, seed)", lengths=SHORT_HEX),
    case("hex text, long", "hex::hex_run::<{N}>(alloc, seed)", lengths=LONG_HEX, share=10),
    case("vectors, boxed slices", "conversions::conversions_run::<{N}>(alloc, seed)"),
    case("native arrays", "natives_{length}::native_run(seed)", share=4),
    case("From and into of native arrays", "natives_{length}::from_native_run(seed)", share=4),
    case("tuples", "tuples_{length}::tuples_run(seed)", lengths=TUPLES),
    case("boxed builds and conversions", "boxed_builds::boxed_builds_run::<{N}>(alloc, seed)"),
    case("boxed walks by value", "walks_boxed::walks_run::<{N}>(alloc, seed)"),
    case("boxed to inline", "walks_boxed::reverse_run::<{N}>(alloc, seed)", share=10),
    case("blocks compared with a deque", "blocks::blocks_run(alloc, {length}, seed)", lengths=SIZES),
]

# Drops and clones, each run by number and in order. A wanted difference is one of order.
SEEN = "ordered, seed, &log"
DROPS = [
    case("drops of builds", f"build_drops::build_drops_run::<{{N}}>({SEEN})", lengths=SOME),
    case("drops of calls of closures", f"drops::closure_drops_run::<{{N}}>({SEEN})", lengths=SOME),
    case("drops of shapes", f"drops::shape_drops_run::<{{N}}, {{L}}>({SEEN})", lengths=SOME),
    case(
        "drops of flatten, unflatten",
        f"flat_{{length}}::flat_drops_run({SEEN})",
        f"flat::flat_drops_run::<{{W}}, {{R}}, {{A}}>({SEEN})",
        FLAT,
        10,
    ),
    case(
        "drops of concat, split, vectors",
        f"drops::joined_drops_run::<{{N}}, {{K}}, {{M}}>(alloc, {SEEN})",
        f"drops::joined_drops_run::<{{N}}, {{K}}, {{M}}>({SEEN})",
        SOME,
        10,
    ),
    case(
        "drops of boxed calls and builds",
        f"boxed_drops::boxed_build_drops_run::<{{N}}>(alloc, {SEEN})",
        lengths=SOME,
    ),
]
for module, title, iterator in (
    ("walk_drops_inline", "drops of walks by value", "an iterator"),
    ("walk_drops_boxed", "drops of boxed walks", "a boxed iterator"),
):
    run = f"::walk_drops_run::<{{N}}>(alloc, {SEEN})"
    wanted = (f"nth_back of {iterator} drops from the back", f"{module}_stepwise{run}")
    DROPS.append(case(title, module + run, lengths=SOME, wanted=wanted))

EXPORTS = """//! What the Rust program calls, written by trials/diff/run from its list of cases.
use crate::noted::Log;
use crate::{{{modules}}};
use generic_array::Const;
use std::alloc::Global;

#[unsafe(no_mangle)]
pub extern "C" fn ours_error_texts(out: &mut [u8]) -> usize {{
    texts::error_texts(out)
}}

#[unsafe(no_mangle)]
pub extern "C" fn ours_size(which: u32) -> usize {{
    texts::size_of_array(which)
}}
"""

CASE_TABLE = """//! The cases, written by trials/diff/run from its list.
use crate::arrays::Global;
use crate::compare::{{Case, Wanted}};
use crate::noted::Log;
use crate::{{{modules}}};
use original::typenum::*;

{declared}

pub const CASES: &[Case] = &[
{entries}
];
"""

ENTRY = """    Case {{
        name: "{title}",
        lengths: &[{lengths}],
        share: {share},
        ours: |kind, seed| ours_{name}({ordered}kind, seed),
        original: {original},
        wanted: {wanted},
    }},"""

RUN = "|kind, seed| match kind {{\n{arms}\n            _ => unreachable!(),\n        }}"
WANTED = 'Some(Wanted {{ name: "{name}", run: {run} }})'


def typenum(number):
    return f"U{number}" if number <= 1024 else f"Sum<U1024, {typenum(number - 1024)}>"


def call(text, length, type_of):
    """A call of the table at a length, on the side whose lengths are these types."""
    part, (width, rows) = length // 3, divmod(length, 100)
    types = {"N": length, "L": length + 1, "K": part, "M": length - part}
    types |= {"W": width, "R": rows, "A": width * rows}
    return text.format(length=length, **{name: type_of(it) for name, it in types.items()})


def name_of(it):
    return re.sub(r"\W+", "_", it.title.lower()).strip("_")


def numbers_of(it):
    return f"{'ordered: u64, ' if 'ordered' in it.ours else ''}kind: u32, seed: u64"


def exports():
    """The module of the functions that Rust calls, one of each case."""
    text, modules = "", {"texts"}
    for it in CASES + DROPS:
        calls = {kind: call(it.ours, kind, "Const<{}>".format) for kind in it.lengths}
        modules |= {one.split("::")[0] for one in calls.values()}
        before = "    let log = Log::new();\n" if "&log" in it.ours else ""
        text += export(name_of(it), numbers_of(it), calls, "alloc" in it.ours, before)
    return EXPORTS.format(modules=", ".join(sorted(modules))) + text


def words_of(length):
    """What stands for the words of a text that is laid out for each length."""
    width, rows = divmod(length, 100)
    names = [chr(ord("a") + it) for it in range(length)] if length in TUPLES else []
    words = {"LENGTH": length, "AREA": width * rows, "WIDTH": width, "ROWS": rows}
    lists = {"NAMES": names, "ROTATED": names[1:] + names[:1], "TYPES": ["u64"] * len(names)}
    return words | {word: ", ".join(them) for word, them in lists.items()}


def of_lengths(texts):
    """What stands for the words of each of these texts, for each of its lengths."""
    return {name: {it: words_of(it) for it in lengths} for name, lengths in texts.items()}


def kinds(clone, nth_back="nth_back", suffix=""):
    """What stands for the words of a text that is laid out for each kind of array."""
    words = {"CLONE": clone, "NTH_BACK": nth_back}
    return {f"{it}{suffix}": {"KIND": it, "PLACE": place, **words} for it, place in KINDS.items()}


def our_modules():
    """The modules of ga_diff by name: those of calls/, and the exports."""
    made = dict.fromkeys(OF_KINDS, kinds("clone")) | of_lengths(OF_LENGTHS | OURS_OF_LENGTHS)
    return crate(texts_of(HERE / "calls"), made, exports())


def as_rust(text):
    """A text of both sides as rustc reads it: without proofs, with lengths as types."""
    text = re.sub(r"ghost use .*\n+|\n    requires .*| \+ Drop\b", "", text)
    text = text.replace("fn drop(self)", "fn drop(&mut self)").replace("= self;", "= *self;")
    text = text.replace("#[derive(Drop)]", "#[derive(Clone)]")
    return text.replace("const U: usize", "N: Length").replace("Const<U>", "N")


def shared_modules():
    """The texts of calls/ that both sides have, as the Rust modules of the other one."""
    texts = {name: as_rust(text) for name, text in texts_of(HERE / "calls").items()}
    made = dict.fromkeys(OF_KINDS, kinds("try_clone")) | of_lengths(OF_LENGTHS)
    made["walk_drops"] |= kinds("try_clone", "stepwise_nth_back", "_stepwise")
    shared = {name: texts[name] for name in SHARED}
    return shared | {f"{name}_{it}": fill_in(texts[name], stands)
                     for name, kinds in made.items() for it, stands in kinds.items()}


def run_of(it, text, ordered):
    """The original's run of a call, as a closure of Rust."""
    text = text.replace("ordered", str(ordered)).replace("alloc", "Global")
    text = text.replace("&log", "&Log::new()")
    arms = [f"            {kind} => {call(text, kind, typenum)}," for kind in it.lengths]
    return RUN.format(arms="\n".join(arms))


def entry(it, ordered=None):
    """The line of a case, of drops for one of both orders."""
    wanted = "None"
    if it.wanted and ordered:
        name, text = it.wanted
        wanted = WANTED.format(name=name, run=run_of(it, text, ordered))
    order = "" if ordered is None else f", by {('number', 'order')[ordered]}"
    return ENTRY.format(
        title=it.title + order,
        lengths=", ".join(map(str, it.lengths)),
        share=it.share,
        name=name_of(it),
        ordered="" if ordered is None else f"{ordered}, ",
        original=run_of(it, it.original, ordered),
        wanted=wanted,
    )


def driver_sources():
    """The Rust files of the program, by their names below src/."""
    functions = {name_of(it): numbers_of(it) for it in CASES + DROPS}
    entries = [entry(it) for it in CASES] + [entry(it, order) for order in (0, 1) for it in DROPS]
    entries = "\n".join(entries)
    modules = ", ".join(sorted({*re.findall(r"(\w+)::\w+_run", entries)}))
    table = CASE_TABLE.format(modules=modules, declared=declarations(functions), entries=entries)
    modules = {it.stem: it.read_text() for it in (HERE / "driver").glob("*.rs")}
    modules |= shared_modules() | {"cases": table}
    modules["main"] += "".join(f"mod {it};\n" for it in sorted(modules.keys() - {"main"}))
    return {f"{name}.rs": text for name, text in modules.items()}
