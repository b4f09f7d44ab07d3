"""The limits of docs/STUCK.md: whether each still holds.

A file of trials/limits is a module. Its first lines are its rows of docs/STUCK.md, behind the name
of their table. `--write` puts them there, a new one at its end: moved, it stays where it is.
A check has to print of `says` what one sees, with `..` for any text, of `open` and `library` the
goals that the row begins with, of `returns` that goal; or else what a line `// prints: ..` has.
Where `//+` and `//-` stand, what to write instead has to be proved: the module with the lines behind
`//+`, and without those in front of `//-`. A module gets the imports that it lacks of what it names,
but where that is the limit.

All are laid out as one crate over generic_array and checked at once. The libraries are proved first
where this checkout has no proofs of them. A check ends before any proof where a module doesn't
compile: what it prints of that is kept, and the others are checked again. All take ten to fifteen
minutes of one core.
"""
import collections
import pathlib
import re
import shutil
import tempfile

from check.copies import TOP, copy_crates, take_proved, write
from check.running import call
from reference.sources import atoms_of, imports_of, is_in
from reference.text import use_line

LIMITS, STUCK = TOP / "trials" / "limits", TOP / "docs" / "STUCK.md"
# The headings of the tables, and the lines of rows: in a file, and in the document.
TABLES = {"says": "The check says", "open": "A goal stays open", "returns": "It checks, but",
          "library": "If you write a library"}
ROW = re.compile(rf"(?m)^// ({'|'.join(TABLES)}|prints): (.*)\n")
WRITTEN = re.compile(r"(?m)^.* \| \[file\]\(\.\./trials/limits/(\w+)\.rattle\)\n")
GOAL, GOALS = ("open", "library"), re.compile(r"(?:`[^`]*`(?:, )?)*")
CRATE, FIXED = "limits", "_fixed"
# As `tools/start` begins a crate.
ROOT = "//! Limits.\n#![tactic(auto, using(generic_array::proofs::Everyday::arrays))]\n\n"
# A line of a check names the module that it is of; one that doesn't is of the module before.
OF = re.compile(rf"\b(?:src/|proofs/|{CRATE}::)(\w+)(?:\.rt|/|::)")
ERROR, UNPROVED = re.compile(r": error(?:\[|:)"), re.compile(r": (?:no proof|not proved)\b")
MOST = 600
# What a module may name in its terms, or else in its code, by where it is. A parameter is none.
IMPORTS = {
    "Rattle.generic_array.specs.Fill": "TakeRuns",
    "Rattle.generic_array.specs.Length": "FitsInline",
    "Rattle.generic_array.specs.Rows": "chunk_count rows",
    "Rattle.generic_array.specs.Views": "items_of_chunks items_of_view",
    "Rattle.std.specs.Int": "cast_signed from_be_bytes saturate_signed w8 w16 w32",
    "Rattle.std.specs.Int.Bits": "bit_xor",
    "Rattle.std.specs.List": "All flat_map list_any range_with_len starts_with zip",
    "Rattle.std.specs.List.Sorted": "IsNonDecreasing IsSorted",
    "Rattle.std.specs.Ordering": "nat_cmp",
    "Rattle.std.specs.Prelude": "◌≡◌ ◌==◌ ◌↔◌ ◌<◌ ◌≤◌ ◌+◌ ◌+ℤ◌ ◌-◌ ◌*◌ ◌/◌ ◌%◌ ◌^◌ ◌++◌ ◌∷◌ [] IfOk"
    " IsTrue OnErr OnOk drop find fold length map nat_eq nat_lt option_map pos position replicate"
    " reverse slice_index slice_index_or slice_set sum take",
    "generic_array": "AllocError ArrayBuilder ArrayLength BoxedArray ChunksMut ChunksRef Const"
    " GenericArray GenericArrayMut GenericArrayRef InlineLength LengthError U2 U3 U4 U5 U6 Unsigned"
    " ViewMut always arr",
    "std::alloc": "Global", "std::marker": "Model PhantomData",
}


def plain(text):
    return " ".join(text.split())


def with_imports(module):
    """A module with the imports that it lacks."""
    docs, code = re.fullmatch(r"((?:#!\[.*\n)*)([\s\S]*)", module).groups()
    lines, own = [], imports_of("\n".join(re.findall(r"(?m)^(?:ghost )?use .*", code)))
    atoms, names = atoms_of(code), re.findall(r"\w+", code)
    for path, known in IMPORTS.items():
        kind, used = ("ghost use", atoms) if "." in path else ("use", names)
        lacking = [it for it in known.split() if it not in own and f"{it}: " not in code]
        if named := [it for it in lacking if is_in(it, used)]:
            lines.append(use_line(kind, path, named))
    return docs + "\n".join([*lines, "", code])


def parts_of(table, row):
    """The parts that a check has to print of a row."""
    cell = plain(row.split(" | ")[0])
    goals = "`returns`" if table == "returns" else GOALS.match(cell)[0] if table in GOAL else ""
    return [f"({it})" for it in goals.split(", ") if it] or cell.split("..")


def read(file):
    """What is to be seen of a limit, its module, and that of what to write instead, if it stands
    there."""
    text = file.read_text("utf-8")
    rows, module = ROW.findall(text), ROW.sub("", text)
    rows = [it for it in rows if it[0] == "prints"] or rows
    parts = [part for it in rows for part in parts_of(*it)]
    fixed = re.sub(r"(?m)^( *)//\+ ", r"\1", re.sub(r"(?m)^.*//-\n", "", module))
    is_whole = any("` is not in scope" in it for it in parts)
    return (parts, module if is_whole else with_imports(module),
            with_imports(fixed) if fixed != module else "")


def lines_by_module(text, modules):
    """What a check prints of each module."""
    found, name = collections.defaultdict(list), None
    for line in text.splitlines():
        if not line.startswith("checked "):
            of = OF.search(line)
            if of or not line.startswith(" "):
                name = of[1] if of and of[1] in modules else None
            found[name].append(line)
    return found


def check_all(crate, modules):
    """Checks the modules, and again without those for which a check ends too early. Returns what is
    printed of each."""
    kept, left = {}, dict(modules)
    while left:
        root = ROOT + "".join(f"mod {it};\n" for it in left)
        shutil.rmtree(crate / "src", ignore_errors=True)
        write(crate / "src", {f"{it}.rt": text for it, text in {**left, "lib": root}.items()})
        found = lines_by_module(call("rt", "check", cwd=crate)[1], left)
        if any(line.startswith("logic=") for line in found[None]):
            return kept | found
        early = {it: found[it] for it in left if any(map(ERROR.search, found[it]))}
        if not early:
            raise ValueError("\n".join(["rt check ends early:", *found[None][-20:]]))
        kept |= early
        left = {it: left[it] for it in left if it not in early}
    return kept


def wrong_with(parts, lines, of_fixed):
    """Why a limit no longer holds, or nothing."""
    text = plain(" ".join(lines))
    if lacks := [it for it in parts if it.strip() not in text]:
        return f"it fell: {lacks[0]!r} isn't printed, but {text[:MOST]}"
    if bad := [it for it in of_fixed or () if ERROR.search(it) or UNPROVED.search(it)]:
        return f"what to write instead isn't proved: {bad[0][:MOST]}"
    return "what to write instead isn't checked" if of_fixed == [] else ""


def document():
    """docs/STUCK.md with the rows of the limits: each in place of one of its file, or else at the
    end of its table."""
    left = {it.stem: ROW.findall(it.read_text("utf-8")) for it in sorted(LIMITS.glob("*.rattle"))}

    def line(name, table):
        rows = left.get(name, ())
        row = next((it for it in rows if it[0] in TABLES and table in ("", it[0])), None)
        if row:
            rows.remove(row)
        return f"{row[1]} | [file](../trials/limits/{name}.rattle)\n" if row else ""

    text = WRITTEN.sub(lambda it: line(it[1], ""), STUCK.read_text("utf-8"))
    for table, heading in TABLES.items():
        text = re.sub(rf"(?s)(\n## {heading}.*?\n)(?=\n## |\Z)", lambda it: it[1] + "".join(
            line(name, table) for name in left), text)
    return text


def run(tally, words):
    if words == ["--write"]:
        return STUCK.write_text(document(), "utf-8")
    files = {it.stem: it for it in sorted(LIMITS.glob("*.rattle"))}
    for it in {*words} - {*files}:
        tally.case(it, "there is no such limit")
    limits = {it: read(file) for it, file in files.items() if it in words or not words}
    modules = {it: module for it, (_, module, _) in limits.items()}
    modules |= {it + FIXED: fixed for it, (_, _, fixed) in limits.items() if fixed}
    copy = pathlib.Path(tempfile.mkdtemp())
    copy_crates(copy)
    take_proved(copy)
    # Before the checks, whose lines would else be of the libraries too.
    status, text = call("rt", "lib", cwd=copy / "crates" / "generic_array")
    if status:
        raise ValueError(text[-MOST:])
    write(copy, {"crates.txt+": f"{CRATE}: generic_array ga_core ga_boxed ga_views\n"})
    lines = check_all(copy / "crates" / CRATE, modules)
    for name, (parts, _, fixed) in limits.items():
        of_fixed = lines.get(name + FIXED, []) if fixed else None
        tally.case(name, wrong_with(parts, lines.get(name, []), of_fixed))
