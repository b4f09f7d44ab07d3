"""A user's first crate."""
import os
import re
import subprocess
import tempfile

from start.crates import TOP, Unfit, copy_crates, name_in, read_record, rows_of, version

# The first crates by their libraries, each with the libraries on its line and its root.
FIRST = re.compile(r"(?ms)^## (\w+)\n.*?^    mine: (.*?)$.*?^```rust src/lib\.rt\n(.*?)^```$")
FIRST = FIRST.findall((TOP / "docs" / "FIRST_CRATES.md").read_text("utf-8"))
ON, ROOTS = ({it[0]: it[at] for it in FIRST} for at in (1, 2))
# The imports of the words of most clauses.
WORDS = re.search(r"(?ms)^## Reading a clause\n.*?^```rust\n(.*?)^```$",
                  (TOP / "docs" / "CALLING.md").read_text("utf-8"))[1]


def root_of(on, libraries):
    """The root of a first crate on these. It names the words and the lemmas for callers of the
    widest library that has some."""
    of = next(it for it in ("generic_array", "ga_core", "ga_views") if it in libraries)
    lemmas = "" if of == "ga_views" else f", using({of}::proofs::Everyday::arrays)"
    root = re.sub(r"(?m)^#!\[tactic\(.*", f"#![tactic(auto{lemmas})]", ROOTS[on[0]])
    words = WORDS.replace("generic_array", of) + "\n" * ("ghost use" not in root)
    return re.sub(r"(?m)^(?=(?:ghost )?use )", words, root, count=1)


def check_name(name):
    """Stops at a word of the language or the name of a library of the kit: `rt new` knows them."""
    with tempfile.TemporaryDirectory() as folder:
        new = subprocess.run(["rt", "new", name], cwd=folder, capture_output=True, text=True)
    if new.returncode:
        raise Unfit(new.stderr.strip().removeprefix("rt: "))


def start(folder, name, on, names):
    """Makes the crate on these libraries, which need these crates. Returns what to say of it."""
    before, copied = read_record(folder)
    mine, new = folder / "crates" / name, [it for it in names if it not in copied]
    there = {name_in(it) for it in rows_of(folder)}
    for it in [name, *new]:
        if it in there or (folder / "crates" / it).exists():
            raise Unfit(f"{folder}/crates/{it} is there already")
    if copied and before != ", commit ".join(version().values()):
        raise Unfit(f"{folder} has crates of {before}: first tools/start --update {folder}")
    check_name(name)
    libraries = dict.fromkeys(word for it in on for word in ON[it].split())
    for part, text in (("src/lib.rt", root_of(on, libraries)), ("specs/Lib.antt", "")):
        (mine / part).parent.mkdir(parents=True)
        (mine / part).write_text(text, "utf-8")
    of_check = copy_crates(folder, names, {name: f"{name}: {' '.join(libraries)}"})
    if not os.path.lexists(folder / "HANDLES"):
        (folder / "HANDLES").write_text("Handles allowed: none.\n")
    ignored = folder / ".gitignore"
    text = ignored.read_text("utf-8") if ignored.exists() else ""
    if "out/" not in text.split():
        ignored.write_text("".join(f"{it}\n" for it in [*text.splitlines(), "out/"]), "utf-8")
    new = ", ".join(new) or "nothing, since all is there"
    return f"{folder}: made crates/{name}, copied {new}\n{of_check}"
