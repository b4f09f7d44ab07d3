"""The crates of this checkout, and copies of them in a repository of a user's own: their files, and
the libraries that are proved in this checkout. `rt` uses one at any path, proves it again where its
stamp isn't that of the sources, and refuses one in which a file is changed."""
import json
import pathlib
import re
import shutil
import subprocess

TOP = pathlib.Path(__file__).resolve().parent.parent.parent.parent
# What of a crate `rt` reads, and what it built of one that is proved. Mutants and documents stay
# in this checkout.
PARTS, BUILT = ("src", "specs", "proofs"), "out/rlib"
LIST, RECORD, LICENSE = "crates.txt", "laid.json", "LICENSE"


class Unfit(Exception):
    """Why a tool can't do what it is asked, in one line."""


def rows_of(top):
    """The lines of a repository's list, none where it has no list."""
    path = top / LIST
    return path.read_text("utf-8").splitlines() if path.is_file() else []


def name_in(row):
    """The name of a line's crate, or nothing."""
    return re.match(r"[^\s:#]*", row)[0]


OURS = {name_in(it): it for it in rows_of(TOP) if name_in(it)}


def libraries_of(name):
    """The crates of this checkout that a crate names."""
    return [it for it in OURS[name].split()[1:] if it in OURS]


def crates_for(*names):
    """These crates and all below them, in the order of the list."""
    found = {*names, *(it for name in names for it in crates_for(*libraries_of(name)))}
    return [it for it in OURS if it in found]


def read_record(top):
    """Of which version and commit a repository's copies are, and which crates these are."""
    path = top / RECORD
    record = json.loads(path.read_text("utf-8")) if path.is_file() else {}
    # Older records have the paths of files.
    crates = record.get("crates", {it.split("/")[1] for it in record.get("files", ())})
    return f"{record.get('version')}, commit {record.get('commit')}", {*crates} & {*OURS}


def version():
    """The version of this checkout, which CHANGELOG's first heading names, and its commit, with a
    sign for changes since."""
    command = ["git", "describe", "--always", "--dirty", "--exclude=*"]
    commit = subprocess.run(command, cwd=TOP, capture_output=True, text=True).stdout.strip()
    number = re.search(r"(?m)^## ([^\s,]+)", (TOP / "CHANGELOG.md").read_text("utf-8"))[1]
    return {"version": number, "commit": commit or "unknown"}


def is_proved(top, name):
    """Whether `rt` has built the library for the crates above, and no file changed since."""
    crate = top / "crates" / name
    stamp = crate / BUILT / "stamp"
    files = [it for part in PARTS for it in (crate / part).rglob("*")]
    return stamp.is_file() and all(it.stat().st_mtime <= stamp.stat().st_mtime for it in files)


def copy_crates(folder, names, lines):
    """Copies crates over what is there of them, and puts their lines and these into the list, each
    in place of the one of its crate. Returns what to say of the next check."""
    for name in names:
        there, ours = folder / "crates" / name, TOP / "crates" / name
        for part in (*PARTS, *[BUILT] * is_proved(TOP, name)):
            shutil.rmtree(there / part, ignore_errors=True)
            if (ours / part).is_dir():
                shutil.copytree(ours / part, there / part)
        shutil.copy2(TOP / LICENSE, there)
    lines = {it: OURS[it] for it in names} | lines
    rows = [lines.pop(name_in(it), it) for it in rows_of(folder)]
    (folder / LIST).write_text("".join(f"{it}\n" for it in [*rows, *lines.values()]), "utf-8")
    record = {"about": "what tools/start copied here from generic_array",
              **version(), "crates": sorted({*names} | read_record(folder)[1])}
    (folder / RECORD).write_text(json.dumps(record, indent=1) + "\n", "utf-8")
    lacking = [it for it in names if not is_proved(folder, it)]
    if not lacking:
        return (f"these come proved: {', '.join(names)}. The next check takes seconds, and proves"
                " again what was changed since")
    tops = [it for it in lacking if not any(it in libraries_of(other) for other in lacking)]
    return (f"the next check proves {', '.join(lacking)} too, in minutes: `rt lib` in crates/"
            f"{' and crates/'.join(tops)} of this checkout does so once for all that is started"
            " later")


def update(folder):
    """Copies the crates of a repository again. Returns what to say of it."""
    before, copied = read_record(folder)
    if not copied:
        raise Unfit(f"{folder} has no crates that tools/start copied")
    of_check = copy_crates(folder, crates_for(*copied), {})
    return f"{folder}: of {read_record(folder)[0]}, before of {before}\n{of_check}"
