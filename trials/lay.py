"""Lays out a copy of this checkout, outside the repository, with the crates of bench and diff or
those of `trials/sweeps`.

For bench and diff it also builds the Rust program that runs our crate and the original one. Both
take the same copy, `ours/` in their folder, so that the libraries are proved once.
"""
import os
import pathlib
import shutil
import subprocess
import sys
import tempfile

HERE = pathlib.Path(__file__).resolve().parent
TOP = HERE.parent
sys.path[:0] = map(str, [HERE / "bench", HERE / "diff", TOP / "tools" / "lib"])

import draw
import runs
import sides
from check.copies import copy_crates, take_proved

# What has LIBRARIES, `our_modules` and `driver_sources`, by the name of its folder.
CRATES = {"bench": sides, "diff": runs}
# Crates of tests, which `tools/check trials` runs, and a file of the checkout that one of them has
# too: the reader and the writer that fail.
SWEEPS = HERE / "sweeps"
SHARED = {"texts/src/doubles.rt": TOP / "crates" / "ga_rows" / "src" / "tests" / "doubles.rt"}
# A folder with the sources of generic-array 1.4.5, where cargo can't reach its registry.
ORIGINAL = "GENERIC_ARRAY"

MANIFEST = """[package]
name = "{name}_driver"
version = "0.1.0"
edition = "2021"
[dependencies]
generic-array = {{ {original}, features = ["alloc", "internals"] }}
[profile.release]
opt-level = 3
codegen-units = 1
"""

LINKED = """fn main() {{
    println!("cargo:rustc-link-search=native={ours}");
    println!("cargo:rustc-link-search=native={c}");
    println!("cargo:rustc-link-lib=static=ga_{name}");
    println!("cargo:rustc-link-lib=static=libc_c");
    println!("cargo:rerun-if-changed={ours}/libga_{name}.a");
}}
"""


def stop(why):
    sys.exit(f"{os.path.relpath(sys.argv[0], TOP)}: {why}")


def step(words):
    print(f"{words} ...", flush=True)


def folder_of(words, *commands):
    """The folder that stands first in the words, or one for all runs. It needs the commands."""
    missing = [it for it in commands if not shutil.which(it)]
    if missing:
        stop(f"{' and '.join(missing)} must be installed")
    folder = pathlib.Path(words[0] if words else f"{tempfile.gettempdir()}/generic-array-trials")
    folder.mkdir(parents=True, exist_ok=True)
    return folder.resolve()


def run_logged(command, log, advice="", **how):
    """Runs a command whose words go into a file, and stops with their last lines where it fails."""
    log.parent.mkdir(parents=True, exist_ok=True)
    with open(log, "w", encoding="utf-8") as file:
        done = subprocess.run(command, stdout=file, stderr=subprocess.STDOUT, **how)
    if done.returncode:
        lines = log.read_text(errors="replace").splitlines()[-5:]
        why = [f"{' '.join(map(str, command))} failed:", *lines, f"(all of it: {log})", advice]
        stop("\n".join(filter(None, why)))


def put(path, text):
    """Writes a file, unless it has this text: what is built from it then needn't be built again."""
    path.parent.mkdir(parents=True, exist_ok=True)
    if not path.exists() or path.read_text() != text:
        path.write_text(text)


def add_sides(ours):
    """Adds the crates of bench and diff to a copy of the crates, from their modules' texts."""
    lines = [f"ga_{name} staticlib: {' '.join(it.LIBRARIES)}\n" for name, it in CRATES.items()]
    put(ours / "crates.txt", (TOP / "crates.txt").read_text() + "".join(lines))
    for name, it in CRATES.items():
        source, modules = ours / "crates" / f"ga_{name}" / "src", it.our_modules()
        for path in source.glob("*.rt"):
            if path.stem not in modules:
                path.unlink()
        for module, text in modules.items():
            put(source / f"{module}.rt", text)


def add_sweeps(ours, seed):
    """Adds the crates of sweeps to a copy of the crates, with what is drawn from the seed, and returns
    their names. Where the checkout has a crate of such a name, the files are added to it, each as a
    module of the one above it."""
    lists = [it for it in (TOP / "crates.txt", SWEEPS / "libraries.txt") if it.exists()]
    put(ours / "crates.txt", "".join(it.read_text() for it in lists))
    files, tables = sorted(SWEEPS.glob("*/**/*.rattle")), []
    for file in files:
        name, *path = file.relative_to(SWEEPS).with_suffix(".rt").parts
        laid = ours.joinpath("crates", name, "src", *path)
        above = laid.parent.with_suffix(".rt")
        if laid.exists() or len(path) == 1 and (TOP / "crates" / name).exists():
            raise ValueError(f"{file.relative_to(TOP)} is no module of a file of crates/{name}")
        if (TOP / above.relative_to(ours)).exists():
            put(above, f"{above.read_text()}mod {laid.stem};\n")
        text = draw.filled(file.read_text(), file.stem, seed)
        tables += draw.tables_of(text, laid.stem)
        put(laid, text)
    if tables:
        put(ours / "crates" / "calls" / "src" / "drawn.rt", draw.module_of(tables, seed))
    for path, file in SHARED.items():
        if file.exists():
            put(ours / "crates" / path, file.read_text())
    return sorted({it.relative_to(SWEEPS).parts[0] for it in files})


def build_driver(folder, name):
    """Builds the Rust program over the crate, and returns its path."""
    given = os.environ.get(ORIGINAL)
    original = f'path = "{os.path.abspath(given)}"' if given else 'version = "=1.4.5"'
    kit = pathlib.Path(shutil.which("rt")).resolve().parent.parent
    built = {"ours": folder / "ours" / "crates" / f"ga_{name}" / "out", "c": kit / "c"}
    put(folder / name / "Cargo.toml", MANIFEST.format(name=name, original=original))
    put(folder / name / "build.rs", LINKED.format(name=name, **built))
    for file, text in CRATES[name].driver_sources().items():
        put(folder / name / "src" / file, text)
    flags = {"CARGO_TARGET_DIR": str(folder / "target"), "RUSTFLAGS": "-C target-cpu=x86-64-v2"}
    command = ["cargo", *(["--offline"] if given else []), "build", "--release"]
    advice = "" if given else f"Without a registry: {ORIGINAL} names a folder with the sources."
    run_logged(command, folder / "cargo.log", advice, cwd=folder / name, env={**os.environ, **flags})
    return folder / "target" / "release" / f"{name}_driver"


def build(folder, name):
    """Builds both sides of bench or diff, and returns the path of the Rust program."""
    step("proving and building ours; the first time all crates below it too, for half an hour")
    copy_crates(folder / "ours")
    take_proved(folder / "ours")
    add_sides(folder / "ours")
    run_logged(["rt", "lib"], folder / "ours.log", cwd=folder / "ours" / "crates" / f"ga_{name}")
    step("building the original")
    return build_driver(folder, name)
