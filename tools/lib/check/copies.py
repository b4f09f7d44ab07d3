"""Copies of this checkout, in folders of their own."""
import os
import pathlib
import shutil

TOP = pathlib.Path(__file__).resolve().parent.parent.parent.parent


def copy(folder, *parts):
    """Copies parts of the checkout, or all, without what is built."""
    for it in parts or sorted({*os.listdir(TOP)} - {".git"}):
        (folder / it).parent.mkdir(parents=True, exist_ok=True)
        if (TOP / it).is_dir():
            ignored = shutil.ignore_patterns("out")
            shutil.copytree(TOP / it, folder / it, ignore=ignored, dirs_exist_ok=True)
        else:
            shutil.copy2(TOP / it, folder / it)


def copy_crates(folder):
    """Copies the crates as they are now. What an earlier run built in the folder stays."""
    for crate in (TOP / "crates").iterdir():
        for part in ("src", "specs", "proofs"):
            shutil.rmtree(folder / "crates" / crate.name / part, ignore_errors=True)
    copy(folder, "crates", "crates.txt", "HANDLES")


def take_proved(folder):
    """Puts the libraries that are proved in this checkout into a copy, where it has none."""
    for stamp in TOP.glob("crates/*/out/rlib/stamp"):
        built = stamp.relative_to(TOP).parent
        if not (folder / built).exists():
            shutil.copytree(TOP / built, folder / built, symlinks=True)


def write(folder, files):
    """Writes files by their paths. A path with `+` behind it gets the text at its end."""
    for path, text in files.items():
        file = folder / path.rstrip("+")
        file.parent.mkdir(parents=True, exist_ok=True)
        with open(file, "a" if path.endswith("+") else "w", encoding="utf-8") as opened:
            opened.write(text)
