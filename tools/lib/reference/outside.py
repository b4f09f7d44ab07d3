"""Reads what no page has: functions and types of examples, of tests and of private modules, lemmas,
and the files of proofs/ and specs/ as modules."""
import functools
import inspect
import re

from reference.meanings import WITH_A_PAGE, base_name, declarations, header
from reference.paths import OF_FILES
from reference.sources import Item, items_of

# What is a definition: what is marked so, and what is a type. Of all else the proof is left out.
DEFINITION = re.compile(r"(?:abbrev|unfoldable|record|data)\b|.*[:→]\s+Type \d\Z", re.S)
# A list of lemmas with the notes above it.
RULESET = re.compile(
    r"(?m)(?P<notes>(?:^ *-- .*\n)*)"
    r"^ *pub (?P<head>ruleset (?P<name>\S+) = \((?P<names>[^)]*)\))$")
# The notes with which a file begins, up to an empty line or a list.
TITLE = re.compile(r"(?:-- \S.*\n)*")
# An impl of std for slices or for a type of integers, or a trait of iterators.
OF_STD = re.compile(r"(?m)^impl(?:<.*>)? (?:\[(?:\w+|\[T; N\])\]|([iu](?:\d+|size)))(?= |$)"
                    r"|^pub trait ((?:DoubleEnded)?Iterator)\b")


def is_test(item):
    """Whether an item is a test."""
    return "#[test]" in item.attributes


def code_of(item):
    """The code of an item as it stands in its file, with its attributes."""
    attributes = [line.strip() for line in item.attributes.split("\n") if line.strip()]
    return "\n".join([*attributes, inspect.cleandoc(item.module.text[item.begin:item.end])])


def members_of(module):
    """The items of a module, and the functions of its types."""
    types = {item.name: item for item in module.of_kind(*WITH_A_PAGE)}
    for item in module.members:
        if item.kind == "impl":
            trait, _, of = header(item).rpartition(" for ")
            item.of, item.of_trait = types.get(base_name(of)), base_name(trait)
            if item.of:
                item.of.blocks.append(item)
                yield from item.of_kind("fn")
        elif item.name and item.kind not in ("mod", "use", "ghost use"):
            yield item


def private_items(site):
    """What stands in the crates that are read and isn't public."""
    found = [item for item in site.items if item.name and not item.home]
    return [item for item in found if item.kind in ("fn", "const", "static", "type", *WITH_A_PAGE)
            and (item.owner.kind == "mod" or item.owner.kind == "impl" and item.owner.of)]


def std_methods(library):
    """The methods of slices, integers and iterators, as those of types of std, by the type's name:
    our arrays and views are slices too."""
    std = Item("mod", "std", "", None, 1)
    for file, text in library.std:
        if OF_STD.search(text):
            module = Item("mod", file.stem, "", file, 1)
            module.members = list(items_of(text, file, module))
            for impl in module.of_kind("impl", "trait"):
                if of := OF_STD.match(impl.head):
                    name = of[1] or of[2] or "slice"
                    impl.home = std
                    impl.of = Item("struct", name, "", None, 1, owner=std, home=std)
                    yield from ((name, it) for it in impl.of_kind("fn") if it.public or of[2])


def is_declared(file, how="(?:pub )?"):
    """Whether a file of proofs/ is a module of its crate, and so is each that it is a part of."""
    folder = file.parent
    above = folder / "Lib.antt" if folder.name == "proofs" else folder.with_suffix(".antt")
    line = re.compile(rf"(?m)^{how}mod {re.escape(file.stem)}$")
    is_here = above.exists() and bool(line.search(above.read_text("utf-8")))
    return is_here and (above.stem == "Lib" or is_declared(above, how))


def as_module(site, file):
    """A file as a module: its title is the notes that it begins with."""
    crate, folder, *above = file.relative_to(site.top / "crates").parent.parts
    title = " ".join(re.findall("-- (.*)", TITLE.match(file.read_text("utf-8"))[0]))
    return Item("file", file.stem, "", file, 1, notes=title, folder=folder,
                module=".".join([crate, *above]))


def statement(word):
    """The type of a lemma without its proof; of what is no lemma the whole definition."""
    head = word.head.replace("pub ", "", 1)
    proof = head.find(f"\n{word.name} ")
    return head if proof < 0 or DEFINITION.match(head[:proof]) else head[:proof]


def lemmas_of(site, file):
    """The lemmas of a file that others cite, each with the lists that it is in, and its lists."""
    text, of = file.read_text("utf-8"), as_module(site, file)
    lists = {found["name"]: re.split(r",\s*", found["names"]) for found in RULESET.finditer(text)}
    place = {"folder": of.folder, "module": f"{of.module}.{of.name}"}
    for word in site.library.definitions(file).values():
        if re.search(r"\bpub ", word.head.split(":")[0]):
            held = [name for name, names in lists.items() if word.name in names]
            yield Item("lemma", word.name, statement(word), file, word.line, notes=word.notes,
                       context=word.context, lists=held, **place)
    for found in RULESET.finditer(text):
        line = text.count("\n", 0, found.start("head")) + 1
        notes = " ".join(re.findall("-- (.*)", found["notes"]))
        yield Item("lemma", found["name"], found["head"], file, line, "", notes, lists=[], **place)


def items_of_files(site):
    """All lemmas, the definitions that no page has, and the files of both as modules."""
    crates = site.top / "crates"
    proofs = [file for file in sorted(crates.glob("*/proofs/**/*.antt")) if is_declared(file)]
    specs = [file for file in sorted(crates.glob("*/specs/**/*.antt")) if file.stem != "Lib"]
    words = [site.library.definitions(file).values() for file in specs if file not in site.words]
    return [*(lemma for file in proofs for lemma in lemmas_of(site, file)),
            *(word for found in words for word in found),
            *(as_module(site, file) for file in (*proofs, *specs))]


def proofs_of(names, item):
    """The files that prove a function of an example."""
    crate, *rest = names.path(item)
    return sorted(names.site.top.joinpath("crates", crate, "proofs", *rest).glob("*.antt"))


class Samples:
    """The crates and modules that no page is of, in the order of their files."""

    def __init__(self, site):
        self.site, modules = site, sorted(site.samples, key=lambda module: module.file)
        self.items = [it for module in modules for it in (module, *members_of(module))]

    @functools.cached_property
    def documents(self):
        """The text of the documents, and the names of the functions that it shows."""
        files = sorted((self.site.top / "docs").glob("*.md"))
        text = " ".join(file.read_text("utf-8") for file in files)
        text = re.sub(r"`(\w+)::(\w+)`", r"`\2` of `\1`", text)
        return " ".join(text.split()), set(re.findall(r"\bfn (\w+)", text))

    def is_in_documents(self, item):
        """Whether a document shows or names a function."""
        return item.name in self.documents[1] or f"`{item.name}`" in self.documents[0]

    def order(self, item):
        """Where a sample stands among others: first what the documents show, then what has clauses,
        isn't of nothing, is of any length or type, and is shorter."""
        bounds = declarations(item.head)[0] if item.kind == "fn" else {}
        return (item.name not in self.documents[1], not item.clauses, item.name.startswith("no"),
                not any(bounds.values()), item.end - item.begin)

    def rank(self, item):
        """Where what stands on no page stands among those of one name: first a method of std, of a
        type before one of a trait, then what the documents name with its module, and tests last."""
        of_trait = item.owner is not None and item.owner.kind == "trait"
        is_own, is_whole = item.file.is_relative_to(self.site.top), item.kind in ("mod", "file")
        named = (f"::{item.name})" if item.kind in OF_FILES else
                 f"`{item.name}` of `{item.module.name}`") in self.documents[0]
        return (is_own, of_trait, is_test(item), not named, is_whole,
                item.module not in self.site.samples, self.order(item))
