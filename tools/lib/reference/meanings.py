"""What the names of clauses and definitions mean, and what of the crates is public and where."""
import functools
import pathlib
import re

from reference.rows import CODE, OF_CLAUSES, OF_STD, rows
from reference.sources import ANGLE, Item, end_of_bracket, imports_of, items_of, list_items

LIBRARIES = "ga_views ga_core ga_boxed generic_array".split()
CRATES = [*LIBRARIES, *"ga_headline ga_records ga_hashes ga_ciphers ga_uses ga_rows".split()]
WITH_A_PAGE = ("struct", "enum", "trait")
ATOM = re.compile(r'"[^"]*"|//.*|[^\s(){},;]+|[\s(){},;]+')
BINDERS = re.compile(r"λ ([^.]*?)\.(?=\s)|(?:[({;]|\blet)\s*((?:[^\s(){};λ.≡]+ )+?)[:=] ")
VALUES = set("Some None Ok Err true false []".split())  # Readers know them, though std has them.
UNDER_A_BOUND = {"step": "steps"}  # FnMut's member is spelled so where it is written under a bound.


def generics(head):
    """The text between the angle brackets behind an item's name, and what follows."""
    begin = re.match(r"(?:pub\([^)]*\))?[^<({:;=]*", head).end()
    end = end_of_bracket(head, begin, ANGLE) if head.startswith("<", begin) else begin
    return head[begin + 1:end - 1], head[end:]


def declarations(head):
    """What a head declares: its types with their bounds, and the names of its parameters."""
    inside, behind = generics(head)
    behind, _, where = re.sub(r"\bwhere\b", "\0", behind).partition("\0")
    bounds = {}
    for part in list_items(inside) + list_items(where):
        name, _, bound = part.removeprefix("const ").partition(": ")
        bounds.setdefault(name.replace("::", "."), []).extend(list_items(bound, "+"))
    group = re.match(r"\((.*)\)", behind.split("->")[0].strip(), re.S)
    parameters = list_items(group[1] if group else "")
    return bounds, [re.sub(r"^mut |^&.*", "", part.partition(":")[0]) for part in parameters]


def supertraits(trait):
    """The bounds on a trait itself: those that stand above it."""
    return list_items(generics(trait.head)[1].split("where")[0].removeprefix(":"), "+")


def base_name(bound):
    """The name of a trait or a type, without its path and its parameters."""
    return (re.findall(r"\w+", re.sub(r"[<(\[].*", "", bound, flags=re.S)) or [""])[-1]


def header(impl):
    """What an impl is of, on one line, without parameters: a type, or a trait for a type."""
    head = impl.head[impl.head.index("impl"):]
    behind = generics(head)[1] if head.startswith("impl<") else head[5:]
    return " ".join(re.split(r"\bwhere\b", behind)[0].split())


class Scope:
    """The names that the terms of an item or of a definition may use."""

    def __init__(self, site, item):
        self.site, self.item = site, item
        self.imports, self.bounds, self.local, self.near = {}, {}, set(), {}
        if item.kind == "word":
            self.enter_definition(item)
        else:
            for part in (item.module, item.owner, item):
                self.enter(part)
        for name, source in list(self.imports.items()):
            pieces = [piece for piece in name.split("◌") if piece]
            self.imports = {piece: source for piece in pieces} | self.imports

    def enter(self, part):
        """Takes in what a module, an impl or an item declares and imports."""
        bounds, parameters = declarations(part.head)
        lines = [use.head for use in part.of_kind("ghost use")]
        self.imports |= imports_of("\n".join(lines))
        with_fields = part.kind in ("struct", "enum")
        self.local |= {member.name for member in part.members} if with_fields else {*parameters}
        if part.kind == "trait":
            self.near |= {member.name: member for member in part.of_kind("ghost")}
        if part.kind in ("trait", "impl"):
            self.bounds["Self"] = [part.name if part.kind == "trait" else part.of_trait]
        self.bounds |= bounds

    def enter_definition(self, word):
        """Takes in what a definition's file imports and defines, and what its equations bind."""
        self.imports |= word.imports
        self.near = self.site.library.definitions(word.file)
        equations = re.findall(rf"(?m)^{re.escape(word.name)} (.*?) = ", word.head)
        bound = re.findall(r"[^\s(){}]+", " ".join(equations))
        self.local = set(bound) - {*self.imports, *self.near}

    def named(self, name):
        """The traits that a name means here, of ours or of std."""
        return self.site.traits(name, self.item) or self.site.library.std_traits(name)

    def traits_of(self, name):
        """The traits that a type has by its bounds, those above these, and those of their types."""
        found, left = [], list(self.bounds[name])
        inner = [bound for path, bounds in self.bounds.items() if path.startswith(f"{name}.")
                 for bound in bounds]
        while left or inner:
            for trait in self.named(base_name((left or inner).pop(0))):
                if trait not in found:
                    found.append(trait)
                    left += supertraits(trait)
                    for member in trait.of_kind("type"):
                        inner += list_items(member.head.partition(":")[2], "+")
        return found

    def meaning(self, atom, bound):
        """The item or the definition that an atom of a term names, or None. What is below a type is
        a trait that it has, or a ghost member of one, whose name may stand in front."""
        name, *path = atom.rstrip(".").split(".")
        if path and name in self.bounds and name not in bound:
            last = UNDER_A_BOUND.get(path[-1], path[-1])
            traits = [trait for part in path[:-1] for trait in self.named(part)]
            found = [member for trait in traits or self.traits_of(name)
                     for member in (trait, *trait.of_kind("ghost")) if member.name == last]
            return next(iter(found), None)
        if name in bound or name in self.local or name in VALUES:
            return None
        if name in self.imports:
            module, there = self.imports[name]
            return self.site.library.word(module, there or (path[0] if path else ""))
        near = self.near.get(name)
        return near if near or self.item.kind == "word" else self.site.item_named(name, self.item)

    def pieces(self, term):
        """The atoms of a term, each with what it names, or None."""
        names = [found[0] or found[1] for found in BINDERS.findall(term)]
        bound = {name for group in names for name in group.strip("{}").split()}
        for atom in ATOM.findall(term):
            yield atom, self.meaning(atom, bound)


class Site:
    """The crates, read and joined."""

    def __init__(self, top, library):
        self.top, self.library, self.items, self.by_name = top, library, [], {}
        # The modules of tests, and of crates that no page is of.
        self.samples = []
        others = {folder.name for folder in (top / "crates").iterdir()} - {*CRATES}
        self.crates = {name: self.crate(name, name in others) for name in (*CRATES, *others)}
        self.crates = {name: self.crates[name] for name in CRATES}
        for item in self.items:
            item.home = self.home(item)
            if item.home:
                self.by_name.setdefault(item.name, []).append(item)
        self.impls = [item for item in self.items if item.kind == "impl" and self.join_impl(item)]
        for impl in self.impls:
            impl.of.blocks.append(impl)

    @functools.cached_property
    def private_traits(self):
        """The traits that only their crates see."""
        return [item for item in self.items if item.kind == "trait" and not item.home]

    @functools.cached_property
    def notation(self):
        """The signs and words of std that clauses use most, each with its line."""
        return {code: row.ours for row in rows(self.top, OF_CLAUSES) if row.heading == OF_STD
                for code in CODE.findall(row.theirs)}

    @functools.cached_property
    def words(self):
        """The definitions of the crates, by their files."""
        files = [file for crate in CRATES
                 for file in sorted((self.top / "crates" / crate / "specs").rglob("*.antt"))]
        return {file: list(self.library.definitions(file).values()) for file in files
                if file.name != "Lib.antt"}

    def crate(self, name, is_sample):
        """A crate's root with all that stands below it. A program's is main.rt."""
        files = [self.top / "crates" / name / "src" / file for file in ("lib.rt", "main.rt")]
        file = next(filter(pathlib.Path.exists, files), None)
        return file and self.module(Item("mod", name, "", None, 1), file, is_sample)

    def read(self, module, file):
        """Reads what stands in a module's file."""
        module.text = file.read_text("utf-8")
        inner = "\n".join(re.findall(r"(?m)^//! ?(.*)$", module.text))
        module.docs, module.title = inner or module.docs, inner.partition("\n")[0].rstrip(".")
        module.file, module.program = module.file or file, file.name == "main.rt"
        module.members = list(items_of(module.text, file, module))
        self.note_uses(module)

    def module(self, module, file, is_sample):
        """A module with all that stands in its file and below."""
        self.read(module, file)
        if is_sample:
            module.file, module.line = file, 1
            self.samples.append(module)
        else:
            self.items += [module] if not module.owner else []
            self.items += [item for member in module.members for item in (member, *member.members)]
        folder = file.parent if file.name in ("lib.rt", "main.rt") else file.with_suffix("")
        for member in module.of_kind("mod"):
            is_test = "cfg(test)" in member.attributes
            self.module(member, folder / f"{member.name}.rt", is_sample or is_test)
        return module

    def note_uses(self, module):
        """Notes what a module exports of the crates, and the names that it has from elsewhere."""
        near = (*CRATES, "crate", "super", *(member.name for member in module.of_kind("mod")))
        uses = [(use, *found) for use in module.of_kind("use")
                for found in imports_of(use.head).items()]
        for use, name, (path, there) in uses:
            if path.split("::")[0] in near:
                module.exported += [name] if use.public else []
            elif use.public:
                head = f"use {path}::{there}".rstrip(":")
                foreign = Item("foreign", name, head, use.file, use.line, use.docs, owner=module)
                module.members.append(foreign)
            else:
                module.foreign[name] = f"{path}::{there}".removesuffix("::")

    def path(self, module):
        """The names of a module and of those above it."""
        return [*self.path(module.owner), module.name] if module.owner else [module.name]

    def home(self, item):
        """The public module that an item is found in: its own, or one above that exports it."""
        if item.kind == "mod":
            return item if not item.owner or item.public and self.home(item.owner) else None
        if not item.public or item.owner.kind != "mod" or item.kind in ("impl", "use", "ghost use"):
            return None
        module = item.owner
        while not self.home(module):
            module = module.owner
            if module.program and item.name not in module.exported:
                return None  # The hidden modules of a program say `pub` to each other.
        return module

    def item_named(self, name, item):
        """The public item that a name of code means at an item, by the imports of its file."""
        others = self.by_name.get(name, []) if name not in item.module.foreign else []
        crate = self.path(item.module)[0]
        return min(others, key=lambda other: self.path(other.home)[0] != crate, default=None)

    def traits(self, name, item):
        """The traits of ours that a name means at an item: public ones, or else its crate's."""
        public = [other for other in self.by_name.get(name, []) if other.kind == "trait"]
        if public or item.kind == "word":
            return public
        crate = self.path(item.module)[0]
        return [other for other in self.private_traits if other.name == name
                and self.path(other.module)[0] == crate]

    def join_impl(self, impl):
        """Notes an impl's type, or else its trait. Returns whether readers see it."""
        head = header(impl)
        trait, _, of = head.rpartition(" for ")
        impl.of_trait = base_name(trait)
        traits = [item for item in self.by_name.get(impl.of_trait, []) if item.kind == "trait"]
        names = [base_name(of), *re.findall(r"\w+", head)]
        found = [self.item_named(name, impl) for name in names]
        types = [item if item and item.kind in WITH_A_PAGE[:2] else None for item in found]
        impl.trait = (traits or [None])[0]
        impl.of = types[0] or (traits or [*filter(None, types), None])[0]
        return impl.of and (trait or any(member.public for member in impl.of_kind("fn")))

    def public_members(self, item):
        """What readers see of an item's members."""
        of_all = item.kind in ("trait", "enum") or item.kind == "impl" and item.of_trait
        return [member for member in item.members if member.kind != "ghost use"
                and (of_all or member.public or member.kind == "ghost")]

    def shown(self):
        """All items that have a place in the reference, with their members."""
        for item in self.items:
            if item.home or item in self.impls:
                yield item
                if item.kind not in ("mod", "foreign"):
                    yield from self.public_members(item)

    def named(self, items):
        """What each term of items names: the item, the name, and what it means."""
        for item in items:
            scope = Scope(self, item) if item.clauses else None
            for clause in item.clauses:
                pieces = scope.pieces(clause.term)
                yield from ((item, *piece) for piece in pieces if piece[1])

    def full_name(self, item):
        """An item's name behind that of its type or trait, a definition's behind its module."""
        if item.of_whom is not None and item.of_whom.kind in WITH_A_PAGE:
            return f"{item.of_whom.name}::{item.name}"
        return item.name or item.head.split("\n")[0]

    def said(self, item):
        """What is said of an item or a definition in a line, if anything is."""
        said = self.notation.get(item.name.strip("◌")) or item.notes
        return " ".join((said or item.docs.partition("\n\n")[0]).split())

    def line(self, item):
        """A line on an item or a definition: its notes or docs, or else its type."""
        said = self.said(item)
        first = re.sub(r"^((abbrev|unfoldable|pub|ghost) )*", "", item.head.split("\n")[0])
        return said or first or item.module
