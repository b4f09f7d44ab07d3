"""The paths by which readers name items and definitions."""
from reference.meanings import WITH_A_PAGE, base_name
from reference.sources import Item, imports_of

# What stands in specs/ or proofs/: definitions, lemmas, and files.
OF_FILES = ("word", "lemma", "file")


def is_named(path, parts):
    """Whether a path has the parts of a name in this order, with the last one as its end."""
    left = iter(path[:-1])
    return path[-1] == parts[-1] and all(part in left for part in parts[:-1])


class Index:
    """Items by the ends of the paths that lead to them."""

    def __init__(self):
        self.paths, self.by_end = {}, {}

    def add(self, item, *paths):
        """Notes paths that lead to an item."""
        known = self.paths.setdefault(item, [])
        for path in ([part.strip("◌") for part in path] for path in paths):
            if path not in known:
                known.append(path)
                self.by_end.setdefault(path[-1], {}).setdefault(item, []).append(path)

    def named(self, parts):
        """The items to which a path leads that has these parts."""
        return [item for item, paths in self.by_end.get(parts[-1], {}).items()
                if any(is_named(path, parts) for path in paths)]


class Paths(Index):
    """All that readers see: each item or definition with the paths that lead to it."""

    def __init__(self, site):
        super().__init__()
        self.site = site
        self.add_items()
        self.add_members()
        self.add_foreign_traits()
        words = (word for words in site.words.values() for word in words)
        for item in (*site.private_traits, *words):
            self.add(item, self.path(item))

    def add_items(self):
        """Notes the public items, also by the modules that export them."""
        for item in self.site.items:
            if item.home and item.name:
                self.add(item, self.path(item), [*self.site.path(item.module), item.name])
        for module in [item for item in self.site.items if item.kind == "mod"]:
            for name in module.exported:
                if item := self.site.item_named(name, module):
                    self.add(item, [*self.site.path(module), name])

    def add_members(self):
        """Notes the members of types and traits, and those of their impls, also by each alias of a
        type. One of a trait of others is found by that trait too."""
        owners = {item: [item] for item in self.paths if item.kind in WITH_A_PAGE}
        for item in self.paths:
            if item.kind == "type" and "=" in item.head:
                of = self.site.item_named(base_name(item.head.partition("=")[2]), item)
                owners.get(of, []).append(item)
        for of, names in owners.items():
            paths = [path for name in names for path in self.paths[name]]
            for owner in (of, *of.blocks):
                foreign = [owner.of_trait] if owner.of_trait and not owner.trait else []
                for member in self.site.public_members(owner):
                    if member.name:
                        self.add(member, *([*path, *foreign, member.name] for path in paths))

    def add_foreign_traits(self):
        """Notes the traits of others that our types have, each with its impls as its blocks."""
        found = {}
        for impl in self.site.impls:
            if impl.of_trait and not self.site.traits(impl.of_trait, impl):
                found.setdefault(impl.of_trait, []).append(impl)
        for name, blocks in found.items():
            imported = [imports_of(use.head).get(name, ("", ""))
                        for impl in blocks for use in impl.module.of_kind("use")]
            module, there = next((source for source in imported if source[0]), (name, ""))
            path = [*module.split("::"), *([there] if there else ())]
            self.add(Item("foreign trait", name, f"trait {name}", blocks[0].file, blocks[0].line,
                          module=blocks[0].module, path=path, blocks=blocks), path)

    def path(self, item):
        """The path of an item: from the public module that it is found in."""
        if item.kind in OF_FILES:
            crate, *rest = item.module.removeprefix("Rattle.").split(".")
            return [crate, item.folder, *rest, item.name]
        if item.kind == "mod":
            return self.site.path(item)
        if item.kind == "foreign trait":
            return item.path
        if item.of_whom.kind in WITH_A_PAGE:
            return [*self.path(item.of_whom), item.name]
        return [*self.site.path(item.home or item.module), item.name]

    def full_name(self, item):
        """The path of an item as it is written in Rust, or of a definition as in an import."""
        if item.kind in OF_FILES:
            return ".".join(self.path(item))
        return "::".join(self.path(item)) + "!" * (item.kind == "macro")

    def is_own(self, item):
        """Whether an item or a definition is of this repository."""
        return bool(item.file) and item.file.is_relative_to(self.site.top)

    def place(self, item):
        """The file and the line of an item."""
        file = item.file.relative_to(self.site.top) if self.is_own(item) else item.file
        return f"{file}:{item.line}" if file else "built in"
