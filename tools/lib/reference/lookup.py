"""Finds items, definitions and rows of documents by names as a reader writes them."""
import collections
import copy
import difflib
import functools
import re

from reference.outside import Samples, items_of_files, private_items, std_methods
from reference.callers import Callers
from reference.meanings import LIBRARIES, header
from reference.paths import Index, Paths, is_named
from reference.rows import (
    CODE, FORMAT, FORMATS, OF_CLAUSES, OF_MESSAGES, OF_OTHERS, OF_RUST, names_in, rows,
    rows_naming, rows_with,
)
from reference.sources import ANGLE, end_of_bracket, imports_of

MOST_NEAR, MOST_ROWS = 8, 4
# The modules of std whose words are found though no crate imports them.
OF_ALL = ("Rattle.std.specs.Prelude", "Rattle.std.specs.Ordering")
# In which order the members of types stand where several have a name. The first four are slices.
FIRST = ("GenericArray", "BoxedArray", "GenericArrayRef", "GenericArrayMut", "GenericArrayIter")
# What a name means: the item that comes first, the others, and the rows of the documents on it.
# Where no item comes first, these do.
Answer = collections.namedtuple("Answer", "first others rows")


def parts_of(name):
    """The parts of a name, without type parameters; a message is one, and a format its trait."""
    if sign := FORMAT.fullmatch(name):
        return [FORMATS[sign[1]]]
    name = name.removeprefix("Rattle.").replace("::<", "<").replace("[T]::", "slice::")
    while (at := name.find("<")) > 0 and name.count("<") == name.count(">"):
        name = name[:at] + name[end_of_bracket(name, at, ANGLE):]
    bare = re.sub(r"[(){}!&\s]", "", name)
    parts = re.split(r"::|\.", bare) if len(name.split()) < 3 else [bare]
    return [part.strip("◌") for part in parts if part] or [bare]


def impl_of(item):
    """The impl that an item is a member of, or None."""
    return item.owner if item.owner is not None and item.owner.kind == "impl" else None


def is_detail(item):
    """Whether an item is a part of another that isn't called: it is looked up by the names
    of both."""
    is_inner = item.owner is not None and item.owner.kind != "mod"
    return is_inner and item.kind not in ("word", "fn")


class Names(Paths):
    """What names mean: items, definitions and rows of the documents."""

    def __init__(self, site):
        super().__init__(site)
        of_rust, self.clauses = rows(site.top, OF_RUST), rows(site.top, OF_CLAUSES)
        self.rows = [row for row in of_rust if row.heading != OF_OTHERS]
        # Of lists a row's cells have no titles.
        self.messages = [row for row in rows(site.top, OF_MESSAGES) if row.cells[0][0]]
        self.samples = Samples(site)
        self.callers = Callers(self)
        # The names of typenum, std and other crates, each with the one that it is looked up by.
        self.other_names = {"".join(name.split()): row.ours.strip("`") for row in of_rust
                            if row.heading == OF_OTHERS for name in CODE.findall(row.theirs)}
        # The names that an item of ours and one of others have.
        self.twice = {name for module in site.items for name in module.foreign
                      if name in site.by_name}

    @functools.cached_property
    def outside(self):
        """What stands on no page: samples, what isn't public, lemmas, files, methods of std."""
        private = [item for item in private_items(self.site) if item not in self.paths]
        found = Index()
        for item in (*self.samples.items, *private, *items_of_files(self.site)):
            found.add(item, self.path(item))
        for of, item in std_methods(self.site.library):
            owners = FIRST[:4] if of == "slice" else ()
            found.add(item, self.path(item), *([owner, item.name] for owner in owners))
        return found

    def is_of_library(self, item):
        """Whether an item stands in a library of the port, or is a trait that its types have."""
        in_library = item in self.paths and self.path(item)[0] in LIBRARIES
        return in_library or item.kind == "foreign trait"

    def order(self, item):
        """Where an item stands among those that a name means: the library's whole items first."""
        owner, impl = self.path(item)[-2:][0], impl_of(item)
        place = FIRST.index(owner) if owner in FIRST else len(FIRST)
        of_trait = item.kind == "fn" and item.owner.kind == "trait"
        return (not self.is_of_library(item), is_detail(item) and item.owner.kind != "trait",
                item.kind == "word", 0.5 if of_trait else place, bool(impl and impl.of_trait))

    def rows_of_messages(self, name, asked):
        """The rows on what to write: for a name those that have it as code, and for what is none
        those that have its words."""
        if not asked.first and not asked.rows:
            return rows_with(self.messages, name)
        return rows_naming(self.messages, parts_of(name)[-1])

    def answer(self, name):
        """What a name most likely means: what it is looked up by, then items of the library, rows
        of the documents, words that crates import, what stands above the library or on no page,
        names of clauses, and items whose docs name it."""
        parts = parts_of(name)
        items = sorted(self.candidates(name), key=self.order) or sorted(
            self.outside.named(parts), key=self.samples.rank)
        if name in self.by_end and name in self.other_names:
            first, others, rows = self.answer(self.other_names[name])
            others = [it for it in dict.fromkeys([*items, *others]) if it is not first]
            return Answer(first, others, self.rows_about(name, True) or rows)
        leads = len(parts) > 1 and any(
            item.file and self.is_own(item) or is_named(self.path(item), parts)
            for item in (*self.named(parts), *self.outside.named(parts)))
        known = leads or items and items[0] in self.paths or self.rows_about(name, False)
        if other := "" if known else self.other_name(parts):
            return self.answer(other)
        words, rows = self.of_std(name, self.imports), self.rows_about(name, bool(items))
        others = [*(it for it in self.outside.named(parts) if not self.is_own(it)),
                  *self.of_std(name, self.std_words)] if len(parts) == 1 else []
        is_above = not items or not self.is_of_library(items[0])
        is_of_rust = len(parts) > 1 and not self.named(parts) and any(
            parts in row.names for row in rows)
        if rows and (is_above and not leads or is_of_rust):
            return Answer(None, [*(item for item in items if not is_detail(item)), *words], rows)
        if is_above and not leads and not (items := [*words, *items, *others]):
            if rows := [row for row in self.clauses if row.fit(parts) or row.mentions(parts)]:
                return Answer(None, [], rows)
            items = self.items_by_docs(parts)
        first, *others = dict.fromkeys([*items, *words, *others]) or [None]
        return Answer(first, others, [] if is_above else rows)

    def items_by_docs(self, parts):
        """The items whose docs have a name as code, as that of another crate's call."""
        return [item for item in self.paths if parts[-1] in item.docs and any(
            name[-1] == parts[-1] for code in CODE.findall(item.docs) for name in names_in(code))]

    def rows_about(self, name, is_ours):
        """The rows of the documents for a name: those that have it in front, or else, for one of
        ours, those that it stands for, and for another those that name it."""
        other = self.other_name(parts_of(name)) if is_ours else ""
        for parts in map(parts_of, filter(None, (name, other))):
            others = [row for row in self.rows
                      if (row.stands_for(parts) if is_ours else row.mentions(parts))]
            if rows := self.rows_of(parts) or sorted(others, key=lambda row: -row.around(parts)):
                return rows[:MOST_ROWS]
        return []

    def other_name(self, parts):
        """The name that one of typenum, of std or of another crate is looked up by, if any."""
        if re.fullmatch(r"[UPN]\d+", parts[-1]):
            return "typenum"
        return self.other_names.get("::".join(parts)) or self.other_names.get(parts[-1], "")

    def candidates(self, name):
        """The items that a name may mean: one of typenum or of std none above the library. A name
        that leads nowhere, not even to what no page has, means what has its end as a name."""
        parts = parts_of(name)
        exact = self.named(parts)
        found = exact or self.inherited_members(parts)
        if not found and len(parts) > 1 and not self.outside.named(parts):
            found = self.named(parts[-1:])
        if len(parts) == 1 or not exact:
            # A member of an impl that only does what its trait says says nothing new.
            best = min(found, key=self.order, default=None)
            found = [item for item in found if item is best or item.clauses or item.docs
                     or not (impl_of(item) and impl_of(item).trait)]
        else:
            found = [item for item in found if name.startswith("&") == bool(
                impl_of(item) and " for &" in header(impl_of(item)))] or found
        found = [item for item in found if not is_detail(item)] or found
        is_other = self.other_name(parts) or parts[-1] in self.other_names.values()
        return [item for item in found if not is_other or self.is_of_library(item)]

    def inherited_members(self, parts):
        """The members of traits that a type has by an impl that doesn't write them."""
        owners = self.named(parts[-2:-1]) if len(parts) > 1 else []
        traits = [impl.trait for owner in owners if owner.kind in ("struct", "enum")
                  for impl in owner.blocks if impl.trait]
        return [member for trait in dict.fromkeys(traits) for member in trait.of_kind("fn")
                if member.name == parts[-1]]

    def rows_of(self, parts):
        """The rows that have a name in front, those first that have most of it, or else those that
        have it as a part of one. A module's row that says nothing stands for those below it."""
        fits = sorted(((row.fit(parts), row) for row in self.rows), key=lambda fit: -fit[0])
        rows = [row for fit, row in fits if fit > 1] or [row for fit, row in fits if fit]
        first = rows[0] if len(rows) == 1 else None
        if first and first.section == first.theirs and not first.ours and not first.notes:
            rows = [row for row in self.rows if row.section == first.section and row != first]
        return rows

    @functools.cached_property
    def imports(self):
        """The words that the crates import, each with its module and its name there."""
        lines = [use.head for use in self.site.items if use.kind == "ghost use"]
        return imports_of("\n".join(lines))

    @functools.cached_property
    def std_words(self):
        """The words that std has for all and the crates don't import, likewise."""
        library = self.site.library
        return {name: (module, name) for module in OF_ALL for name in library.exports(
            library.module_file(module)) if name not in self.imports}

    def of_std(self, name, known):
        """The word of another library that a name means, as of where it is imported from."""
        *above, last = parts_of(name)
        module, there = known.get(last, ("", ""))
        word = self.site.library.word(module, there) if there else None
        is_new = word and (word.file or known is self.std_words) and not self.is_own(word)
        if not is_new or above and "specs" not in above:
            return []
        word = copy.copy(word)
        word.module, word.name = module.removeprefix("Rattle.").replace(".specs.", ".", 1), there
        return [word]

    def near(self, name):
        """Names that look like one that nothing has, the likeliest first."""
        known = {item.name: item for item in (*self.outside.paths, *self.paths)}
        return [self.full_name(known[end]) for end in
                difflib.get_close_matches(parts_of(name)[-1], known, MOST_NEAR, 0.55)]
