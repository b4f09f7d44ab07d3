"""What is shown of an item, a definition, a lemma or a module, in parts that a page or the terminal
lays out."""
import collections
import re
import textwrap

from reference.outside import code_of, is_declared, is_test, proofs_of
from reference.layout import one_line, prose
from reference.lookup import impl_of
from reference.meanings import WITH_A_PAGE, Scope, base_name, declarations, header
from reference.sources import atoms_of, imports_of, is_in
from reference.text import use_line

# What a module's lists are called, in their order.
LISTS = {"Modules": ["mod"], "Types": ["struct", "enum"], "Traits": ["trait"], "Aliases": ["type"],
         "Functions": ["fn"], "Macros": ["macro"], "Constants": ["const", "static"],
         "From other libraries": ["foreign"]}
# A proof file that is shown whole has at most so many lines, and so many others are named.
MOST_LINES, MOST_OTHERS = 12, 8
# A link of a document.
LINK = re.compile(r"\[[^\]]*\]\((?:\.\./)?([^)]*)\)")
# The crates by which a crate above the library imports a word, the highest first.
READERS = ("generic_array", "ga_core")

# A part: its kind, a name, code or a method of `Text`, its content, its title, and the item whose
# names it uses. The content of `docs` and `code` is a text, of `listed` names with texts.
Part = collections.namedtuple("Part", "kind content title item")


def part(kind, content, title="", item=None):
    """A part, or none where it is empty."""
    return [Part(kind, content, title, item)] if content else []


def first_sentence(item):
    """The sentence that a list has of an item."""
    text = " ".join((item.docs or item.notes).partition("\n\n")[0].split())
    return re.split(r"(?<=[a-z0-9`)]\.) ", text)[0]


def docs(item):
    """The docs of an item, or else its notes."""
    return part("docs", item.docs or item.notes, item=item)


def declaration(item):
    """What a type is declared as, with those of its fields or variants that readers see."""
    lines = [f"{item.head} {{"]
    for member in item.members:
        if member.public:
            lines += [f"    /// {line}".rstrip() for line in member.docs.splitlines()]
            lines += [textwrap.indent(f"{member.head},", "    ")]
    if not all(member.public for member in item.members):
        lines.append("    // private fields")
    return "\n".join([*lines, "}"]) if len(lines) > 1 else item.head


class Items:
    """What is shown of items and definitions, and for a name."""

    def __init__(self, names):
        self.names, self.site = names, names.site

    def head(self, item):
        """An item's head. A name that an item of ours and one of std have is the whole path."""
        head = item.head
        for name in self.names.twice - {item.name} if self.names.is_own(item) else ():
            ours = self.site.item_named(name, item)
            path = self.names.full_name(ours) if ours else item.module.foreign.get(name, name)
            head = re.sub(rf"(?<![\w:]){name}\b", path, head)
        return part("code", head, item=item)

    def call(self, item):
        """What has a signature, docs and clauses alone: a function, a constant, a field. A member
        of an impl that says nothing has what its trait says of it, and the ghost members of the
        impl that are named there, or all where nothing is."""
        impl, said, ghosts, texts = impl_of(item), item, [], [item]
        if impl and impl.of_trait:
            traits = [impl.trait] if impl.trait else self.site.library.std_traits(impl.of_trait)
            above = [member for trait in traits for member in trait.members
                     if (member.kind, member.name) == (item.kind, item.name)]
            said = item if item.clauses or not above else above[0]
            terms = " ".join(clause.term for clause in said.clauses)
            ghosts = [member for member in impl.of_kind("ghost") if member is not item
                      and (not terms or re.search(rf"\b{re.escape(member.name)}\b", terms))]
            texts = [item, *(above if impl.trait else ()), impl, *above]
        cited = [*([said] if said.module else ()), *ghosts]
        clauses = [clause for clause in said.clauses if clause.keyword != "ghost"]
        texts = [it for it in texts if it.docs] or [it for it in texts if it.notes] or [item]
        return [*(self.head(impl) if impl else ()), *self.head(item), *docs(texts[0]),
                *part("written", clauses, item=said), *self.conditions(item),
                *part("laid", [ghost.head for ghost in ghosts], "Here"), *self.words(cited),
                *self.imports(cited), *part("caller", self.names.callers.of(item))]

    def conditions(self, item):
        """What the conditions of a trait's call are at each kind: the heads of impls, and below
        them their ghost members that the conditions name."""
        if item.owner is None or item.owner.kind != "trait":
            return []
        found, terms = {}, [it.term for it in item.clauses if it.keyword == "requires"]
        named = [(thing.owner, thing.name)
                 for _, thing in Scope(self.site, item).pieces("\n".join(terms))
                 if thing and thing.kind == "ghost" and thing.owner.home]
        traits = dict.fromkeys(trait for trait, _ in named)
        for impl in [it for trait in traits for it in self.site.impls if it.trait is trait]:
            ghosts = [it.head for it in impl.of_kind("ghost") if (impl.trait, it.name) in named]
            if ghosts:
                found.setdefault(tuple(ghosts), []).append(one_line(header(impl)))
        lines = [line for ghosts, heads in found.items()
                 for line in (*heads, *(textwrap.indent(ghost, "    ") for ghost in ghosts))]
        return part("laid", lines, "Here")

    def words(self, items):
        """The list of what the clauses of items name: our definitions and ghost members, and of the
        words of others what has a line."""
        ours, others = {}, {}
        for _, atom, thing in self.site.named(items):
            name = atom.rstrip(".")
            if thing not in items and thing.kind in ("word", "ghost"):
                if self.names.is_own(thing):
                    ours.setdefault(thing, name)
                elif thing.kind == "word" and re.match(r"[A-Za-z]\w*$", name):
                    others[name] = self.site.said(thing)
        pairs = [(name, self.site.line(thing)) for thing, name in ours.items()]
        pairs += [it for it in others.items() if it[1] and it[0] not in ours.values()]
        return part("listed", pairs, "Words")

    def modules_of(self, word):
        """The modules by which crates import a word of ours: that of the highest crate first."""
        crate, _, rest = word.module.removeprefix("Rattle.").partition(".")
        paths = [f"Rattle.{reader}.{word.folder}.{rest}" for reader in (*READERS, crate)]
        return [path for path in dict.fromkeys(paths)
                if self.names.is_own(word) and self.site.library.module_file(path) == word.file]

    def imports(self, items):
        """The lines by which a crate above the library imports what the clauses of items name, and
        the lower library that has all of ours too."""
        lines, crates = {}, []
        for item in items:
            scope = Scope(self.site, item)
            for atom, word in [it for clause in item.clauses for it in scope.pieces(clause.term)]:
                module, there = scope.imports.get(atom.rstrip("."), ("", ""))
                if module and word and word.kind == "word":
                    paths = self.modules_of(word)
                    module = paths[0] if paths else module.replace("Rattle.core.", "Rattle.std.")
                    lines.setdefault(module, set()).add(there)
                    crates += [{path.split(".")[1] for path in paths[1:]}] if paths else []
        lower = [{self.site.path(item.module)[0] for item in items if item.module}, *crates]
        lower = sorted(set.intersection(*lower)) if crates else ()
        return part("laid", [*(use_line("ghost use", *it) for it in sorted(lines.items())),
                             *(f"A crate over `{name}` alone: from `Rattle.{name}.specs`."
                               for name in lower)], "Imports")

    def macro(self, item):
        """A macro: its docs, and what is known of the calls that its forms become."""
        made = dict.fromkeys(item.made)
        calls = [call for path in made for call in self.names.named([*path]) if call.clauses]
        lines = [*part("code", item.head), *docs(item)]
        for call in calls:
            passed = ", ".join(declarations(call.head)[1])
            title = f"Known, by {self.site.full_name(call)}({passed})"
            lines += part("written", call.clauses, title, call)
        return [*lines, *self.words(calls), *self.imports(calls),
                *part("caller", self.names.callers.of(item))]

    def type(self, item):
        """A type: its functions, and the traits that it has."""
        functions = [member for block in item.blocks if not block.of_trait
                     for member in self.site.public_members(block) if member.kind == "fn"]
        names = {*(block.of_trait for block in item.blocks), *item.derived_traits()}
        names -= {"", *(trait.name for trait in self.site.private_traits)}
        return [*part("signatures", functions, "Functions"),
                *part("docs", ", ".join(sorted(names, key=str.lower)), "Traits"),
                *self.words(item.of_kind("ghost"))]

    def trait(self, item):
        """A trait: its members, and who has it."""
        ghosts = [(member.name, self.site.line(member)) for member in item.of_kind("ghost")]
        impls = [impl for impl in self.site.impls if item in self.site.traits(impl.of_trait, impl)]
        owners = dict.fromkeys(one_line(header(impl)).rpartition(" for ")[2] for impl in impls)
        plain = ", ".join(owner for owner in owners if owner.isidentifier())
        others = [owner for owner in owners if not owner.isidentifier()]
        return [*part("listed", ghosts, "Ghost members"),
                *part("signatures", item.of_kind("type", "const"), "Types and constants"),
                *part("signatures", item.of_kind("fn"), "Functions"),
                *part("laid", others + [plain] * bool(plain), "Who has it")]

    def foreign_trait(self, item):
        """A trait of others: its impls for our types, and the calls that these have."""
        calls = [self.site.full_name(member) for impl in item.blocks
                 for member in self.site.public_members(impl) if member.kind == "fn"]
        heads = dict.fromkeys(one_line(header(impl)) for impl in item.blocks)
        return [*part("laid", [*heads], "Who has it"),
                *part("docs", ", ".join(f"`{call}`" for call in dict.fromkeys(calls)), "Calls")]

    def alias(self, item):
        """A name of a type: what the type has, where the name passes parameters on."""
        of = self.site.item_named(base_name(item.head.partition("=")[2]), item)
        passes = of and of.kind in WITH_A_PAGE and "<" in item.head.partition("=")[0]
        return [*part("code", item.head, item=item), *docs(item),
                *(self.type(of) if passes else ())]

    def module(self, module):
        """A module: its docs, and what is public there, or stands there in examples or tests."""
        is_public, found = module in self.names.paths, module.members
        if is_public:
            found = [it for it in self.site.items if it is not module and it.home is (
                it if it.kind == "mod" and it.owner is module else module)] or found
        tests = [] if all(map(is_test, module.of_kind("fn"))) else [*filter(is_test, found)]
        parts = docs(module)
        for title, kinds in LISTS.items():
            items = [item for item in found if item.kind in kinds and item not in tests]
            pairs = [(item.name, first_sentence(item), item) for item in items]
            parts += part("listed", pairs, title) if is_public or title != "Functions" else (
                part("signatures", items, title))
        return parts

    def file(self, item):
        """A file of specs/ or proofs/ as a module: what it is, and what others import from it."""
        lemmas = [it for it in self.names.outside.paths if it.kind == "lemma"]
        words = [it for it in lemmas if it.file == item.file] or (
            self.site.library.definitions(item.file).values())
        pairs = [(word.name.strip("◌"), self.site.line(word)) for word in words]
        return [*part("docs", item.notes),
                *part("listed", pairs, "Lemmas" if item.folder == "proofs" else "Words")]

    def definition(self, word):
        """A word of specs/: its line, its definition, and how it is imported."""
        paths = self.modules_of(word) or [f"Rattle.{word.module.replace('.', '.specs.', 1)}"]
        lines = [use_line("ghost use", path, [word.name]) for path in paths]
        over = [f"  over {path.split('.')[1]}" for path in paths] if paths[1:] else [""]
        lines = [line.ljust(max(map(len, lines))) + end for line, end in zip(lines, over)]
        return [*part("docs", self.site.notation.get(word.name.strip("◌")) or word.notes),
                *part("code", "\n".join([*word.context, word.head]), item=word),
                *part("laid", lines, "Imports"),
                *self.words([word] if self.names.is_own(word) else [])]

    def lemma(self, item):
        """A lemma: its notes, its statement, and how proofs and attributes name it."""
        parts = [*docs(item), *part("code", "\n".join([*item.context, item.head]))]
        if not is_declared(item.file, "pub "):
            return [*parts, *part("docs", "Proofs of its own crate alone can cite it.")]
        uses = [f"use {path}.{{{item.name}}}" for path in self.modules_of(item)]
        crate, *above, name = self.names.path(item)
        # A name that isn't one of Rust's is put into a list first.
        plain = [name] if re.fullmatch(r"\w+", name) else item.lists
        using = [f"#[tactic(auto, using({'::'.join([crate, *above, each])}))]" for each in plain]
        said = (f"Your crate's line of `crates.txt` has to name `{crate}`." if plain else
                f"In a list of yours: `pub ruleset facts = ({name})` in a file of `proofs/` that "
                "your `proofs/Lib.antt` declares by `pub mod`.")
        return [*parts, *part("laid", uses, "Imports, in a proof"),
                *part("laid", [*using, *prose(said, 96)], "Above a function")]

    def sample(self, item):
        """A function of an example, or a type with its impls: its code, imports and proofs."""
        code = "\n\n".join(code_of(each) for each in (item, *item.blocks))
        proofs = []
        for file in proofs_of(self.names, item):
            text = file.read_text("utf-8").rstrip("\n")
            proofs.append(str(file.relative_to(self.site.top)))
            proofs += [textwrap.indent(text, "    ")] * (text.count("\n") < MOST_LINES)
        return [*docs(item), *part("code", code),
                *part("laid", [*self.needed(item, code)], "Imports"),
                *part("laid", proofs, "Proved by")]

    def needed(self, item, code):
        """The lines of `use` that a sample's code needs, for its names and for calls of traits."""
        words = set(re.findall(r"\w+", code))
        for kind, atoms in (("ghost use", atoms_of(code)), ("use", words)):
            by_module = {}
            heads = "\n".join(use.head for use in item.module.of_kind(kind))
            for name, (module, there) in imports_of(heads).items():
                traits = [*self.site.by_name.get(name, []), *self.site.library.std_traits(name)]
                calls = {call.name for trait in traits for call in trait.of_kind("fn")}
                if is_in(name, atoms) or kind == "use" and calls & atoms:
                    whole = there if there in ("", name) else f"{there} as {name}"
                    by_module.setdefault(module, []).append(whole)
            yield from (use_line(kind, *it) for it in sorted(by_module.items()))

    def item(self, item):
        """All that is shown of an item or a definition."""
        place = self.names.place(item)
        if item.kind == "foreign trait":
            place = f"a trait of {item.path[0] if item.path[1:] else 'std'}"
        return [*part("name", f"{self.names.full_name(item)}  {place}"), *self.shown(item)]

    def shown(self, item):
        """What is shown of an item or a definition below its name."""
        whole = {"word": self.definition, "lemma": self.lemma, "file": self.file,
                 "mod": self.module, "macro": self.macro,
                 "foreign trait": self.foreign_trait}.get(item.kind)
        if whole:
            return whole(item)
        if item not in self.names.paths:
            return self.sample(item) if self.names.is_own(item) else self.call(item)
        if item.kind == "type" and item.owner.kind == "mod":
            return self.alias(item)
        if item.kind == "trait":
            return [*self.head(item), *docs(item), *self.trait(item)]
        if item.kind in WITH_A_PAGE:
            return [*part("code", declaration(item), item=item), *docs(item), *self.type(item)]
        return self.call(item)

    def rows(self, rows):
        """Rows of the documents' tables, each with its document and heading."""
        for row in rows:
            cells = [(title, LINK.sub(r"\1", cell) or "the same name")
                     for title, cell in row.cells if cell or title == "here"]
            title = f"{row.place}, under {row.section or row.heading}"
            yield from part("listed", cells, title) if row.cells[0][0] else (
                part("docs", ": ".join(cell for _, cell in cells), title))

    def answer(self, answer):
        """What is shown for a name: the first item, rows on it, and what else has the name."""
        useful = [row for row in answer.rows if row.notes or row.ours and not row.left_out]
        rows, others = useful if answer.first else useful or answer.rows, answer.others
        lines = [f"{self.names.full_name(it)}  {self.names.place(it)}" for it in others]
        lines[MOST_OTHERS:] = [f"and {len(lines) - MOST_OTHERS} more"] * (len(lines) > MOST_OTHERS)
        return [*(self.item(answer.first) if answer.first else ()), *self.rows(rows),
                *part("laid", lines, "Called so too")]
