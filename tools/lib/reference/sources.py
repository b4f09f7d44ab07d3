"""Reads the sources of crates, in the forms that they have here: items with their docs, signatures
and clauses, and the definitions of specs/."""
import collections
import functools
import inspect
import json
import pathlib
import re
import shutil
import subprocess
import textwrap

# What a scan stops at: texts, characters and comments, then brackets and ends.
SIGN = re.compile(
    r'"(?:\\[\s\S]|[^"\\])*"'
    r"|'(?:\\.[^']*|[^\\'])'"
    r"|//[^\n]*"
    r"|[{}()\[\];]")
ANGLE = re.compile(r"<|(?<![-=])>")
# What stands before the `{` of a clause.
CLAUSE = re.compile(r"\b(requires|ensures)(\*?)\s*(\w*)\s*$")
# What stands before a `{` that begins no body: a ghost member's, or the names of an import.
NO_BODY = re.compile(r"(?:\bghost \w+\s*[=:]|\}\s*=|::|\.)\s*$")
# Comments and attributes above an item.
ABOVE = re.compile(r"(?:\s*(?://.*|#!?\[(?:[^\[\]]|\[[^\]]*\])*\]))*\s*")
DERIVE = re.compile(r"#\[derive\(([^)]*)\)\]")
FIELD = re.compile(
    r"(?m)((?:^(?://|#\[).*\n)*)"
    r"^((?:pub |ghost )*(\w+).*(?:\n[ }].*)*)")
START = re.compile(
    r"(?P<public>pub\b(?P<within>\([^)]*\))?\s*)?"
    r"(?:(?:final|unsafe|const(?= (?:unsafe )?fn))\s+)*"
    r"(?P<kind>fn|struct|enum|trait|type|const|static|mod|impl|use|ghost use|ghost|macro_rules!)"
    r"(?=\W)\s*(?P<name>\w*)")
USE = re.compile(
    r"(?m)^\s*(?:unfoldable )?(pub )?(?:ghost )?use ([^\s;{]+?)"
    r"(?:(?:\.|::)\{([^}]*)\})?(?: as ([\w-]+))?;?\s*$")
# A macro's form, and what it becomes: a call of a type's function.
FORM = re.compile(r"(?m)^    (\(.*\)) => \{$")
MADE = re.compile(r"\$crate::(\w+)(?:::<[^;]*>)?::(\w+)\(")
# A definition with the notes above it and all lines below that are deeper or begin with its name;
# or the beginning of a module block, of any number of lines.
DEFINED = re.compile(
    r"(?m)(?P<notes>(?:^ *-- .*\n)*)"
    r"^(?=(?P<indent> *))"
    r"(?:(?P<block> *module _ (?:.*\n +)*?.*\bwhere)$"
    r"|(?P<head> *(?:(?:abbrev|unfoldable|pub|record|data|axiom) )*"
    r"(?!--|use |mod |module )(?P<name>[^\s({]+)(?:(?:\n *| ?)[({].*?[)}])*(?:\n +| ):(?: .*|$)"
    r"(?:\n(?:(?P=indent)(?: .*|(?P=name)(?: .*|$))| *$))*))")
# What stands before the `{` of a term: of a clause, or of a ghost member's type or value.
TERM = re.compile(
    r"\b(?:requires|ensures)\*?\s*\w*\s*(?={)"
    r"|\bghost \w+\s*[:=]\s*(?={)"
    r"|(?<=})\s*=\s*(?={)")
ATOM = re.compile(r"[^\s(){},;]+")

# The crates of the toolchain that std is made of.
STD = ("core", "std", "std_alloc", "std_heap", "std_io")

Clause = collections.namedtuple("Clause", "keyword star name term")


class Item:
    """An item, a member of one, or a definition, with the places of its text in the file's, the
    attributes above it and the folder of a definition. What else it has is noted here later."""

    def __init__(self, kind, name, head, file, line, docs="", notes="", owner=None, **more):
        self.kind, self.name, self.head, self.file, self.line = kind, name, head, file, line
        self.docs, self.notes, self.owner = docs, notes, owner
        self.module = self if kind == "mod" else owner and owner.module
        self.home, self.url, self.public = None, "", True
        self.trait, self.of_trait, self.of = None, "", None
        self.begin, self.end, self.attributes, self.folder = 0, 0, "", "specs"
        self.clauses, self.members = [], []
        self.blocks, self.exported, self.foreign = [], [], {}
        self.context, self.imports = [], {}
        self.__dict__.update(more)
        if kind == "ghost":
            term = head[head.index("{") + 1:head.rindex("}")].strip()
            self.clauses = [Clause("ghost", "", name, term)]

    def of_kind(self, *kinds):
        """The members of these kinds."""
        return [member for member in self.members if member.kind in kinds]

    @property
    def of_whom(self):
        """The type or the trait that it is a member of, or else the module."""
        is_in_impl = self.owner is not None and self.owner.kind == "impl"
        return self.owner.of if is_in_impl else self.owner

    def derived_traits(self):
        """The names of the traits that the compiler writes for it."""
        return [name.strip() for names in DERIVE.findall(self.attributes)
                for name in names.split(",")]


def end_of_bracket(text, at, signs=SIGN):
    """The place behind the bracket that closes the one at `at`."""
    depth = 0
    for sign in signs.finditer(text, at):
        depth += (sign[0] in "{([<") - (sign[0] in "})]>")
        if depth == 0:
            return sign.end()
    raise ValueError("a bracket isn't closed")


def list_items(text, separator=","):
    """The parts of a list, cut at separators that stand in no bracket."""
    marked, depth = "", 0
    for at, sign in enumerate(text):
        depth += sign in "([{<"
        depth -= sign in ")]}" or sign == ">" and text[at - 1] not in "-="
        marked += "\0" if depth == 0 and sign == separator else sign
    return [part.strip() for part in marked.split("\0") if part.strip()]


def atoms_of(text):
    """What stands in the terms of code: names, and the parts in front of their dots."""
    # Texts and comments are spaces.
    code = SIGN.sub(lambda it: re.sub(r"[^\n]", " ", it[0]) if len(it[0]) > 1 else it[0], text)
    atoms = {atom for begin in TERM.finditer(code)
             for atom in ATOM.findall(code[begin.end():end_of_bracket(code, begin.end())])}
    return atoms | {atom.split(".")[0] for atom in atoms}


def is_in(name, atoms):
    """Whether a name is one of the atoms, or all pieces of an operator are."""
    return name in atoms or all(piece in atoms for piece in name.split("◌") if piece)


def imports_of(text):
    """The names that lines of `use` give, each with its module and its name there, if any."""
    found = {}
    for _, module, names, alias in USE.findall(text):
        for name in filter(None, map(str.strip, names.split(","))):
            there, _, here = name.partition(" as ")
            found[here or there] = module, there
        if not names or "self" in names.split(", "):
            found[alias or re.split("[.:]", module)[-1]] = module, ""
    return found


def head_and_clauses(text, at, kind="fn"):
    """The head of the item at `at`, its clauses, and where its body or its `;` begins."""
    clauses, end, place = [], None, at
    while True:
        sign = SIGN.search(text, place)
        if not sign:
            raise ValueError("an item has no end")
        place = end_of_bracket(text, sign.start()) if sign[0] in "([{" else sign.end()
        clause = CLAUSE.search(text, at, sign.start()) if sign[0] == "{" else None
        # A constant ends with its `;`, whatever brackets stand in it.
        body = sign[0] == "{" and kind not in ("const", "static") and (
            not NO_BODY.search(text, at, sign.start()))
        if clause:
            term = inspect.cleandoc(text[sign.start() + 1:place - 1].strip())
            clauses.append(Clause(*clause.groups(), term))
            end = clause.start() if end is None else end
        elif body or sign[0] == ";":
            head = inspect.cleandoc(text[at:sign.start() if end is None else end].strip())
            return re.sub(r"\n\s*\)", "\n)", head), clauses, sign.start()


def docs_and_notes(above):
    """The docs above an item, and the notes that no empty line parts from it."""
    docs = re.findall(r"(?m)^ */// ?(.*)", above)
    notes = re.findall(r"(?m)^ *//(?![/!]) ?(.*)", re.split(r"\n\s*\n", above)[-1])
    return "\n".join(docs), " ".join(notes)


def fields(body, item, first):
    """The fields of a struct or the variants of an enum, whose body begins on the first line."""
    body = textwrap.dedent(body)
    for found in FIELD.finditer(body):
        above, head, name = found.groups()
        kind = "variant" if item.kind == "enum" else "field"
        kind = "ghost" if head.startswith("ghost ") else kind
        public = kind != "field" or head.startswith("pub ")
        line = first + body.count("\n", 0, found.start(2))
        docs, notes = docs_and_notes(above)
        yield Item(kind, name, head.rstrip(","), item.file, line, docs, notes, item, public=public)


def items_of(text, file, owner=None, at=0, end=None):
    """The items between two places of a file's text."""
    end = len(text) if end is None else end
    above = ABOVE.match(text, at, end)
    while above.end() < end:
        start = above.end()
        begin = START.match(text, start, end)
        if not begin:
            raise ValueError(f"{file}: not an item: {text[start:start + 60]!r}")
        kind = begin["kind"].replace("macro_rules!", "macro")
        head, clauses, stop = head_and_clauses(text, start, kind)
        at = end_of_bracket(text, stop) if text[stop] == "{" else stop + 1
        line, name = text.count("\n", 0, start) + 1, begin["name"] if kind != "impl" else ""
        docs, notes = docs_and_notes(above[0])
        item = Item(kind, name, head, file, line, docs, notes, owner, clauses=clauses,
                    begin=start, end=at, attributes=re.sub(r"//.*", "", above[0]).strip())
        item.public = bool(begin["public"] and not begin["within"])
        item.public &= "doc(hidden)" not in item.attributes
        item.public |= kind == "macro" and "macro_export" in above[0]
        body = text[stop + 1:at - 1]
        if kind in ("trait", "impl"):
            item.members = list(items_of(text, file, item, stop + 1, at - 1))
        elif kind in ("struct", "enum"):
            item.members = list(fields(body, item, text.count("\n", 0, stop) + 1))
        elif kind == "macro":
            # Its forms without what they become, and without the one that refuses the others.
            arms = [f"    {arm} => {{ .. }};" for arm in FORM.findall(body) if "$other" not in arm]
            item.head = "\n".join([f"macro_rules! {name} {{", *arms, "}"])
            item.made = MADE.findall(body)
        yield item
        above = ABOVE.match(text, at, end)


def toolchain():
    """The folder of the toolchain's sources, or None where there is no `rt`."""
    if not shutil.which("rt"):
        return None
    said = subprocess.run(["rt", "doc"], capture_output=True, text=True).stdout
    return pathlib.Path(said.split("\n")[0]).parent / "rattle"


class Library:
    """The crates of a repository and of the toolchain, if there is one: modules, words and std's
    traits by their names."""

    def __init__(self, top, kit=None):
        self.top, self.kit, self.mounts = top, kit, {}
        if kit:
            project = kit / "logic" / "antt-project.json"
            self.mounts = json.loads(project.read_text("utf-8"))["mounts"]

    @functools.cached_property
    def std(self):
        """The files of std, each with its text."""
        files = [file for name in (STD if self.kit else ())
                 for file in sorted((self.kit / name / "src").rglob("*.rt"))]
        return [(file, file.read_text("utf-8")) for file in files]

    @functools.lru_cache(None)
    def module_file(self, path):
        """The file of a module, through what other modules of its crate pass on, or None."""
        root, *rest = path.split(".")
        if root != "Rattle":
            return self.logic_file(root, rest)
        own = self.top / "crates"
        base = own if (own / rest[0]).exists() or not self.kit else self.kit
        folder, rest = base / rest[0] / rest[1], rest[2:]
        file = folder.joinpath(*rest).with_suffix(".antt")
        for count in range(0 if file.exists() else len(rest), 0, -1):
            passing = folder.joinpath(*(rest[:count - 1] or ["Lib"])).with_suffix(".antt")
            text = passing.read_text("utf-8") if passing.exists() else ""
            line = rf"(?m)^pub use (\S+\.{re.escape(rest[count - 1])})$"
            if passed := re.search(line, text):
                return self.module_file(".".join([passed[1], *rest[count:]]))
        return file if file.exists() else None

    def logic_file(self, root, rest):
        """The file of a module of the toolchain's logic, or None."""
        if not self.kit or not rest:
            return None
        folder = self.kit / "logic" / self.mounts.get(root, root)
        files = [(folder / part).joinpath(*rest).with_suffix(".antt") for part in ("", "src")]
        return next((file for file in files if file.exists()), None)

    @functools.lru_cache(None)
    def definitions(self, file):
        """The definitions of a file of specs/ or proofs/, by name, each with the module blocks that
        it stands in and the notes above it, or else above the innermost block."""
        crates = self.top / "crates"
        place = file.relative_to(crates if file.is_relative_to(crates) else self.kit)
        folder = "proofs" if place.parts[1] == "proofs" else "specs"
        module = ".".join(part for part in place.with_suffix("").parts if part != folder)
        text, found, blocks = file.read_text("utf-8"), {}, []
        imports = imports_of(text)
        for part in DEFINED.finditer(text):
            blocks = [block for block in blocks if not block[0].startswith(part["indent"])]
            notes = " ".join(re.findall("-- (.*)", part["notes"]))
            if part["block"]:
                blocks.append((part["block"], notes))
                continue
            name, head = part["name"], textwrap.dedent(part["head"]).rstrip()
            line = text.count("\n", 0, part.start("head")) + 1
            word = Item("word", name, head, file, line, module=module, imports=imports,
                        notes=notes or (blocks[-1][1] if blocks else ""), folder=folder,
                        context=[block.strip() for block, _ in blocks],
                        clauses=[Clause("", "", "", head)])
            found.setdefault(name, word)
        return found

    @functools.lru_cache(None)
    def exports(self, file):
        """The names that a module passes on, each with its module and its name there."""
        uses = USE.finditer(file.read_text("utf-8")) if file else ()
        return imports_of("\n".join(use[0] for use in uses if use[1]))

    @functools.lru_cache(None)
    def word(self, path, name):
        """The definition that a name of a module stands for, or None."""
        file = self.module_file(path)
        if not file:  # The compiler makes such modules, of types and of what is built in.
            made = re.search(r"\.(declared|contracts)\.|^Prim\.", path)
            return Item("word", name, "", None, 0, module=path) if made else None
        passed, defined = self.exports(file), self.definitions(file)
        if name in passed and name not in defined:
            return self.word(*passed[name])
        part = re.compile(rf"(?m)^ +(?:pub )?{re.escape(name)} :")
        whole = next((word for word in defined.values() if part.search(word.head)), None)
        return defined.get(name) or whole

    @functools.lru_cache(None)
    def std_traits(self, name):
        """The traits of std that have this name."""
        begin = re.compile(rf"(?m)^pub trait {re.escape(name)}\b")
        found = [(file, text, begin.search(text)) for file, text in self.std]
        return [next(items_of(text, file, None, at.start())) for file, text, at in found if at]
