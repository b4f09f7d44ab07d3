"""Checks what no compiler sees: that names lead to items, that each public item is listed and each
import used, that the text that a mutant replaces stands once, that examples of documents stand in
the crates, that a contract that a README quotes is that of the source, that whatever documents have
as code exists, and that what they call tested is. Each check gives what it tried, one after the
other: what is wrong, or None.
"""
import pathlib
import re

from reference.claims import Tests, check_claims
from reference.items import Items
from reference.layout import indent, lay_out
from reference.lookup import impl_of
from reference.meanings import LIBRARIES, WITH_A_PAGE
from reference.promise import check_promise
from reference.rows import BAR, CODE, documents, line_of, names_in, without_code
from reference.sources import STD, atoms_of, imports_of, is_in
from reference.text import WIDEST, Text
from reference.generated import check_generated

# A name of each kind that readers look up, with the item that it leads to, or what its row says.
NAMES = pathlib.Path(__file__).with_name("names.txt")
# The mutants that `rt ci` tries, and those that it leaves out, each with where its path names the
# crate.
EDITS = {"crates/*/must-fail/*.edit": 1, "trials/mutants/*/**/*.edit": 2}
PAIR = re.compile(r"(?m)(?:^file: (.*)\n)?^old: (.*)\nnew: ?(.*)$")
# The crates of the port, and a rule by which DIFFERENCES names many at once: what ends so is named.
PORT = (*LIBRARIES, "ga_records", "ga_rows")
ENDINGS = re.compile(r"\bends in ((?:`_\w+`(?:, | or | and )?)+)")
# An example, and what is layout of it: spaces, the comma before a bracket, and `pub`.
EXAMPLE = re.compile(r"(?ms)^```rust\n(.*?)^```")
LAYOUT = re.compile(r"\s+|,(?=\s*[)\]}>])|\bpub(?:\(\w+\))?\s")
# A contract that is quoted: a line with the function's name as a link, and the code below it.
QUOTED = re.compile(r"(?ms)^\[`([\w:]+)`\]\((\S+)\)\n\n```text\n(.*?)^```")
# The documents whose code is looked up, and of these the one whose rows begin with two cells of
# what is seen. Documents on design and history name what is gone, too.
DOCUMENTS = ("README.md", "crates/*/README.md", *(
    f"docs/{name}.md" for name in "CALLING DEFINITIONS DIFFERENCES STUCK TRUST".split()))
OF_SEEN = "STUCK.md"
# The sources whose words documents may use, and what the kit prints, or stands for another name.
SOURCES = (".rt", ".antt", ".rattle", ".rs", ".edit", ".txt")
EXEMPT = {"ci", "trusted", "board", "player", "mine", "ENUM", "anew"}
FILE, WORD, PATH = re.compile(r"[\w.-]+(?:/[\w.-]+)+"), re.compile(r"\b[A-Za-z_]\w+"), re.compile(
    r"\w+(?:::\w+)+")


def check_names(names):
    """Asks for a name of each kind: what is shown first is the item, or the text of a row."""
    for line in NAMES.read_text("utf-8").splitlines():
        name, _, wanted = line.partition("\t")
        answer = names.answer(name)
        rows = ([it for it in answer.rows if it.ours or it.notes]
                or names.rows_of_messages(name, answer))
        shown = names.full_name(answer.first) if answer.first else (
            " ".join(cell for _, cell in rows[0].cells) if rows else "nothing")
        right = shown == wanted or not answer.first and wanted in shown
        yield None if right else f"tools/reference {name}: shows {shown[:80]}, not {wanted}"


def check_imports(names):
    """Looks for each imported word in the terms of its file."""
    top = names.site.top
    for file in sorted((top / "crates").glob("*/src/**/*.rt")):
        text = file.read_text("utf-8")
        atoms = atoms_of(text)
        for use in re.finditer(r"(?m)^ *ghost use [^;]*;", text):
            place = f"{file.relative_to(top)}:{line_of(text, use.start())}"
            for name in imports_of(use[0]):
                yield None if is_in(name, atoms) else f"{place}: {name} is imported and not used"


def check_items(names):
    """Looks in the document that lists them for each public item of the port's crates, but for
    modules, lengths, which it lists together, and what traits of others ask for."""
    site = names.site
    text = " ".join((site.top / "docs" / "DIFFERENCES.md").read_text("utf-8").split())
    listed = {part for code in CODE.findall(text) for parts in names_in(code) for part in parts}
    endings = tuple(end for rule in ENDINGS.findall(text) for end in CODE.findall(rule))
    for item in site.shown():
        impl = impl_of(item)
        if (site.path(item.module)[0] in PORT and item.name and item.public
                and item.kind in ("fn", "macro", "type", "const", *WITH_A_PAGE)
                and not (impl and impl.of_trait)):
            by_rule = item.name.endswith(endings) or re.fullmatch(r"U\d+", item.name)
            wrong = f"{names.place(item)}: DIFFERENCES.md doesn't list {site.full_name(item)}"
            yield None if by_rule or item.name in listed else wrong


def text_of(edit):
    """The text of an edit, with the file that it changes: in trials/mutants its folder names it."""
    text = edit.read_text("utf-8")
    _, is_mutant, folder = edit.parent.as_posix().rpartition("/mutants/")
    is_whole = not is_mutant or text.startswith("file: ")
    return text if is_whole else f"file: src/{folder.partition('/')[2]}.rt\n{text}"


def check_edits(names):
    """Looks for what each mutant replaces, one text after the other: it stands once in its file."""
    top = names.site.top
    for pattern, at in EDITS.items():
        for edit in sorted(top.glob(pattern)):
            place, file, texts, wrong = edit.relative_to(top), "", {}, []
            for named, old, new in PAIR.findall(text_of(edit)):
                file = named or file
                source = top / "crates" / place.parts[at] / file
                text = texts.get(file) or (source.read_text("utf-8") if source.is_file() else "")
                wrong += [f"{file} has {text.count(old)} times: {old}"] * (text.count(old) != 1)
                texts[file] = text.replace(old, new)
            wrong += ["it replaces nothing"] * (not texts)
            yield f"{place}: {wrong[0]}" if wrong else None


def check_examples(names):
    """Looks for each part of an example, but for its imports, in the crates."""
    top = names.site.top
    files = (*top.glob("crates/*/src/**/*.rt"), top / "docs" / "FIRST_CRATES.md")
    sources = [LAYOUT.sub("", it.read_text("utf-8")) for it in files]
    for place, text in documents(top, "README.md", "docs/*.md", "crates/*/README.md"):
        for example in EXAMPLE.finditer(text):
            line = line_of(text, example.start(1))
            code = re.sub(r"(?m)^(?:ghost )?use .*\n", "", example[1])
            for part in filter(None, map(str.strip, re.split(r"\n\n+", code))):
                stands = any(LAYOUT.sub("", part) in source for source in sources)
                yield None if stands else f"{place}:{line}: no crate has {part.splitlines()[0]}"


def check_contracts(names):
    """Looks whether each contract that a README quotes is what `tools/reference NAME` prints."""
    items, text, top = Items(names), Text(names), names.site.top
    for place, readme in documents(top, "crates/*/README.md"):
        for quoted in QUOTED.finditer(readme):
            item, file = names.answer(quoted[1]).first, (top / place.parent / quoted[2]).resolve()
            lines = item and [*lay_out(items.head(item)[0].content, WIDEST),
                              *indent(text.written(item.clauses))]
            line = line_of(readme, quoted.start())
            is_right = lines == quoted[3].splitlines() and file == item.file
            yield None if is_right else f"{place}:{line}: {quoted[1]} says otherwise"


def files_and_words(names):
    """The files here, and the words of all sources, of the names of files, of the kit's libraries
    and of the names of the Rust crate."""
    top, kit = names.site.top, names.site.library.kit
    crates = re.findall(r"\w+", re.sub("#.*", "", (top / "crates.txt").read_text("utf-8")))
    files = [it for part in ("crates", "trials", "docs", "tools") for it in (top / part).rglob("*")]
    sources = [it for it in files if it.suffix in SOURCES] + [
        it for crate in (*STD, *crates) for part in ("src", "specs") if kit
        for it in (kit / crate / part).rglob("*.*t")]
    files = [f"/{it.relative_to(top)}" for it in files]
    texts = [*files, *(it.read_text("utf-8") for it in sources), *(it.theirs for it in names.rows),
             *names.other_names]
    return files, EXEMPT.union(*(re.findall(r"\w+", text) for text in texts))


def check_documents(names):
    """Looks for each word that a document has as code in the sources, for one that begins with `_`
    as the end of another, for each path below a name of ours at an item or a test, and for each
    file."""
    (files, known), tests = files_and_words(names), Tests(names.site.top)
    known |= {word[at:] for word in known for at in range(len(word)) if word[at] == "_"}
    ours = {*tests.modules, *(end for index in (names, names.outside) for end, items in
                              index.by_end.items() if any(it.kind != "foreign" for it in items))}
    for place, text in documents(names.site.top, *DOCUMENTS) if names.site.library.kit else ():
        text = without_code(text)
        if place.name == OF_SEEN:
            rows = map(BAR.split, text.split("\n"))
            text = "\n".join(" ".join(cells[2:] or cells) for cells in rows)
        for code in CODE.finditer(text):
            lost = [word for word in WORD.findall(code[1]) if word not in known]
            path = re.sub(r"\(.*|::<.*?>", "", code[1])
            parts = path.split("::")
            if PATH.fullmatch(path) and parts[0] in ours and not lost:
                is_known = (tests.has(path) or names.named(parts) or names.inherited_members(parts)
                            or names.outside.named(parts) or path in names.other_names)
                lost = [] if is_known else [path]
            ends = tuple(f"/{path}{suffix}" for suffix in ("", ".rt", ".antt"))
            if FILE.fullmatch(path) and not any(it.endswith(ends) for it in files):
                lost.append(path)
            line = line_of(text, code.start())
            yield f"{place}:{line}: nothing is called {lost[0]}" if lost else None


# The checks by their names, each with how many pass at least: one that passes less may have gone
# blind. Those of names ask as a reader of `tools/reference NAME` does.
CHECKS = {
    "examples": (check_examples, 24), "imports": (check_imports, 2000),
    "public items": (check_items, 320), "generated": (check_generated, 1200),
    "mutants": (check_edits, 180), "names": (check_names, 30), "promise": (check_promise, 60),
    "contracts": (check_contracts, 17), "claims": (check_claims, 40),
    "documents": (check_documents, 2300),
}
