"""What `tools/reference --write` writes from the sources: the list of public types, by which no
derive or impl goes unseen, the clauses of PROMISE, and the tables of the READMEs of examples."""
import collections
import difflib
import re

from reference.callers import EXAMPLES
from reference.items import first_sentence
from reference.layout import one_line
from reference.meanings import WITH_A_PAGE
from reference.outside import is_test, proofs_of
from reference.promise import HEADLINE, PAGE, page_file

RENEW = "tools/reference --write writes it again"
TABLE = "functions that documents name | what they show | the proof, where it needs more than code"


def public_types(site):
    """Each public type with the heads of its impls, whose bounds say when it has them, and the names
    that each module passes on. Heads that differ in a named length alone stand once."""
    yield from ("# Public types", "",
                "What each derives, and its impls with their bounds: an impl is there where these hold.",
                "`tools/reference --write` writes this page.")
    for item in site.items:
        derived = [f"#[derive({', '.join(sorted(item.derived_traits()))})]"]
        heads = collections.Counter(re.sub(r"(?<=Length for )U\d+", "U0", one_line(impl.head, "$^"))
                                    for impl in item.blocks)
        lines = [head + f"  // {count} lengths" * (count > 9) for head, count in heads.items()]
        lines = derived * bool(item.derived_traits()) + sorted(lines)
        if lines and item.home and item.kind in WITH_A_PAGE:
            path = f"{site.path(item.module)[0]}::{item.name}"
            yield from ("", f"## `{path}`", "", "```", *lines, "```")
    yield from ("", "## Names that modules pass on", "", "```")
    for module in (item for item in site.items if item.home and item.kind == "mod"):
        names = sorted({*module.exported, *(it.name for it in module.of_kind("foreign"))})
        yield from [f"{'::'.join(site.path(module))}: {', '.join(names)}"] if names else ()
    yield "```"


def with_table(names, readme):
    """A README with the functions of its crate that documents name: in one row those that show the
    same."""
    folder, rows = readme.parent, collections.defaultdict(list)
    yield from readme.read_text("utf-8").partition(TABLE)[0].rstrip().splitlines()
    yield from ("", TABLE, "---|---|---")
    for item in names.samples.items:
        if (item.kind == "fn" and names.path(item)[0] == folder.name
                and item.owner.kind == "mod" and not is_test(item)
                and names.samples.is_in_documents(item)):
            name = "::".join(names.path(item)[1:])
            shows = (first_sentence(item) or first_sentence(item.module)).replace("|", r"\|")
            proofs = [f"[{it.stem}]({it.relative_to(folder)})" for it in proofs_of(names, item)]
            link = f"[`{name}`]({item.file.relative_to(folder)})"
            rows[shows].append((link, f"`{item.name}`: ", ", ".join(proofs)))
    for shows, functions in rows.items():
        proofs = [(who if functions[1:] else "") + proof for _, who, proof in functions if proof]
        links = ", ".join(link for link, _, _ in functions)
        yield f"{links} | {shows} | {'; '.join(proofs)}".rstrip()


def files(names):
    """The files, each with the lines that it has to have."""
    crates = names.site.top / "crates"
    yield names.site.top / "docs" / "TYPES.md", public_types(names.site)
    yield crates / HEADLINE / PAGE, page_file(names, crates / HEADLINE)
    for readme in sorted(crates.glob(f"*{EXAMPLES}/README.md")):
        yield readme, with_table(names, readme)


def write(names):
    """Writes the files."""
    for file, lines in [(file, [*lines]) for file, lines in files(names)]:
        file.write_text("".join(f"{line}\n" for line in lines), "utf-8")


def check_generated(names):
    """Looks for each line of the files in the sources, and for each that the sources have."""
    for file, lines in files(names):
        for it in difflib.ndiff(file.read_text("utf-8").splitlines(), [*lines]):
            if not it.startswith("?"):
                place = file.relative_to(names.site.top)
                yield None if it.startswith(" ") else f"{place}: {it}: {RENEW}"
