"""The page of the specification. Its sentences are written by hand. The block of clauses above a
function's name is written from the sources: all that it ensures, but what the words behind the name
list."""
import re

from reference.text import Text

# The crate that has nothing but parts of the specification.
HEADLINE, PAGE = "ga_headline", "PROMISE.md"
NAME = r"\[`([\w:]+)`\]\(([^)]*)\)"
SHOWN = re.compile(rf"(?ms)^```text\n[^`]*^```\n\n{NAME}(?:, which also ensures (`[^.]+))?\.$")


def ensured(item):
    return [it for it in item.clauses if it.keyword == "ensures"]


def function(names, folder, name, link):
    """The function of this name in the file that the link leads to, or none: a type may have calls
    of one name in several files."""
    file = (folder / link).resolve()
    found = (it for it in names.paths if it.kind == "fn" and it.file == file)
    return next((it for it in found if names.full_name(it) == name and ensured(it)), None)


def page_file(names, folder):
    """The lines of the page."""
    text = Text(names)

    def renew(shown):
        item = function(names, folder, shown[1], shown[2])
        if not item:
            return shown[0]
        listed = re.findall(r"`(\w*)`", shown[3] or "")
        clauses = text.written([it for it in ensured(item) if it.name not in listed])
        others = [f"`{it.name}`" for it in ensured(item) if it.name in listed]
        also = f", which also ensures {', '.join(others)}" if others else ""
        return "\n".join(["```text", *clauses, "```", "", f"[`{shown[1]}`]({shown[2]}){also}."])

    yield from SHOWN.sub(renew, (folder / PAGE).read_text("utf-8")).splitlines()


def check_promise(names):
    """Looks for each function that the page names, and in the page for each of the headline's."""
    folder, carried = names.site.top / "crates" / HEADLINE, set()
    for name, link in re.findall(NAME, (folder / PAGE).read_text("utf-8")):
        carried.add(item := function(names, folder, name, link))
        yield None if item else f"{PAGE}: no {name} in {link} ensures anything"
    for item in names.paths:
        if item.kind == "fn" and names.path(item)[0] == HEADLINE:
            is_named = item in carried
            yield None if is_named else f"{names.place(item)}: {PAGE} doesn't name {item.name}"
