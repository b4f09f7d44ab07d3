"""Writes the pages of a reference from templates: what `tools/reference NAME` prints of each item,
with links."""
import collections
import html
import pathlib
import re
import sys
import urllib.parse

# Debian's packages serve another Python 3 too.
sys.path.append("/usr/lib/python3/dist-packages")

import markdown
from jinja2 import Environment, FileSystemLoader, StrictUndefined
from markupsafe import Markup

from reference.outside import code_of
from reference.items import Items, part
from reference.lookup import impl_of, parts_of
from reference.meanings import WITH_A_PAGE, Scope
from reference.sources import Item

TEMPLATES = pathlib.Path(__file__).resolve().parent / "pages"
KEYWORDS = set("pub const fn struct enum trait type impl for where mut dyn final self Self as ref "
               "unsafe macro_rules".split())
# The documents that are pages too, each with its title and file.
DOCUMENTS = {"promise.html": ("The specification", "crates/ga_headline/PROMISE.md"),
             "rust.html": ("The Rust crate's names", "docs/DIFFERENCES.md"),
             "clauses.html": ("Words in clauses", "docs/DEFINITIONS.md")}
# What a module's page shows whole, what a trait's does, and what a type's.
WHOLE = {"Aliases": ["type"], "Functions": ["fn"], "Macros": ["macro"],
         "Constants": ["const", "static"], "From other libraries": ["foreign"]}
OF_TRAIT = {"Ghost members": ["ghost"], "Types and constants": ["type", "const"],
            "Functions": ["fn"]}
OF_TYPE = {"Fields and variants": ["field", "variant", "ghost"]}
# What of an item's parts a page has as links, and as what stands below.
OF_LINKS = ("Words", "Ghost members")
# Some items of a page, below a title or an impl's head.
Group = collections.namedtuple("Group", "title impl items")


class Pages:
    """The pages, and the links between them."""

    def __init__(self, names, folder):
        self.names, self.site, self.folder = names, names.site, folder
        self.items, self.depth, self.std = Items(names), 0, {}
        self.markdown = markdown.Markdown(extensions=["fenced_code", "tables"])
        # A `<` outside of code is text: docs have no HTML of their own.
        self.markdown.preprocessors.deregister("html_block")
        self.markdown.inlinePatterns.deregister("html")
        self.words = [word for words in self.site.words.values() for word in words]
        self.note_places()
        placed = [item for item in (*self.words, *self.site.shown()) if item.url]
        self.places = {self.site.full_name(item): item for item in placed}
        self.templates = Environment(loader=FileSystemLoader(TEMPLATES), trim_blocks=True,
                                     lstrip_blocks=True, undefined=StrictUndefined,
                                     autoescape=lambda name: name.endswith(".html"))
        filters = (self.code, self.docs, self.term, self.link, self.shown, code_of)
        self.templates.filters |= {filter.__name__: filter for filter in filters}
        self.templates.filters["line"] = self.site.line
        self.templates.globals |= {"site": self.site, "pages": self, "documents": DOCUMENTS}

    def note_places(self):
        """Gives each item, member and definition its place: a page, or an anchor of one."""
        for word in self.words:
            word.url = f"words/{word.module.replace('.', '/', 1)}.html#{word.name}"
        for item in [item for item in self.site.items if item.home]:
            anchor = f"{item.kind}.{item.name}"
            page = f"{anchor}.html" if item.kind in WITH_A_PAGE else "index.html"
            at = "" if item.kind in ("mod", *WITH_A_PAGE) else f"#{anchor}"
            item.url = "/".join([*self.site.path(item.home), page + at])
        for item in [item for item in self.site.items if item.home and item.kind in WITH_A_PAGE]:
            taken, owners = collections.Counter(), (item, *item.blocks)
            members = [member for it in owners for member in self.site.public_members(it)]
            for member in [*item.blocks, *members]:
                anchor = f"{member.kind}.{member.name or member.of_trait}"
                member.url = f"{item.url}#{anchor}" + f"-{taken[anchor]}" * (taken[anchor] > 0)
                taken[anchor] += 1

    def link(self, url):
        """A place, seen from the page that is written."""
        page, _, anchor = url.partition("#")
        return "../" * self.depth + page + ("#" + urllib.parse.quote(anchor) if anchor else "")

    def pieces(self, pieces, item):
        """Pieces of a term or of code as HTML: each with what it means, and whether it is a word
        of the language. A word of std gets its place by the way."""
        made = []
        for text, to, is_keyword in pieces:
            if to and not to.url and to.kind == "word" and not self.names.is_own(to) and to.file:
                to.url = f"words/std.html#{to.module}.{to.name}"
                self.std[to.url] = to
            said = self.site.line(to) if to else self.site.notation.get(text, "")
            title, shown = f' title="{html.escape(said)}"' * bool(said), html.escape(text)
            if to and to is item:
                shown = f"<strong>{shown}</strong>"
            elif to and to.url:
                shown = f'<a href="{html.escape(self.link(to.url))}"{title}>{shown}</a>'
            elif said:
                shown = f"<span{title}>{shown}</span>"
            made.append(f"<b>{shown}</b>" if is_keyword else shown)
        return Markup("".join(made))

    def term(self, text, item):
        """A term as HTML, in which each name leads to its definition."""
        pieces = Scope(self.site, item).pieces(text) if item.module else [(text, None)]
        return self.pieces([(atom, to, False) for atom, to in pieces], item)

    def code(self, text, item):
        """Code as HTML, in which the names of items lead to them."""
        if item and item.kind in ("word", "ghost") and self.names.is_own(item):
            return self.term(text, item)
        pieces = []
        for name in filter(None, re.split(r"(//.*|'?\b[A-Za-z_]\w*\b)", text)):
            is_type = item and isinstance(item.module, Item) and name[:1].isupper()
            other = self.site.item_named(name, item) if is_type else None
            is_own = item and name == item.name
            pieces.append((name, item if is_own else other, name in KEYWORDS))
        return self.pieces(pieces, item)

    def docs(self, text, item=None):
        """Docs as HTML, in which names of items and definitions lead to them: of a member's type
        first."""
        owner = self.site.full_name(item).partition("::")[0] if item else ""

        def linked(found):
            name = re.sub(r"<.*>|[()!&]", "", html.unescape(found[1]))
            others = [self.places.get(f"{owner}::{name}"), self.places.get(name), *(
                it for it in self.names.named(parts_of(name)) if it.url and "::" in name)]
            other = next(filter(None, others), None)
            if not other or other is item:
                return found[0]
            return f'<a href="{html.escape(self.link(other.url))}">{found[0]}</a>'
        made = self.markdown.reset().convert(text)
        return Markup(re.sub(r"<code>([^<]+)</code>", linked, made))

    def shown(self, item):
        """The parts of an item on a page: without those that links replace. A member of an impl
        that says nothing of its own has its head alone."""
        impl, parts = impl_of(item), self.items.shown(item)
        parts = [it for it in parts if it.kind != "signatures" and it.title not in OF_LINKS
                 and not (impl and it.item is impl and it.kind == "code")]
        is_silent = impl and impl.of_trait and item.kind == "fn" and not (item.clauses or item.docs)
        return parts[:1] if is_silent else parts

    def groups_of(self, item):
        """What stands on an item's page below its own parts."""
        if item.kind == "mod":
            below = [it for it in self.site.items if it.home is item and it.name]
            return [Group(title, None, [it for it in below if it.kind in kinds and (
                    it.kind != "type" or "<" in it.head.partition("=")[0])])
                    for title, kinds in WHOLE.items()]
        members = self.site.public_members(item)
        kinds = OF_TRAIT if item.kind == "trait" else OF_TYPE
        groups = [Group(title, None, [it for it in members if it.kind in of])
                  for title, of in kinds.items()]
        blocks = sorted(item.blocks, key=lambda impl: bool(impl.of_trait))
        return groups + [Group("", impl, self.site.public_members(impl)) for impl in blocks]

    def write(self):
        """Writes all pages and their other files. Returns the links that lead nowhere."""
        for item in self.site.items:
            if item.home and item.kind in ("mod", *WITH_A_PAGE):
                self.page(item.url, item.name, self.shown(item), self.groups_of(item), item)
        lists = []
        for file, words in self.site.words.items():
            title = f"Words of {self.names.path(words[0])[0]}: {file.stem}"
            self.page(words[0].url.partition("#")[0], title, [], [Group("", None, words)])
            pairs = [(word.name, self.site.line(word), word) for word in words]
            lists += part("listed", pairs, title)
        self.page("words/index.html", "Words", lists)
        for url, (title, file) in DOCUMENTS.items():
            # Its links lead to files, and the names in them are links themselves.
            _, _, text = (self.site.top / file).read_text("utf-8").partition("\n")
            self.page(url, title, part("docs", re.sub(r"\[([^\]]*)\]\([^)]*\)", r"\1", text)))
        std = sorted(self.std.values(), key=lambda word: word.name.strip("◌"))
        self.page("words/std.html", "Words of std", [], [Group("", None, std)])
        for name in ("index.html", "names.js", "search.js", "style.css"):
            self.render(name, name)
        return list(self.lost_links())

    def lost_links(self):
        """The links between pages that lead to no page, or to no place there."""
        files = {file.resolve(): file.read_text("utf-8") for file in self.folder.rglob("*.html")}
        places = {file: {html.unescape(place) for place in re.findall(r' id="([^"]*)"', text)}
                  for file, text in files.items()}
        for file, text in files.items():
            for link in set(re.findall(r'<a\b[^>]* href="([^":]*)"', text)):
                page, _, place = html.unescape(link).partition("#")
                to = (file.parent / page).resolve() if page else file
                if to not in files or place and urllib.parse.unquote(place) not in places[to]:
                    yield f"{file.name}: a link to {link}"

    def page(self, url, title, parts, groups=(), item=None):
        """Writes a page of parts and of groups of items."""
        groups = [group for group in groups if group.items or group.impl]
        self.render("page.html", url, title=title, parts=parts, groups=groups, item=item)

    def render(self, template, url, **given):
        """Writes a file from its template."""
        self.depth = url.count("/")
        (self.folder / url).parent.mkdir(parents=True, exist_ok=True)
        made = self.templates.get_template(template)
        text = made.render(url=url, top="../" * self.depth, **given)
        (self.folder / url).write_text(text + "\n", "utf-8")
