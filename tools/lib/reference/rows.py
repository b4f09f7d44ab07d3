"""Reads the rows of the documents' tables and lists.

A row of the Rust crate's names has these in front, then what stands here, or nothing where it is
the same name, then notes. One of what to write has a message of the check in front.
"""
import re

# The documents of the Rust crate's names, of names of clauses, and of messages.
OF_RUST, OF_CLAUSES = ("DIFFERENCES",), ("DEFINITIONS",)
OF_MESSAGES = ("STUCK", "CALLING")
# The headings above the signs and words of std, and above names of others.
OF_STD, OF_OTHERS = "Signs and words of std", "Looked up as"
CODE = re.compile(r"`([^`]+)`")
# What parts a line's cells, and its names from what is said of them: none of it stands in code.
IN_CODE = r"(?=(?:[^`]*`[^`]*`)*[^`]*$)"
BAR, COLON = re.compile(r" ?(?<!\\)\|" + IN_CODE), re.compile(": " + IN_CODE)
FENCED = re.compile(r"(?ms)^ *```.*?^ *```$")
BLOCK = re.compile(r"(?m)(?:^.*\S.*\n?)+")
RULE = re.compile(r"[-:| ]*---[-:| ]*$")
# By which trait text prints a value, by what stands in the braces.
FORMATS = {"x": "LowerHex", "X": "UpperHex", "?": "Debug", "": "Display"}
FORMAT = re.compile(r"\{\w*(?::[^{}]*?)?([xX?]?)\}")
# What of a message differs from one code to another: the place in front, names, and the goal.
DIFFERS = re.compile(r"^(?:\S+: +)+|`[^`]*`|\w+(?=-requires)|(?<=must prove: ).*")
WORD = re.compile(r"[^\W_]\w*")


class Row:
    """A row: its place, the heading above it, the module or type that it is of, its cells behind
    their columns' titles, and of these the Rust crate's names, ours, and notes."""

    def __init__(self, place, heading, section, titles, cells):
        self.place, self.heading, self.section = place, heading, section
        self.cells = list(zip(titles, [*cells, *[""] * len(titles)]))
        self.theirs, self.ours, *notes = [cell for _, cell in self.cells]
        self.notes = [text for text in notes if text]
        self.text = plain(" ".join(cells))
        self.names = [parts for code in CODE.findall(self.theirs) for parts in names_in(code)]
        self.names += [[name] for name in self.theirs.split(", ") if re.fullmatch(r"\w+", name)]
        self.left_out = self.ours.startswith("left out")

    def mentions(self, parts):
        """Whether ours or the notes have code that ends in a name."""
        codes = CODE.findall(" ".join([self.ours, *self.notes]))
        return any(name[-1] == parts[-1] for code in codes for name in names_in(code))

    def stands_for(self, parts):
        """Whether what stands here has this name in front."""
        first = CODE.match(self.ours)
        return bool(first) and any(name[-1] == parts[-1] for name in names_in(first[1]))

    def fit(self, parts):
        """How well the row fits a name: 0 where it doesn't, more for each part that it has."""
        last = parts[-1]
        ends = any(name[-1] == last for name in self.names)
        best = 2 * ends or last[:1].isupper() and any(last in name for name in self.names)
        return best and best + self.around(parts)

    def around(self, parts):
        """How many parts of a name but the last stand in front of the row, or where it stands."""
        return sum(part in f"{self.section} {self.theirs}" for part in parts[:-1])


def plain(text):
    """Text in small letters, without backquotes and line breaks."""
    return " ".join(text.replace("`", "").replace("<br>", " ").casefold().split())


def names_in(code):
    """The names that code is looked up by, each as its parts, without arguments and parameters: of
    a chain of calls the last one's, and of a format its trait's."""
    yield from ([FORMATS[sign[1]]] for sign in FORMAT.finditer(code))
    code = code.replace("::<", "<").replace("->", "")
    for bracket in (r"\([^()]*\)", r"\[[^\[\]]*\]", r"<[^<>]*>"):
        while (less := re.sub(bracket, "", code)) != code:
            code = less
    code = code.removeprefix("&").removeprefix("mut ").strip(":. !?;")
    if re.fullmatch(r"\w+(?:(?:::|\.)\w+)*", code):
        yield re.split(r"::|\.", code)


def documents(top, *patterns):
    """The documents, each with its text."""
    for file in sorted(file for pattern in patterns for file in top.glob(pattern)):
        yield file.relative_to(top), file.read_text("utf-8")


def line_of(text, at):
    """The line of a place in a text."""
    return text.count("\n", 0, at) + 1


def without_code(text):
    """A document without what is set apart as code, with as many lines."""
    return FENCED.sub(lambda code: "\n" * code[0].count("\n"), text)


def blocks_of(text):
    """The rows of tables, the paragraphs and the items of lists of a document: each with its line,
    the heading above it, the titles of its columns, or none, and its cells, or its text alone."""
    heading, text = "", without_code(text)
    for block in BLOCK.finditer(text):
        line, lines = line_of(text, block.start()), block[0].rstrip("\n").split("\n")
        if lines[0].startswith("#"):
            heading = lines[0].strip("# ")
        elif len(lines) > 1 and RULE.match(lines[1]):
            titles = [title.strip() for title in BAR.split(lines[0])]
            for number, row in enumerate(lines[2:], line + 2):
                cells = [cell.strip().replace(r"\|", "|") for cell in BAR.split(row)]
                yield number, heading, titles, cells
        else:
            for part in re.split(r"\n(?=- )", "\n".join(lines)):
                yield line, heading, None, [" ".join(part.split())]
                line += part.count("\n") + 1


def rows_of(place, text):
    """The rows of a document: of its tables, where one whose first cell is bold begins a module,
    and of its lists, but for our own items, what is said behind a name and a colon."""
    section, last = "", None
    for line, heading, titles, (first, *cells) in blocks_of(text):
        section, last = section if titles is last else "", titles
        if titles:
            section = first.strip("*") if first.startswith("**") else section
            yield Row(f"{place}:{line}", heading, section, titles, [first.strip("*"), *cells])
        elif first.startswith("- `") and heading != "Own items":
            theirs, *said = COLON.split(first[2:], maxsplit=1)
            if said:
                yield Row(f"{place}:{line}", heading, "", ("", ""), [theirs, said[0]])


def rows(top, names):
    """The rows of the documents of these names."""
    found = [it for name in names for it in documents(top, f"docs/{name}.md")]
    return [row for place, text in found for row in rows_of(place, text)]


def stands_in(phrase, text):
    """Whether a phrase stands in a text, and isn't a part of longer words."""
    begin = r"(?<!\w)" if re.match(r"\w", phrase) else ""
    end = r"(?![\w-])" if re.search(r"\w$", phrase) else ""
    return bool(re.search(begin + re.escape(phrase) + end, text))


def rows_with(rows, text):
    """The rows in which a text stands, or else all its words, or else these but for names, or else
    those whose message, but for what differs, stands in the text, or that begin with its code."""
    text = re.sub(r"(?<=loop-)\w+(?=-preserved)", "x", text)
    alike = {row: len({*CODE.findall(text)} & {*CODE.findall(row.theirs)}) for row in rows}
    phrase = plain(text).strip(" .,:;")
    found = [row for row in rows if phrase and stands_in(phrase, row.text)]
    for words in (set(WORD.findall(plain(it))) for it in (text, DIFFERS.sub(" ", text))):
        found = found or [row for row in rows if len(words) > 1
                          and words <= set(WORD.findall(row.text))]
    pieces = {row: [plain(it) for it in re.split(r"\.\.|`[^`]*`", row.theirs)] for row in rows}
    found = found or [row for row in rows if len("".join(pieces[row])) > 15 and all(
        piece.strip(" .,:;") in phrase for piece in pieces[row])]
    return sorted(found or filter(alike.get, rows), key=alike.get, reverse=True)


def rows_naming(rows, name):
    """The rows that have a name in code, first those that begin with such code."""
    found = {row: [any(stands_in(name, code) for code in CODE.findall(cell))
                   for _, cell in row.cells] for row in rows}
    return sorted((row for row in rows if any(found[row])), key=lambda row: not found[row][0])
