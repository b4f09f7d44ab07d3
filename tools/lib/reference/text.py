"""Shows parts of what is said of items as lines of text."""
from reference.layout import columns, indent, lay_out, prose, signature

WIDEST, NARROWEST = 100, 40


def use_line(kind, module, names):
    """The line that imports names of a module, or the module itself."""
    mark = "." if kind == "ghost use" else "::"
    names = sorted(filter(None, names))
    braced = f"{{{', '.join(names)}}}" if len(names) != 1 or mark == "." else names[0]
    return f"{kind} {module}{mark}{braced};" if names else f"{kind} {module};"


class Text:
    """Parts as lines of text, of a width. Each part ends with an empty line."""

    def __init__(self, names, width=WIDEST):
        self.names, self.width = names, max(NARROWEST, min(width, WIDEST))

    def lines(self, parts):
        """The lines of parts."""
        for part in parts:
            if part.kind == "name":
                yield from (part.content, "")
            elif part.kind == "code":
                yield from (*lay_out(part.content, self.width), "")
            else:
                yield from ([part.title] if part.title else ())
                yield from (*indent(getattr(self, part.kind)(part.content)), "")

    def docs(self, text):
        """The lines of docs, or of a sentence."""
        return prose(text, self.width - 4)

    def written(self, clauses):
        """The lines of clauses."""
        lines = []
        for clause in clauses:
            begin = f"{clause.keyword}{clause.star} {clause.name}".rstrip()
            term = clause.term.replace("\n", "\n    ")
            lines += lay_out(f"{begin} {{ {term} }}", self.width - 4)
        return lines

    def laid(self, texts):
        """The lines of some code."""
        return [line for text in texts for line in lay_out(text, self.width - 4)]

    def listed(self, pairs):
        """The lines of a list: names, and what is said of each."""
        return columns([pair[:2] for pair in pairs], self.width - 4)

    def signatures(self, items):
        """The heads of functions, a line each."""
        return self.laid(signature(item.head, self.width - 4) for item in items)

    def caller(self, item):
        """The line that names a caller."""
        return self.docs(f"A caller: `{self.names.full_name(item)}`.")
