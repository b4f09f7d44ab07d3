"""Lays out docs, signatures and terms as lines of some width."""
import re
import textwrap


def indent(lines):
    """Lines that begin deeper, but for empty ones."""
    return [f"    {line}" if line else line for line in lines]


def wrap(text, width, deeper=""):
    """A paragraph as lines, the later ones deeper."""
    return textwrap.wrap(text, width, subsequent_indent=deeper, break_long_words=False,
                         break_on_hyphens=False)


def lay_out(text, width):
    """The lines of code as they are written, but for those that are too wide. The rest of such a
    line begins deeper, and neither behind a sign nor in a short bracket."""
    whole, lines = re.compile(r"[({][^(){}]{,50}[)}]|\w<[^<>]{,50}>|(?<= )[^\w\s(){}]+ | (?=})"), []
    for line in text.split("\n"):
        begin = " " * (len(line) - len(line.lstrip()))
        kept = whole.sub(lambda part: part[0].replace(" ", "\0"), line.strip())
        pieces = textwrap.wrap(kept, width, initial_indent=begin, subsequent_indent=begin + " " * 4,
                               break_long_words=False, break_on_hyphens=False)
        lines += [it.replace("\0", " ") for it in pieces] if len(line) > width else [line]
    return lines


def prose(text, width):
    """The lines of docs: code is indented, paragraphs and items of lists are wrapped."""
    lines = []
    for number, part in enumerate(re.split(r"(?m)^```.*$", text.strip())):
        part = part.strip("\n")
        lines += [""] if lines and part else []
        if number % 2:
            lines += indent(lay_out(part, width - 4))
        else:
            for block in re.split(r"\n(?=\n|- )", part):
                deeper = "  " * block.startswith("- ")
                lines += [""] * block.startswith("\n") + wrap(block.strip("\n"), width, deeper)
    return lines


def columns(pairs, width):
    """The lines of a list of names and their texts: on the same line, or below a long name."""
    widest = max((len(name) for name, _ in pairs if len(name) <= 26), default=2)
    for name, said in pairs:
        lines = wrap(said, width - widest - 2)
        if len(name) > widest or not lines:
            yield name
            name = ""
        for line in lines:
            yield f"{name.ljust(widest + 2)}{line}"
            name = ""


def one_line(head, conditions=r"\bwhere\b.*"):
    """A head on one line, without its conditions on types."""
    line = " ".join(re.sub(conditions, "", head, flags=re.S).split())
    line = re.sub(r",? ([)\]>])", r"\1", re.sub(r"(?<=[(\[]) |(?<=\w<) ", "", line))
    return line.rstrip("{, ")


def signature(head, width):
    """A function's head on one line: where it is too long without its type parameters."""
    line = re.sub(r"^pub |(?:(?<=\()|(?<=, ))mut ", "", one_line(head))
    return line if len(line) <= width else re.sub(r"(fn \w+)<.*?>\(", r"\1<..>(", line, count=1)
