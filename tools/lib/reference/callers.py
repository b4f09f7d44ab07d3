"""Finds a caller of each call in the crates of examples.

It reads no types: what a method is called on follows from the function's head, a `let`, or what the
call in front returns. Else no caller is found.
"""
import functools
import re

from reference.outside import is_test
from reference.meanings import WITH_A_PAGE, base_name, declarations, supertraits

EXAMPLES = "_examples"
# What stands in front of a call's name: the dot of a method, or the end of a path.
BEFORE = re.compile(r"(?P<dot>\.)\s*$|(?P<path>\w+)(?:::<[^()=]*>|<[^()=]*>)?::$")
# What a method is called on: a name, or what another call made.
NAME = re.compile(r"(?<![.\w])(\w+)\s*$")
CALL = re.compile(r"(\w+)(?:::<[^()]*>)?\((?:[^()]|\([^()]*\))*\)\??\s*$")
# What stands in front of a type's name, and what a call with `?` takes off.
BORROW, WRAPPER = re.compile(r"&?(?:'\w+ )?(?:mut )?"), re.compile(r"(?:Result|Option)<")


class Callers:
    """The callers in the crates of examples."""

    def __init__(self, names):
        self.names, self.site = names, names.site

    @functools.cached_property
    def functions(self):
        """The functions of the examples that aren't tests, each with its body, in their order."""
        items = [it for it in self.names.samples.items if it.kind == "fn" and it.owner.kind == "mod"
                 and not is_test(it) and self.names.path(it)[0].endswith(EXAMPLES)]
        texts = [it.module.text[it.module.text.index("{", it.begin):it.end] for it in items]
        bodies = dict(zip(items, (re.sub("//.*", "", text) for text in texts)))
        return [(it, bodies[it]) for it in sorted(items, key=self.names.samples.order)]

    @functools.lru_cache(None)
    def owners(self, type_name, function):
        """The names of the type and the traits that a name of a type stands for in a function."""
        names = {type_name}
        left = [base_name(bound) for bound in declarations(function.head)[0].get(type_name, [])]
        for item in self.site.by_name.get(type_name, []):
            names |= {impl.of_trait for impl in item.blocks if impl.of_trait}
            left += [base_name(item.head.partition("=")[2])] if item.kind == "type" else []
        while left:
            name = left.pop()
            traits = [] if name in names else self.site.by_name.get(name, [])
            left += [base_name(bound) for trait in traits for bound in supertraits(trait)]
            names.add(name)
        return names

    def is_inherent(self, type_name, name):
        """Whether a type of ours has a function of its own by this name."""
        return any(member.name == name for item in self.site.by_name.get(type_name, [])
                   for impl in item.blocks if not impl.of_trait for member in impl.members)

    def receivers(self, function, code):
        """The names of the types that code may have at its end: of a name by its `let`, or else by
        the function's head; of a call what it returns, of a `Result` or an `Option` inside."""
        if found := NAME.search(code):
            name = found[1]
            typed = re.search(rf"(?<![\w.]){name}: ([^,()=]+)", function.head)
            for let in re.finditer(rf"\blet (?:mut )?{name}(?:: ([^=;]+))? = ([^;]+);", code):
                if not let[1]:
                    return self.receivers(function, code[:let.start()] + let[2])
                typed = let
            return {base_name(BORROW.sub("", typed[1].strip(), count=1))} if typed else set()
        found, types = CALL.search(code), set()
        for item in self.names.named([found[1]]) if found else []:
            if item.kind == "fn" and self.is_called(item, function, code[:found.start()]):
                made = WRAPPER.sub("", item.head.rpartition("->")[2].strip())
                types.add(item.of_whom.name if re.match(r"Self\b(?!::)", made) else base_name(made))
        return types

    def is_called(self, item, function, code):
        """Whether a name behind this code of a function is a call of an item. A type's own function
        goes before that of a trait."""
        found, owner = BEFORE.search(code), item.of_whom
        if item.kind == "macro" or owner.kind not in WITH_A_PAGE:
            return item.kind == "macro" or not found or (found["path"] or "")[:1].islower()
        types = {found["path"]} if found and found["path"] else (
            self.receivers(function, code[:found.start()]) if found else ())
        return any(owner.name in self.owners(name, function) for name in types
                   if not (owner.kind == "trait" and self.is_inherent(name, item.name)))

    @functools.lru_cache(None)
    def of(self, item):
        """A caller of an item, which is a sample, or None."""
        mark = "!" if item.kind == "macro" else r"(?:::<[^()]*>)?\("
        call = re.compile(rf"\b{re.escape(item.name)}{mark}")
        functions = self.functions if item.kind in ("fn", "macro") else ()
        return next((function for function, body in functions for found in call.finditer(body)
                     if self.is_called(item, function, body[:found.start()])), None)
