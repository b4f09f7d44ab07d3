"""The functions of ours that a Rust program calls, one a case, and texts laid out for each kind."""

EXPORT = """
#[unsafe(no_mangle)]
pub extern "C" fn ours_{name}({given}) -> u64 {{
{before}    match kind {{
{arms}
        _ => 0,
    }}
}}
"""


def export(name, numbers, calls, alloc=False, before=""):
    """A function of these numbers, of which `kind` chooses a call. C passes no allocator."""
    given = f"alloc: Global, {numbers}" if alloc else numbers
    arms = "\n".join(f"        {kind} => {call}," for kind, call in calls.items())
    return EXPORT.format(name=name, given=given, arms=arms, before=before)


def declarations(functions):
    """The same as Rust declares them, by their names and numbers: they are safe in Rattle."""
    lines = [f"    safe fn ours_{name}({numbers}) -> u64;" for name, numbers in functions.items()]
    return "\n".join(["unsafe extern \"C\" {", *lines, "}"])


def fill_in(text, words):
    """A text where a type or a number stands for each word in capitals."""
    for word, stands in words.items():
        text = text.replace(word, str(stands))
    return text


def texts_of(folder):
    """The texts of a folder that are laid out as modules, by their names."""
    return {it.stem: it.read_text() for it in sorted(folder.glob("*.rattle"))}


def crate(texts, made, exports):
    """The modules of a crate by name: these texts, of those in `made` one for each kind, and the
    exports."""
    modules = {name: text for name, text in texts.items() if name not in made}
    modules["exports"] = exports
    for name, kinds in made.items():
        for kind, words in kinds.items():
            modules[f"{name}_{kind}"] = fill_in(texts[name], words)
    declared = "".join(f"mod {it};\n" for it in sorted(modules.keys() - {"lib"}))
    return {**modules, "lib": f"{modules['lib']}\n{declared}"}
