"""What a file takes from `bitcode`: names of its root, and names of `bitcode::own`, which only coders written out for a type need."""

import os
import re

FACADE = os.path.join(os.path.dirname(os.path.abspath(__file__)), "../crates/bitcode/src/lib.rt")


def own_names():
    """The names of `bitcode::own`."""
    with open(FACADE) as file:
        module = re.search(r"^pub mod own \{\n(.*?)^\}", file.read(), re.M | re.S)[1]
    used = re.findall(r"pub use [\w:]+::(?:\{([^}]*)\}|(\w+));", module)
    return {*re.findall(r"\w+", " ".join(map(" ".join, used))), *re.findall(r"pub type (\w+)", module)}


def with_own(text, own=None):
    """The text, in which a line `use bitcode::{..}` has the names of the root alone, and one before it those of `bitcode::own`."""
    own = own or own_names()

    def lines(found):
        names = {name.strip() for name in found[2].split(",") if name.strip()}
        if not names & own:
            return found[0]
        parts = (("bitcode::own", names & own), ("bitcode", names - own))
        return "\n".join(f"{found[1]}use {path}::{{{', '.join(sorted(part))}}};" for path, part in parts if part)

    return re.sub(r"(?m)^([ /!]*)use bitcode::\{([^{}]*)\};", lines, text)


def with_names(text, path, names):
    """The text with these names in its `ghost use` of the path, or in a new one."""
    pattern = re.compile(r"(?m)^ghost use " + re.escape(path) + r"\.\{([^}]*)\};")
    found = pattern.search(text)
    if found:
        names = {*names, *found[1].split(", ")}
        return text[: found.start()] + f"ghost use {path}.{{{', '.join(sorted(names))}}};" + text[found.end():]
    first = re.search(r"(?m)^ghost use ", text)
    place = first.start() if first else re.search(r"(?m)^use ", text).start()
    line = f"ghost use {path}.{{{', '.join(sorted(names))}}};\n"
    if path.startswith("Rattle.bitcode.") and first:
        place = text.index("\n", first.start()) + 1
    return text[:place] + line + ("" if first else "\n") + text[place:]
