"""Where the functions of a Rattle source are, and the `impl` or `trait` around each."""

import re

SKIPPED = re.compile(r"//[^\n]*|b?\"(?:\\.|[^\"\\])*\"|b?'(?:\\[^\n]+?|[^\\'\n])'")
CLAUSE = re.compile(r"\b(?:requires|ensures|ghost)\b\*?[^{;]*\{")
FUNCTION = re.compile(r"\bfn (\w+)")
OWNER = re.compile(r"^ *(?:pub(?:\(\w+\))? )?(?:unsafe )?(impl|trait)\b([^{]*)\{", re.M)


class Owner:
    """An `impl` or a `trait`: where it is, and the names of its trait and its type. A `trait` has no type, and an
    `impl` without a trait no trait."""

    def __init__(self, start, end, kind, header):
        self.start, self.end = start, end
        trait, of = (None, header) if kind == "impl" else (header, "")
        if kind == "impl":
            trait, of = split_header(header)
        self.trait = name_of(trait) if trait else None
        self.of = name_of(of) if of else None


class Function:
    """A function: its name, where it is, and the `impl` or `trait` around it."""

    def __init__(self, name, start, end, owner):
        self.name, self.start, self.end, self.owner = name, start, end, owner


def masked(text):
    """The text with its comments, strings and characters blanked, so that brackets can be counted."""
    return SKIPPED.sub(lambda found: re.sub(r"[^\n]", " ", found[0]), text)


def block_end(text, at):
    """The end of the first block that begins at or behind this place."""
    depth = 0
    for i in range(at, len(text)):
        depth += (text[i] == "{") - (text[i] == "}")
        if text[i] == "}" and depth == 0:
            return i + 1
    return len(text)


def function_end(text, at):
    """The end of the function whose name ends at this place: of its body, or the semicolon of one without a body."""
    depth, i = 0, at
    while i < len(text):
        clause = CLAUSE.match(text, i) if depth == 0 else None
        if clause:
            i = block_end(text, clause.end() - 1)
            continue
        depth += (text[i] in "([") - (text[i] in ")]")
        if depth == 0 and text[i] == "{":
            return block_end(text, i)
        if depth == 0 and text[i] == ";":
            return i + 1
        i += 1
    return len(text)


def split_header(header):
    """The trait and the type of what follows the word `impl`, without its type parameters and its bounds."""
    plain, depth = re.split(r"\bwhere\b", header)[0].strip(), 0
    parts, start = [], 0
    for found in re.finditer(r"[<>]| for ", plain):
        if found[0] == " for ":
            if depth == 0:
                parts.append(plain[start:found.start()])
                start = found.end()
            continue
        depth += (found[0] == "<") - (found[0] == ">" and plain[found.start() - 1] != "-")
        if found[0] == ">" and depth == 0 and start == 0 and plain.startswith("<") and not parts:
            start = found.end()
            plain = " " * start + plain[start:]
    parts.append(plain[start:])
    return (None, parts[0].strip()) if len(parts) == 1 else (parts[0].strip(), parts[1].strip())


def name_of(path):
    """The last name of a path, without its arguments. Of a type without a name, such as a slice, there is none."""
    found = re.match(r"(?:\w+::)*(\w+)", path.strip())
    return found[1] if found else None


def functions_in(text):
    """The functions of a file."""
    plain = masked(text)
    owners = [
        Owner(found.start(), block_end(plain, found.end() - 1), found[1], " ".join(found[2].split()))
        for found in OWNER.finditer(plain)
    ]
    return [
        Function(
            found[1], found.start(), function_end(plain, found.end()),
            next((owner for owner in reversed(owners) if owner.start <= found.start() < owner.end), None),
        )
        for found in FUNCTION.finditer(plain)
    ]
