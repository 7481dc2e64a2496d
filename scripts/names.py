"""Names of the user's types: those that are taken, and those that the library's names make room for."""

import re

from closed import is_closed
from declarations import KEYWORDS, Struct, fields_of, with_fields
from known_types import MOST_FIELDS, TYPES, names_in
from paths import path_of
from structs import QUOTED, declaration as struct_declaration
from variants import declaration as enum_declaration
from wide import parts_of

CHOOSE = "choose another name"
# The names that no type can have, with what is said of them.
OF_THE_FILES = f"which the generated files use: {CHOOSE}"
TAKEN = {name: f"`{name}` is the name of `{path_of(name)}`, {OF_THE_FILES}" for name in TYPES}
TAKEN |= {name: f"`{name}` is a name of std's prelude, {OF_THE_FILES}" for name in "Self Some None Ok Err".split()}
# Modules that the crate has already, or that would hide a crate that the files name.
MODULES = set("alloc arrayvec bitcode core lib main std uuid".split())
# What the file of a struct with coders of its own declares.
CODERS = {"Encoder": "its encoder", "Decoder": "its decoder"}
PART_CODERS = {"Encoder": "the encoder", "Decoder": "the decoder"}
# What ends the names of the user's types while a file is written that uses one of them for something else.
MARK = "ˣ"


def module_of(name):
    """The name of the module of a type: `ArmorSet` is in `armor_set`."""
    module = re.sub(r"(?<=[a-z0-9])(?=[A-Z])|(?<=[A-Z])(?=[A-Z][a-z])", "_", name).lower()
    return module + "_" if module in KEYWORDS | QUOTED else module


def refuse_name(item, items, named, told):
    """Refuses a name that std's types have or another type, with where that is."""
    before = [other for other in items if other.name == item.name and other.line <= item.line and other is not item]
    if item.name in TAKEN:
        told.fault(item.line, TAKEN[item.name])
    elif item.name in named:
        use = named[item.name]
        told.fault(item.line, f"`{item.name}` is `{'::'.join(use.path)}`, by the `use` in line {use.line}: {CHOOSE}")
    elif before and items.index(before[0]) < items.index(item):
        told.fault(item.line, f"`{item.name}` is declared in line {before[0].line} already: {CHOOSE}")
    for name in (*item.types, *item.consts):
        if name in TAKEN:
            told.fault(item.line, TAKEN[name])
        elif name in named or name in {other.name for other in items}:
            told.fault(item.line, f"`{name}` is the name of a type here: {CHOOSE} for the parameter")


def refuse_names(items, named, told):
    """Refuses names that others have, and two types whose files would have one name."""
    modules = {}
    for item in items:
        refuse_name(item, items, named, told)
        module = module_of(item.name)
        file = f"`{module}.rt`, the file of `{item.name}`, is that of"
        if module in MODULES:
            told.fault(item.line, f"{file} the crate itself or of one below it: {CHOOSE}")
        elif modules.get(module, item.name) != item.name:
            told.fault(item.line, f"{file} `{modules[module]}`, too: {CHOOSE}")
        modules.setdefault(module, item.name)
    for use in named.values():
        if use.path[0] == "crate" and use.name in TAKEN:
            told.fault(use.line, TAKEN[use.name])


def refuse_unused(items, faulty, told):
    """Refuses parameters that no field has."""
    for item in items:
        used = {name for field in fields_of(item) for name in names_in(field.type)}
        part = "field" if isinstance(item, Struct) else "variant"
        for name in filter(None, (*item.types, *item.consts, item.lifetime)):
            if name not in used and item.name not in faulty:
                told.fault(item.line, f"no {part} uses `{name}`: remove it")


def refuse_parts(items, own, told):
    """Refuses a type with a name that the file of an enum or of a struct with many fields uses for what it declares."""
    for item in items:
        if isinstance(item, Struct):
            parts = parts_of(item) if len(item.fields) > MOST_FIELDS else ()
            used = [(part.name, "a part of its fields") for part in parts]
            used += [(part.name + end, f"{what} of a part of its fields") for part in parts for end, what in PART_CODERS.items()]
            used += [(item.name + end, what) for end, what in CODERS.items()] if is_closed(item, own) else []
        else:
            used = [(item.name + "Columns", "its columns"), (item.name + "Payloads", "its payloads")]
        for name, what in used:
            if name in own:
                line = own[name].item.line if own[name].item else item.line
                told.fault(line, f"`{name}` is the name that the file of `{item.name}` uses for {what}: {CHOOSE}")


def users_names(item, own):
    """The names in the file of the item that are the user's."""
    used = {name for field in fields_of(item) for name in names_in(field.type)}
    return {item.name, *item.types, *item.consts} | used & set(own)


def librarys_names(text):
    """The names that the file takes from other crates or gives itself, with others for them."""
    names = {}
    for path, inner in re.findall(r"(?m)^use (?!crate::)([\w:]+?)(?:::\{([^}]*)\})?;", text):
        words = path.split("::")
        names |= {name: words[0].capitalize() + name for name in re.findall(r"\w+", inner or words[-1])}
    return names | {name: f"{name}Of" for name in re.findall(r"(?m)^type (\w+)", text)}


def marked(item, names):
    """The item with marks behind these names."""

    def of_type(type):
        name = type.name + MARK if type.kind in ("path", "array") and type.name in names else type.name
        return type._replace(name=name, parts=[of_type(part) for part in type.parts])

    def of(name):
        return name + MARK if name in names else name

    item = item._replace(name=of(item.name), types=list(map(of, item.types)), consts=tuple(map(of, item.consts)))
    return with_fields(item, lambda fields: [field._replace(type=of_type(field.type)) for field in fields])


def marked_own(own, names):
    """What is known of the user's types, also by the names with marks."""
    return own | {name + MARK: own[name]._replace(path=own[name].path + MARK) for name in names & set(own)}


def with_room(text, item, names, others):
    """The file with other names for the library's in the place of these, and without the marks."""
    whole = (struct_declaration if isinstance(item, Struct) else enum_declaration)(item)
    own = item.name.removesuffix(MARK)
    others = {name: others[name] + (own if others[name] == f"{name}Of" else "") for name in names & set(others)}
    pattern = re.compile(rf"(?<![\w.:'])({'|'.join(others)})(?!\w)")

    def of_line(line):
        if line.startswith(("//", "use crate::", "ghost use ")) or line.lstrip().startswith("//"):
            return line
        if line.startswith("use "):
            return re.sub(rf"\b({'|'.join(others)})(?=[,;}}])", lambda found: f"{found[1]} as {others[found[1]]}", line)
        # the name of an associated type stays
        head = re.match(r" +type \w+ =|", line)[0]
        return head + pattern.sub(lambda found: others[found[1]], line[len(head):])

    text = "\n".join(map(of_line, text.replace(whole, "\0").split("\n")))
    return text.replace("\0", whole).replace(MARK, "")
