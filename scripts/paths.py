"""What the paths of a file name: types that the library writes and reads, and types of one's own."""

from declarations import Type, Use, fields_of, with_fields
from known_types import INSTEAD, INTEGERS, TYPES, is_unsized, of_text
from tokens import Refused

# Where the types are that no `use` line has to bring in; those of them that are not named here are in std::primitive.
MODULES = {"Box": "boxed", "Option": "option", "Result": "result", "String": "string", "Vec": "vec"}
# Inner modules of std::collections, which have the same types.
INNER = {"binary_heap", "btree_map", "btree_set", "hash_map", "hash_set", "linked_list", "vec_deque"}
STD = ("std", "core", "alloc")


def path_of(name):
    """The path of a type that the library writes and reads."""
    return TYPES[name].path or f"std::{MODULES.get(name, 'primitive')}::{name}"


def is_known(path):
    """Whether this is the path of a type that the library writes and reads."""
    words = ["std" if path[0] in STD else path[0], *(word for word in path[1:-1] if word not in INNER), path[-1]]
    return path[-1] in TYPES and "::".join(words) == path_of(path[-1])


def is_module(name):
    """Whether this is a name as modules have them."""
    return name[0].islower() and name not in TYPES


def instead_of(path):
    """What to write in the place of a type of another crate, or of one of std."""
    name = path[-1]
    if name in TYPES:
        return f"`{'::'.join(path)}` is not supported: write `{path_of(name)}`, or a type of your own"
    if name in INSTEAD:
        return f"`{name}` is not supported: {INSTEAD[name]}"
    if path[0] == "serde_json":
        return f"`{'::'.join(path)}` is not supported: write a `String` of JSON, or use the second format (docs/GUIDE.md)"
    what = f"`{name}` is a type of std that is" if path[0] in STD else f"`{'::'.join(path)}` is"
    return f"{what} not supported: write a type of your own that holds what it holds"


def is_macro(use, declared):
    """Whether another crate's name is that of a type in the file, as a derive's may be. Rust has no two types of a
    name."""
    return use.name in declared and use.path[0] not in (*STD, "crate", "self", "super")


def imports_of(uses, faulty, told):
    """The types of one's own that the file brings in, and all that it does, by their names."""
    own, named = {}, {}
    for use in uses:
        root, name = use.path[0], use.name
        if root in ("self", "super"):
            told.fault(use.line, f"write the path of `{name}` starting with `crate`: the file is in src/")
            faulty.add(name)
            continue
        elif name in named and named[name].path != use.path:
            told.fault(use.line, f"`{name}` is `{'::'.join(named[name].path)}` already: rename one of them")
            continue
        elif root == "crate":
            own |= {} if is_module(name) else {name: use}
        named[name] = use
    return own, named


class Paths:
    """What the paths of the items' fields name. A type of one's own that a path from `crate` on names is brought in."""

    def __init__(self, items, own, named, taken, told):
        self.declared = {item.name for item in items}
        self.own, self.named, self.taken, self.told = own, named, taken, told

    def bring_in(self, path, line, parameters):
        name = path[-1]
        if name in self.declared:
            raise Refused(line, f"write `{name}`: it is declared here")
        if path[0] != "crate":
            raise Refused(line, f"write the path of `{name}` starting with `crate`: the file is in src/")
        if name in self.taken:
            raise Refused(line, self.taken[name])
        if name in parameters:
            raise Refused(line, f"`{name}` is a parameter of the type: choose another name for one of them")
        if name in self.own and self.own[name].path != path:
            raise Refused(line, f"`{name}` is `{'::'.join(self.own[name].path)}` already: rename one of them")
        self.own[name] = Use(name, path, line)

    def see(self, type, parameters):
        """Sees that the path is that of the type that its last word names here."""
        faults = len(self.told.faults)
        with self.told.going_on():
            self.see_path(type, parameters)
        if len(self.told.faults) > faults:
            self.told.blamed.add((type.line, type.name))
            # What is to be written in its place may hold what it holds.
            if "<" not in INSTEAD.get(type.name, ""):
                return
        for part in type.parts:
            self.see(part, parameters)

    def see_path(self, type, parameters):
        if not type.path:
            return
        is_used = type.path[0] in self.named and type.path[0] not in parameters
        path = (*self.named[type.path[0]].path, *type.path[1:]) if is_used else type.path
        name, others = path[-1], {*self.declared, *self.own, *parameters}
        if len(path) < 2 or is_used and len(type.path) == 1 and path[0] in ("crate", "self", "super"):
            return
        if path[0] in ("crate", "self", "super"):
            self.bring_in(path, type.line, parameters)
        elif path[0] in parameters:
            raise Refused(type.line, f"`{'::'.join(path)}` is not supported: write a type parameter of its own for it")
        elif not is_known(path):
            # A type of std that the library does not write is refused with all that is said of it.
            if path[0] not in STD and name in self.declared:
                instead = f"write `{name}`, which is declared here, or another type of your own"
                raise Refused(type.line, f"`{'::'.join(path)}` is not supported: {instead}")
            if path[0] not in STD or name in TYPES or name in others or name not in INSTEAD:
                raise Refused(type.line, instead_of(path))
        elif name in others:
            raise Refused(type.line, f"`{name}` is a type of your own here: choose another name for it")

    def all(self, items, faulty):
        for item in items:
            faults = len(self.told.faults)
            for field in fields_of(item):
                self.see(field.type, (*item.types, *item.consts))
            faulty |= {item.name} if len(self.told.faults) > faults else set()


def sized(items, imports, told):
    """The items with other types for each `Box`, `Rc` and `Arc` of a text or a slice, each `Cow` of a text and each
    `NonZero`, which the toolchain does not have."""

    own = {*imports, *(item.name for item in items)}

    def of_type(type):
        declared, type = of_text(type), type._replace(parts=[of_type(part) for part in type.parts])
        parts = type.parts
        if type.kind == "path" and type.name == "Cow" and len(parts) == 2 and (parts[1].kind, parts[1].name) == ("path", "str"):
            written = Type("path", "CowStr", parts[:1], type.line)
        elif type.kind == "path" and type.name in ("Box", "Rc", "Arc") and len(parts) == 1 and is_unsized(parts[0]):
            inner, head = parts[0], "Boxed" if type.name == "Box" else type.name
            written = Type("path", head + ("Slice" if inner.kind == "slice" else "Str"), inner.parts, type.line)
        elif type.name in {"NonZero"} - own and [part.name in INTEGERS for part in parts] == [True]:
            written = Type("path", f"NonZero{parts[0].name.capitalize()}", [], type.line)
        else:
            return type
        told.note(type.line, f"`{declared}` is written `{of_text(written)}`")
        return written

    def of_fields(fields):
        return [field._replace(type=of_type(field.type)) for field in fields]

    return [with_fields(item, of_fields) for item in items]
