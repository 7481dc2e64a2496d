"""The schema of declarations, or of a type: what `scripts/new_type --schema` writes (docs/COMMAND.md)."""

import json

from declarations import Parser, Struct, fields_of
from groups import inside_of, of_second
from known_types import INTEGERS, TYPES, Checker, names_in, of_text
from tokens import Refused

# What the library's types without parameters are in a schema. Types with parameters are in `Nodes.known`.
LEAVES = {name: name for name in [*INTEGERS, "bool", "char", "f32", "f64", "String", "Duration", "Uuid"]}
LEAVES |= {name: name for name in TYPES if name.startswith("NonZero")}
LEAVES |= {name: "String" for name in ("str", "BoxedStr", "RcStr", "ArcStr", "CowStr")}
SOCKETS = {
    "V4": {"struct": {"ip": "u32", "port": "u16"}},
    "V6": {"struct": {"ip": "u128", "port": "u16", "flowinfo": "u32", "scope_id": "u32"}},
}
LEAVES |= {
    "Ordering": {"enum": {"Less": "()", "Equal": "()", "Greater": "()"}},
    "Ipv4Addr": "u32",
    "Ipv6Addr": "u128",
    "IpAddr": {"enum": {"V4": "u32", "V6": "u128"}},
    "SocketAddrV4": SOCKETS["V4"],
    "SocketAddrV6": SOCKETS["V6"],
    "SocketAddr": {"enum": SOCKETS},
}
# What they are in the second format: an address is a tuple of its octets, and a socket has only it and the port.
OCTETS = {"V4": {"array": ["u8", 4]}, "V6": {"array": ["u8", 16]}}
PORTS = {name: {"struct": {"ip": octets, "port": "u16"}} for name, octets in OCTETS.items()}
IN_SECOND = {
    "Ipv4Addr": OCTETS["V4"],
    "Ipv6Addr": OCTETS["V6"],
    "IpAddr": {"enum": OCTETS},
    "SocketAddrV4": PORTS["V4"],
    "SocketAddrV6": PORTS["V6"],
    "SocketAddr": {"enum": PORTS},
}
LISTS = {"Vec", "BoxedSlice", "RcSlice", "ArcSlice", "VecDeque", "LinkedList", "BTreeSet", "HashSet", "BinaryHeap"}
MAPS = {"BTreeMap", "HashMap"}
# Types that are what they hold.
SAME = {"Box", "Rc", "Arc", "Wrapping", "Saturating", "Cow"}
RANGES = {"Range", "RangeInclusive"}
COLUMNS = 100


def replaced(type, given):
    """The type with what its item's parameters are given in their place."""
    if type.kind == "path" and type.name in given and not type.parts:
        return given[type.name]
    parts = [replaced(part, given) for part in type.parts]
    number = given.get(type.name) if type.kind == "array" else None
    return type._replace(name=number.name if number else type.name, parts=parts)


class Nodes:
    """The nodes of a schema, of types that name these items."""

    def __init__(self, items, told, leaves=LEAVES):
        self.items, self.told, self.types, self.leaves = {item.name: item for item in items}, told, {}, leaves

    def of(self, type):
        """The node of a type."""
        if type.kind == "tuple":
            return {"tuple": list(map(self.of, type.parts))} if type.parts else "()"
        if type.kind == "array":
            return {"array": [self.of(type.parts[0]), self.number(type)]}
        if type.kind == "slice":
            return {"Vec": self.of(type.parts[0])}
        if type.kind == "reference":
            return self.of(type.parts[0])
        if type.kind != "path":
            raise Refused(type.line, f"expected a type, found `{type.name}`")
        return self.item(type) if type.name in self.items else self.known(type)

    def number(self, type):
        """The length that a type has."""
        digits = type.name.removesuffix("usize").replace("_", "")
        if not digits.isdecimal() or int(digits) >= 2**64:
            raise Refused(type.line, f"write the length `{type.name}` as a number below 2^64")
        return int(digits)

    def parts(self, type, types, numbers):
        """The types and the numbers that a type of the library is given."""
        parts = [part for part in type.parts if part.kind != "lifetime"]
        if [part.kind == "number" for part in parts] != [False] * types + [True] * numbers:
            raise Refused(type.line, f"`{type.name}` takes {types} types and {numbers} numbers here")
        return [self.number(part) if part.kind == "number" else part for part in parts]

    def known(self, type):
        """The node of a type of the library."""
        name = type.name
        if name in self.leaves:
            self.parts(type, 0, 0)
            return self.leaves[name]
        if name in ("PhantomData", "Absent"):
            return "()" if name == "PhantomData" else {"enum": {}}
        if name == "ArrayString":
            return {name: self.parts(type, 0, 1)[0]}
        if name == "ArrayVec":
            element, limit = self.parts(type, 1, 1)
            return {name: [self.of(element), limit]}
        if name in MAPS or name == "Result":
            return {"BTreeMap" if name in MAPS else name: list(map(self.of, self.parts(type, 2, 0)))}
        if name in LISTS | SAME | RANGES | {"Option"}:
            inner = self.of(self.parts(type, 1, 0)[0])
            if name in RANGES:
                return {"struct": {"start": inner, "end": inner}}
            return inner if name in SAME else {"Vec" if name in LISTS else name: inner}
        checker = Checker(Struct([], [], [], "", "", "", [], [], "unit", type.line), {}, self.told)
        instead = checker.instead(type) or "declare it in the file, or in one that `--also` names"
        raise Refused(type.line, f"`{name}` is not known here: {instead}")

    def item(self, type):
        """The name of the node of a type that is declared, which the schema then has."""
        item = self.items[type.name]
        parts = [part for part in type.parts if part.kind != "lifetime"]
        parameters = (*item.types, *item.consts)
        if len(parts) != len(parameters):
            raise Refused(type.line, f"`{type.name}` takes {len(parameters)} parameters")
        name = of_text(type._replace(parts=parts))
        if name not in self.types:
            self.types[name] = None
            given = dict(zip(parameters, parts))
            self.types[name] = self.struct(item, given) if isinstance(item, Struct) else self.enum(item, given)
        return name

    def fields(self, of, given):
        """The node of the fields of a struct or a variant."""
        if of.kind == "unit":
            return "()"
        nodes = [self.of(replaced(field.type, given)) for field in of.fields]
        if of.kind == "named":
            return {"struct": {field.name: node for field, node in zip(of.fields, nodes)}}
        return nodes[0] if len(nodes) == 1 else {"tuple": nodes}

    def struct(self, item, given):
        return self.fields(item, given)

    def enum(self, item, given):
        return {"enum": {variant.name: self.fields(variant, given) for variant in item.variants}}


def root_of(items, told):
    """The type that leads to all others: of several that lead to each other the first."""
    named = {item.name: {name for field in fields_of(item) for name in names_in(field.type)} for item in items}

    def reached(name, found):
        if name in named and name not in found:
            found.add(name)
            for inner in named[name]:
                reached(inner, found)
        return found

    roots = [item for item in items if len(reached(item.name, set())) == len(items)]
    if not roots:
        names = ", ".join(f"`{item.name}`" for item in items)
        raise Refused(items[0].line, f"say which type the schema is of, with `--type`: {names}")
    if roots[0].types or roots[0].consts:
        name = roots[0].name
        raise Refused(roots[0].line, f"say what `{name}` is given, as in `--type '{name}<u8>'`")
    return roots[0].name


def parsed(text, told):
    """The type that the text is."""
    parser = Parser(text, told)
    found = parser.type()
    if not parser.is_end():
        raise Refused(parser.line(), f"expected the end of the type, found `{parser.next().text}`")
    return found


def schema(items, type, told):
    """The schema of a type, given as text, or of the declarations."""
    nodes, found = Nodes(items, told), parsed(type or root_of(items, told), told)
    root = nodes.of(found)
    if set().union(*of_second(items, inside_of(items))) & {name.split("<")[0] for name in nodes.types}:
        nodes = Nodes(items, told, LEAVES | IN_SECOND)
        root = nodes.of(found)
    return {"root": root, "types": nodes.types}


def laid_out(node, indent=""):
    """The node as JSON: in one line where it fits."""
    line = json.dumps(node, ensure_ascii=False)
    if len(indent) + len(line) <= COLUMNS or isinstance(node, (str, int)):
        return line
    further = indent + "  "
    if isinstance(node, dict):
        inner = [f"{json.dumps(key, ensure_ascii=False)}: {laid_out(part, further)}" for key, part in node.items()]
    else:
        inner = [laid_out(part, further) for part in node]
    opening, closing = "{}" if isinstance(node, dict) else "[]"
    return opening + "\n" + ",\n".join(further + part for part in inner) + "\n" + indent + closing
