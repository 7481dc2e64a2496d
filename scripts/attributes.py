"""Attributes of types, fields and variants: which scripts/new_type keeps, which it takes off, and which it refuses."""

# What std derives, and what others derive of a type that the library writes, in whose place scripts/new_type writes
# impls.
DERIVED = set("Clone Copy Debug Default Drop Eq Hash Ord PartialEq PartialOrd".split())
SAID = {"Decode": "bitcode", "Deserialize": "serde", "Encode": "bitcode", "Serialize": "serde"}
# The attributes that change nothing of how a type is written and read, and that the toolchain knows: of fields,
# variants and types.
OF_FIELDS = set("allow deny deprecated doc expect forbid warn".split())
OF_VARIANTS = {*OF_FIELDS, "default", "non_exhaustive"}
ATTRIBUTES = {*OF_FIELDS, "must_use", "non_exhaustive", "repr"}
DOCS = set("hidden inline no_inline".split())
# Attributes of std and its tools that the toolchain does not know.
OF_TOOLS = set("cold clippy inline rustfmt".split())
# What serde and the Rust crate say in attributes and no byte depends on.
NO_BYTE = set("alias borrow bound bound_type content crate deny_unknown_fields expecting flatten rename rename_all "
              "rename_all_fields skip_serializing_if tag transparent untagged".split())
# A `Vec<u8>` is written as bytes anyway.
AS_BYTES = ["with", "=", '"serde_bytes"']
ALL_WRITTEN = "all fields are written, in their order"
OTHER_TYPE = "remove it, encode and decode the other type, and convert in your own code"
BY_FUNCTION = "write a type of your own for the field, which holds what the function writes"
INSTEAD = {
    "default": f"{ALL_WRITTEN}. Write `#[since(2)]` if version 1 lacks the field (docs/GUIDE.md)",
    **{word: OTHER_TYPE for word in ("from", "into", "remote")},
    "try_from": "write `#[check(..)]` with what the conversion asks of the fields (docs/GUIDE.md)",
    **{word: BY_FUNCTION for word in ("with", "serialize_with", "deserialize_with", "getter")},
    **{word: f"{ALL_WRITTEN}. Write `skip`, which does both, or move it to another struct, which holds this one"
       for word in ("skip_serializing", "skip_deserializing")},
    "skip": "only a field can be skipped. Remove it",
    "other": "the library rejects an unknown variant. Remove it",
}


def parted(words, mark=","):
    """The words between marks that no bracket holds."""
    parts, depth = [[]], 0
    for word in words:
        depth += (word in ("(", "[", "{")) - (word in (")", "]", "}"))
        if word == mark and not depth:
            parts.append([])
        else:
            parts[-1].append(word)
    return [part for part in parts if part]


def shown(inner):
    """The attribute as it is called in what is said of it."""
    name = "".join(inner[: next((i for i, word in enumerate(inner) if word in ("(", "=")), len(inner))])
    if name in ("serde", "bitcode"):
        return f"#[{name}({', '.join(part[0] for part in parted(inner[2:-1]))})]"
    return f"#[{''.join(inner)}]" if name == "repr" else f"#[{name}{'(..)' if '(' in inner else ''}]"


class Attributes:
    """Judges the attributes before an item, a variant or a field."""

    def __init__(self, told):
        # Whether the item has a derive of another crate, whose attributes its fields may have.
        self.told, self.has_others = told, False

    def derived(self, words, line):
        """The names of a derive that are written again; what is not is noted."""
        names, taken = [], {"bitcode": [], "serde": [], "others": []}
        for path in map("".join, parted(words)):
            *before, name = path.split("::")
            if name in SAID and before in ([], ["bitcode"], ["serde"]):
                taken[SAID[name]].append(path)
            elif name in DERIVED and before[:1] in ([], ["std"], ["core"]):
                names.append(name)
            else:
                taken["others"].append(path)
                self.has_others = True
        whys = {"bitcode": "the impls below are in its place",
                "serde": "the toolchain has no derive of serde (docs/DIFFERENCES.md)",
                "others": "the toolchain has only derives of std. Write the impl by hand if you need it"}
        for crate, paths in taken.items():
            if paths:
                self.told.note(line, f"`derive({', '.join(paths)})` is taken off: {whys[crate]}")
        return names

    def all(self, found, of, known):
        """The names that are derived, and the other attributes as they are written again, of those that were found."""
        derives, attributes = [], []
        for inner, line in found:
            if inner[:2] == ["derive", "("] and of == "type":
                derives += self.derived(inner[2:-1], line)
            elif inner[:2] == ["derive", "("]:
                self.told.fault(line, f"{of}s cannot derive traits: remove the `derive`")
        for inner, line in found:
            if inner[:2] != ["derive", "("]:
                attributes += self.one(inner, line, of, known)
        return derives, attributes

    def one(self, inner, line, of, known):
        """An attribute, as it is written again, or nothing where it is taken off or refused."""
        name, text = inner[0] if inner else "", shown(inner)
        if name in ("serde", "bitcode") and of == "field" and ["skip"] in parted(inner[2:-1]):
            return self.skipped(inner, line)
        if name in ("serde", "bitcode"):
            self.of_serde(inner, line)
        elif inner == ["second_format"] and of == "type":
            return ["#[second_format]"]
        elif name == "check" and of == "type" and inner[1:2] == ["("]:
            return [f"#[check({' '.join(inner[2:-1])})]"]
        elif name == "cfg":
            self.told.fault(line, f"`{text}` could remove what the generated impls refer to: remove the attribute")
        elif name == "cfg_attr":
            self.conditional(inner, line, of, known)
        elif name == "repr" and of == "type" and not {"C", "transparent", "u8"} & set(inner):
            self.told.note(line, f"`{text}` is taken off: no byte depends on it")
        elif name in OF_TOOLS or name == "doc" and not (inner[1:2] == ["="] or set(inner[2:-1]) <= DOCS):
            self.told.note(line, f"`{text}` is taken off: no byte depends on it")
        elif self.is_of_others(inner, of, known):
            self.told.note(line, f"`{text}` is taken off, as the derives of other crates are")
        elif name not in known or name == "default" and len(inner) > 1:
            self.told.fault(line, f"`{text}` is not supported{'' if of == 'type' else f' for a {of}'}: remove it")
        else:
            return ["#[" + "".join(inner) + "]"]
        return []

    def is_of_others(self, inner, of, known):
        """Whether this can be an attribute of a derive of another crate, which the item has."""
        is_bare = inner[1:2] not in (["("], ["="])
        return self.has_others and inner and inner[0] not in {*known, *ATTRIBUTES} and (of != "type" or not is_bare)

    def skipped(self, inner, line):
        """The attribute of a field that is not written, with whose `skip` only what changes nothing may stand."""
        for part in parted(inner[2:-1]):
            if part not in (["skip"], ["default"]) and part[0] not in NO_BYTE:
                instead = "remove it, since the field is 0, `false`, `None` or empty when it is decoded"
                self.told.fault(line, f"`#[{inner[0]}({part[0]})]` is not supported for a skipped field: {instead}")
        return ["#[skip]"]

    def of_serde(self, inner, line):
        """Takes off what no byte depends on, and refuses the rest with what to write instead."""
        parts = parted(inner[2:-1])
        others = [part[0] for part in parts if part[0] not in NO_BYTE and part != AS_BYTES]
        for word in others:
            instead = INSTEAD.get(word, "remove it")
            self.told.fault(line, f"`#[{inner[0]}({word})]` is not supported: {instead}")
        if not others:
            self.told.note(line, f"`{shown(inner)}` is taken off: no byte depends on it")

    def conditional(self, inner, line, of, known):
        """Takes off attributes that hold in some builds, where no byte depends on them."""
        text, more = "#[cfg_attr(..)]", ""
        for part in parted(inner[2:-1])[1:]:
            if part[0] == "derive":
                self.has_others, more = True, ". Derive what you need without a condition"
            elif part[0] in ("serde", "bitcode"):
                self.of_serde(part, line)
            elif part[0] not in {*known, *OF_TOOLS, "repr"} and not self.has_others:
                self.told.fault(line, f"`{text}` with `{part[0]}` is not supported: remove it")
                return
        self.told.note(line, f"`{text}` is taken off: no byte depends on it{more}")
