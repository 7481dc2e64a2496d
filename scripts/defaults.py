"""What a field has that an earlier version of its type lacks: the value that `default` names, or the type's own."""

import re

from known_types import INTEGERS, of_text
from tokens import Refused

EMPTY = {
    "String": "string_bytes {} ≡ []",
    "Vec": "{}.items ≡ []",
    "HashMap": "{}.entries ≡ []",
    "BTreeMap": "{}.entries ≡ []",
}
ALLOWED = (
    "a number, `true`, `false`, a text of ASCII, `None`, `Some(..)` of a number or a bool, or a variant without fields"
)


class Value:
    """An expression, what is said of its value at a place, and the names that this takes from the Prelude."""

    def __init__(self, text, said, names=(), uses=()):
        self.text, self.said, self.names, self.uses = text, said, set(names), set(uses)


def number(type, words):
    """The term of a number, and the names that it takes."""
    digits = re.fullmatch(r"(0x[0-9a-fA-F_]+|[0-9_]+)(?:[ui]\w+)?", words[-1])
    is_negative = words[:-1] == ["-"]
    if not digits or len(words) > 1 + is_negative or is_negative and type.name[0] == "u":
        return None
    value = int(digits[1].replace("_", ""), 0)
    if type.name[0] == "u":
        return str(value), set()
    return (f"(negsuc {value - 1})", {"negsuc"}) if is_negative and value else (f"(pos {value})", {"pos"})


def term(type, words):
    """The term of a literal, and the names that it takes; nothing where it is none of the type."""
    if type.kind == "path" and type.name in INTEGERS:
        return number(type, words)
    if type.kind == "path" and type.name == "bool" and words in (["true"], ["false"]):
        return words[0], {words[0]}
    if type.kind == "path" and type.name == "Option" and words == ["None"]:
        return "None", {"None"}
    if type.kind == "path" and type.name == "Option" and words[:2] == ["Some", "("] and words[-1] == ")":
        inner = term(type.parts[0], words[2:-1])
        return (f"(Some {inner[0]})", inner[1] | {"Some"}) if inner else None
    return None


def text(type, words):
    """What a text is, where the words and the type are one."""
    is_text = len(words) == 1 and words[0].startswith('"') and words[0].isascii() and "\\" not in words[0]
    if is_text and type.kind == "reference":
        return Value(words[0], f"{{}}.now ≡ codes {words[0]}", {"codes"})
    if is_text and type.kind == "path" and type.name == "String":
        return Value(
            f"String::from_str(alloc, {words[0]})?", f"string_bytes {{}} ≡ codes {words[0]}", {"codes", "string_bytes"}
        )
    return None


def variant(type, words, own, crate, module_of):
    """A variant without fields of an enum in the same file."""
    item = own[type.name].item if type.kind == "path" and type.name in own else None
    named = [
        other
        for other in getattr(item, "variants", ())
        if words == [type.name, ":", ":", other.name] or words == [type.name, "::", other.name]
    ]
    if not named or named[0].fields:
        return None
    use = f"Rattle.{crate}.specs.declared.{module_of(type.name)}.{type.name}.{{{type.name}}}"
    return Value(f"{type.name}::{named[0].name}", f"{{}} ≡ {type.name}.{named[0].name}", (), {use})


def given(field, own, crate, module_of):
    """The value that `default` names."""
    type, words = field.type, field.change.default
    literal = term(type, words)
    if literal:
        return Value("".join(words), f"{{}} ≡ {literal[0]}", literal[1])
    found = text(type, words) or variant(type, words, own, crate, module_of)
    if not found:
        raise Refused(
            field.change.line, f"`default = {''.join(words)}` is not supported for `{of_text(type)}`: write {ALLOWED}"
        )
    return found


def default_of(field, own, lacking, crate, module_of):
    """The value of a field that an earlier version lacks."""
    if field.change.default:
        return given(field, own, crate, module_of)
    type = field.type
    if type.kind == "path" and type.name in EMPTY and type.name not in own:
        names = {"[]"} | ({"string_bytes"} if type.name == "String" else set())
        return Value(f"{type.name}::new(alloc)", EMPTY[type.name], names)
    if lacking(type, "Default"):
        item = own[type.name].item if type.kind == "path" and type.name in own else None
        has_literal = any(not other.fields for other in getattr(item, "variants", ()))
        instead = f"#[since({field.change.since}, default = ..)]" if has_literal else f"Option<{of_text(type)}>"
        raise Refused(field.change.line, f"`{of_text(type)}` has no `Default` here: write `{instead}`")
    return Value("Default::default()", f"⟦<{of_text(type)} as Default>⟧.is_default {{}}")
