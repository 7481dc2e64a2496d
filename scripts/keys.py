"""Keys of sets and maps: which types of one's own are some, and what scripts/new_type writes so that they are."""

import re
from string import Template

from declarations import Enum, fields_of
from facade import with_names
from known_types import MOST_FIELDS, can_be_key, of_text
from structs import MOST_FLAT, arguments, bounds, quoted

# The check compares each two variants of an enum; of so many it still takes seconds.
MOST_VARIANTS = 100
# Of one or two fields a derive compares as the tuple does, and not only with the same answer.
ALIKE = 2

KEY = """
impl$life Key for $name {
    ghost equal = { refl };

    ghost ordered = { refl };
}
"""


def key_words(item, own):
    """What the item is as a key: `Key`, `Ord`, and `Hash` where it has that; nothing where it is none."""
    derives = set(item.derives)
    if item.types or item.consts or getattr(item, "skipped", ()) or not {"PartialEq", "Eq", "PartialOrd", "Ord"} <= derives:
        return frozenset()
    words = {"Key", "Ord"} | derives & {"Hash"}
    if isinstance(item, Enum):
        is_key = not fields_of(item) and 2 <= len(item.variants) <= MOST_VARIANTS
    else:
        is_key = len(item.fields) <= MOST_FIELDS and all(can_be_key(field.type, own, words) for field in item.fields)
    return frozenset(words) if is_key else frozenset()


def imported_key_words(text, name):
    """The same of an imported type, as its file tells."""
    if not re.search(rf"\bKey for {name}\b", text):
        return frozenset()
    derives = derives_of(text, name)
    return frozenset({"Key"} | derives & {"Ord", "Hash"}) if derives is not None else frozenset({"Key", "Ord"})


def derives_of(text, name):
    """What the type derives that a file declares; nothing where it does not tell."""
    head = rf"#\[derive\(([^)]*)\)\]\s*(?:#\[[^\]]*\]\s*)*(?:pub(?:\([^)]*\))?\s+)?(?:struct|enum) {name}\b"
    found = re.search(head, text)
    return frozenset(word.strip() for word in found[1].split(",")) if found else None


def in_order(kind, compared):
    """That what a derive gives of the fields is what their tuple gives, of these terms."""

    def listed(terms):
        return "(" + " ∷ ".join([*terms, "[]"]) + ")"

    first, *rest = [f"({term})" for term in compared]
    if len(compared) <= MOST_FLAT:
        return f"{kind}s_in_order {first} {listed(rest)}"
    half = len(compared) // 2
    return f"{kind}s_in_halves {first} {listed(rest[: half - 1])} {rest[half - 1]} {listed(rest[half:])}"


def of_fields(struct, trait, member):
    """The terms that compare the fields of `s` and `t`."""
    return [f"⟦<{of_text(field.type)} as {trait}>⟧.{member} s.{quoted(field.name)} t.{quoted(field.name)}" for field in struct.fields]


def struct_key(struct, name, data):
    """What is known of a struct that is a key, by what is known of its fields, and the words that this takes."""
    if len(struct.fields) <= ALIKE:
        return data, set()
    where = "_in_halves" if len(struct.fields) > MOST_FLAT else "_in_order"
    eq, cmp = (f"(λ s t. {in_order(kind, of_fields(struct, trait, member))})" for kind, trait, member in (("and", "PartialEq", "eq"), ("then", "Ord", "cmp")))
    return f"key_as ({data}) ⟦<{name} as PartialEq>⟧.eq ⟦<{name} as Ord>⟧.cmp {eq} {cmp}", {"key_as", f"ands{where}", f"thens{where}", "[]", "◌∷◌"}


def enum_key(enum, name, data):
    """The same of an enum whose variants all lack fields."""
    return data.replace("bare_data", "bare_key") + f" ⟦<{name} as PartialEq>⟧.eq ⟦<{name} as Ord>⟧.cmp refl refl", {"bare_key"}


def keyed(text, item):
    """The file of a type that is a key, which says so."""
    name, life, is_enum = item.name + arguments(item), bounds(item, ""), isinstance(item, Enum)
    found = re.search(r"(?m)^    ghost data = \{ (.*) \};$", text)
    data, by_hand = (enum_key if is_enum else struct_key)(item, name, found[1])
    text = text[: found.start(1)] + data + text[found.end(1):]
    if is_enum:
        text = text.replace("ByHand.{bare_data}", "ByHand.{bare_key}")
    elif by_hand:
        text = with_names(text, "Rattle.bitcode.specs.ByHand", by_hand - {"◌∷◌"})
        if "◌∷◌" in by_hand:
            text = with_names(text, "Rattle.std.specs.Prelude", {"◌∷◌"})

    def more(found):
        names = {name.strip() for name in found[1].split(",") if name.strip()}
        return f"use bitcode::{{{', '.join(sorted(names | {'Key'}))}}};"

    text = re.sub(r"(?m)^use bitcode::\{([^}]*)\};", more, text, count=1)
    return text + Template(KEY).substitute(life=life, name=name)
