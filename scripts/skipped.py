"""Fields with `#[serde(skip)]` or `#[bitcode(skip)]`: they are not written, and a value that is read has their default."""

from declarations import Struct, fields_of
from facade import with_names
from known_types import INTEGERS, MOST_FIELDS

MARK = "#[skip]"
ALLOWED = (
    "a skipped field is an integer, `bool`, `char`, `String`, a `Vec` or an `Option` of these: its default has to be"
    " known. Move it to another struct, which holds this one"
)


class Default:
    """The default of a type: as Rust, as a term, what is said of it at a place and how that is shown, and the names that
    this takes from ByHand and from the Prelude."""

    def __init__(self, text, term, names=(), said=None, shown="refl", by_hand=()):
        self.text, self.term, self.names, self.by_hand = text, term, {"◌≡◌", *names}, set(by_hand)
        self.said, self.shown = said or f"{{}} ≡ {term}", shown


def default_of(type):
    """The default of the type, if it is known."""
    if type.kind != "path":
        return None
    if type.name in INTEGERS:
        return Default("0", "0") if type.name[0] == "u" else Default("0", "pos 0", ["pos"])
    if type.name == "bool":
        return Default("false", "false", ["false"])
    if type.name == "char":
        return Default("'\\0'", "0")
    if type.name == "String":
        said = "string_bytes {} ≡ []"
        return Default(
            "String::new(alloc)",
            "(empty_string g).0",
            ["[]", "string_bytes"],
            said,
            "(empty_string g).1",
            ["empty_string"],
        )
    if type.name == "Option" and default_of(type.parts[0]):
        return Default("None", "None", ["None"])
    if type.name == "Vec" and default_of(type.parts[0]):
        return Default("Vec::new(alloc)", "(empty_vec g).0", ["[]"], "{}.items ≡ []", "(empty_vec g).1", ["empty_vec"])
    return None


def set_aside(item, faulty, told):
    """The item with the fields that are written, and the others, with their places, apart. The name of one with a fault
    is added to the faulty ones."""
    faults = len(told.faults)
    if not isinstance(item, Struct):
        for field in fields_of(item):
            if MARK in field.attributes:
                told.fault(field.line, "a variant has no skipped field: move it to a struct, which the variant holds")
        faulty |= {item.name} if len(told.faults) > faults else set()
        return item
    marked = [(place, field) for place, field in enumerate(item.fields) if MARK in field.attributes]
    for _, field in marked:
        if item.kind != "named":
            told.fault(field.line, "only a named field can be skipped: name the fields")
        elif any(other.change for other in item.fields):
            told.fault(
                field.line,
                "a struct with versions has no skipped field: move it to another struct, which holds this one",
            )
        elif len(item.fields) > MOST_FIELDS:
            told.fault(
                field.line,
                (
                    f"a struct with more than {MOST_FIELDS} fields has no skipped field: move it to another struct,"
                    " which holds this one"
                ),
            )
        elif not default_of(field.type):
            told.fault(field.line, ALLOWED)
    faulty |= {item.name} if len(told.faults) > faults else set()
    written = [field for field in item.fields if MARK not in field.attributes]
    skipped = tuple(
        (place, field._replace(attributes=[text for text in field.attributes if text != MARK]))
        for place, field in marked
    )
    return item._replace(fields=written, skipped=skipped)


def all_fields(item):
    """The fields as they were declared."""
    fields = list(item.fields)
    for place, field in item.skipped:
        fields.insert(place, field)
    return fields


def defaults(item):
    """The skipped fields and their defaults."""
    return [(field, default_of(field.type)) for _, field in getattr(item, "skipped", ())]


def said_of(item):
    """What is said of the skipped fields, and how that is shown."""
    values = defaults(item)
    said = [default.said.format(f"t.{field.name}") for field, default in values]
    shown = [default.shown for _, default in values]
    return " × ".join(f"({one})" for one in said), shown[0] if len(shown) == 1 else f"({', '.join(shown)})"


def with_skipped(text, struct):
    """The file with the names that the defaults of skipped fields take."""
    if not getattr(struct, "skipped", ()):
        return text
    values = [default for _, default in defaults(struct)]
    text = text.replace("ByHand.{data_as, ", "ByHand.{")
    text = with_names(text, "Rattle.bitcode.specs.ByHand", {"skipped_data"}.union(*(value.by_hand for value in values)))
    names = set().union(*(value.names for value in values))
    text = with_names(text, "Rattle.std.specs.Prelude", names) if names else text
    return (
        text.replace("(_alloc: Global", "(alloc: Global") if any("(alloc)" in value.text for value in values) else text
    )
