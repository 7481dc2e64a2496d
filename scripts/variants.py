"""What the files of enums have of their variants, as text."""

from known_types import of_text
from structs import bounds, heads, initialized, paired, parameter, quoted

# The names of fields without a name.
LETTERS = "abcdefghijklmnop"


def declaration(enum):
    """The enum as it was declared, with what it has to derive."""
    lines = [*heads(enum), f"{enum.seen}enum {enum.name}{bounds(enum, '')} {{"]
    if not enum.variants:
        return "\n".join([*lines[:-1], lines[-1] + "}", ""])
    for variant in enum.variants:
        lines += [*variant.docs, *variant.attributes]
        fields = [(*field.docs, *field.attributes, f"{field.name}: {of_text(field.type)}," if variant.kind == "named" else of_text(field.type) + ",") for field in variant.fields]
        opening, closing = {"named": (" {", "}"), "tuple": ("(", ")"), "unit": ("", "")}[variant.kind]
        number = f" = {variant.number}" if variant.number else ""
        if any(field.docs or field.attributes for field in variant.fields):
            lines += [variant.name + opening, *(line for field in fields for line in field), closing + ","]
        else:
            inner = " ".join(line for field in fields for line in field).removesuffix(",")
            lines.append(f"{variant.name}{opening}{f' {inner} ' if variant.kind == 'named' else inner}{closing}{number},")
    return "\n".join([*lines, "}", ""])


def arms(enum, left, right):
    """The arms of a match, of what is left and right of each variant's arrow."""
    return "".join(f"\n            {left(place, variant)} => {right(place, variant)}," for place, variant in enumerate(enum.variants)) + "\n        "


def names_of(variant):
    """The names of a variant's fields in patterns."""
    return [parameter(field.name) if variant.kind == "named" else LETTERS[i] for i, field in enumerate(variant.fields)]


def value(enum, variant):
    """The value of a variant, in a pattern or an expression."""
    inner = {"named": f" {{ {', '.join(map(initialized, variant.fields))} }}", "tuple": f"({', '.join(names_of(variant))})", "unit": ""}[variant.kind]
    return f"{enum.name}::{variant.name}{inner}"


def payload(items, nothing):
    """The fields of one variant in nested pairs, or what stands for none, as text."""
    return paired(items) if items else nothing


def held_type(variant):
    """The type of what a value of the variant has: nothing, its field, or their nested pairs."""
    return payload([of_text(field.type) for field in variant.fields], "()")


def one_to_one(enum):
    """The proof that a value is the one found for what it stands for: at each variant that is so by computing."""
    return f"elim [ {' | '.join(' '.join([f'{quoted(enum.name)}.{variant.name}', *LETTERS[: len(variant.fields)]]) + ' ↦ refl' for variant in enum.variants)} ]"
