"""What scripts/second_format writes of types that do not contain themselves: a struct is the tuple of its fields, and
each variant of an enum holds such a tuple, so that they are read and written by the library's impls for these."""

import re

from second_format import (
    SIGNED,
    TAKEN,
    applied,
    bound,
    bound_names,
    data_of,
    datum_of,
    field_in,
    local_names,
    rust,
    sound_of,
    sounds,
    tree_of,
    trees_and,
)
from second_format_text import built, nested, taken_apart, tuple_written
from structs import quoted


def has_signed(types):
    """Whether a signed number is among what the types hold: it is told otherwise in a value than in a clause."""
    return any(name in SIGNED for type_ in types for name in re.findall(r"\w+", rust(type_)))


def tuple_of_types(flat):
    """The types of the struct's fields, as the library reads them."""
    return nested([rust(type_) for type_ in flat.held])


def payload(types, left, one, several, none):
    """What stands for what a variant holds."""
    return none if not types else one(types[0], left) if len(types) == 1 else several(types, left)


def specs(flat):
    """The definitions of the type."""
    w = flat.word
    lines = [f"-- the shape of `{flat.name}`", f"abbrev pub {w}_tree : ℕ → ShapeTree"]
    if flat.is_struct:
        data = [applied(datum_of(type_), f"t.{field.name}") for field, type_ in zip(flat.item.fields, flat.held)]
        lines += [
            f"{w}_tree left = tuple_tree {trees_and([tree_of(type_, 'left') for type_ in flat.held])}",
            "",
            f"abbrev pub {w}_datum : {flat.name} → Datum",
            f"{w}_datum t = tuple {data_of(data)}",
        ]
        each = [sound_of(type_, "left") for type_ in flat.held]
    else:
        tuples = lambda types, left: f"(tuple_tree {trees_and([tree_of(type_, left) for type_ in types])})"
        trees = trees_and([payload(types, "left", tree_of, tuples, "unit_tree") for _, types in flat.variants])
        lines += [
            f"{w}_tree left = choice_tree ({w}_trees left)",
            "",
            f"abbrev pub {w}_datum : {flat.name} → Datum",
        ]
        lines[0:0] = [
            f"-- what each variant of `{flat.name}` holds",
            f"abbrev pub {w}_trees : ℕ → ShapeTrees",
            f"{w}_trees left = {trees}",
            "",
        ]
        for index, (variant, types) in enumerate(flat.variants):
            names = [f"x{place}" for place in range(len(types))]
            held = [applied(datum_of(type_), name) for name, type_ in zip(names, types)]
            what = "unit" if not held else held[0] if len(held) == 1 else f"(tuple {data_of(held)})"
            lines.append(f"{w}_datum {pattern(flat, variant, names)} = choice {index} {what}")
        several = lambda types, left: sounds([sound_of(type_, left) for type_ in types])
        each = [payload(types, "left", sound_of, several, "tt") for _, types in flat.variants]
    return [
        *lines,
        "",
        f"pub {w}_sound : (left : ℕ) → IsSound ({w}_tree left)",
        f"{w}_sound left = {sounds(each)}",
        "",
    ]


def pattern(flat, variant, names):
    text = " ".join([f"{flat.word}'.{variant.name}", *names])
    return f"({text})" if names else text


# ---- code


def written(flat):
    """The body of `write`."""
    if flat.is_struct:
        return tuple_written(flat.item, "left")
    arms = ""
    for index, (variant, types) in enumerate(flat.variants):
        names = bound_names(variant)
        held = "&()" if not names else names[0] if len(names) == 1 else f"&({', '.join(names)})"
        taken = f"{flat.name}::{variant.name}{bound(variant)}"
        body = f"write_variant({held}, {index}, writer, left, place)"
        arms += f"            {taken} => {{\n                {body}\n            }}\n"
    return f"        match self {{\n{arms}        }}\n"


def read(flat):
    """The body of `read`."""
    if flat.is_struct:
        names = local_names(flat.item.fields, TAKEN)
        return (
            f"        let fields: {tuple_of_types(flat)} = "
            f"read_tuple(alloc, reader, budget, left, place, {len(names)})?;\n"
            f"        let {nested(names).replace('()', '_end')} = fields;\n"
            f"        Ok({built(flat.name, flat.item.fields, flat.item.kind, names)})\n"
        )
    arms = ""
    for index, (variant, types) in enumerate(flat.variants):
        arm = "                budget.take(1);\n"
        if types:
            held = rust(types[0]) if len(types) == 1 else f"({', '.join(map(rust, types))})"
            arm = f"                let held: {held} = read_at(alloc, reader, budget, left, found.place)?;\n"
        taken, names = ("", ["held"]) if len(types) == 1 else taken_apart(types, " " * 16)
        made = built(f"{flat.name}::{variant.name}", variant.fields, variant.kind, names)
        arm += f"{taken}                Ok({made})\n"
        arms += f"            {index if index < len(flat.variants) - 1 else '_'} => {{\n{arm}            }}\n"
    count = len(flat.variants)
    return (
        f"        let found = enter_variant(reader, budget, {count}, Reason::InvalidEnumVariant, place)?;\n"
        f"        match found.index {{\n{arms}        }}\n"
    )


def is_free(flat, lifetime):
    return f"<{tuple_of_types(flat)} as DeserializeFields<{lifetime}>>::are_free()" if flat.is_struct else "false"


# ---- proofs


def answers(flat):
    """The answers for `write` and `read`, each by the name of the impl and the method."""
    w = flat.word
    if flat.is_struct:
        return {"DeserializeAs.read": ("The fields are the struct.", struct_read(flat))}
    write, read_ = "", ENUM_FOUND.format(w=w)
    for index, (variant, types) in enumerate(flat.variants):
        call = "write_variant" if index == 0 else f"write_variant-in-{variant.name}"
        write += ENUM_WRITE.format(v=variant.name, call=call, w=w)
        where = f"in-{index}" if index < len(flat.variants) - 1 else "in_default"
        if not types:
            first = next(other for other, held in flat.variants if not held) is variant
            take = "take" if first else f"take-{where}"
            read_ += UNIT_READ.format(where=where, index=index, take=take, w=w, v=variant.name)
            continue
        held = [f"c.in_ok-held-{where}.held"]
        if len(types) > 1:
            held = [field_in(held[0], place, len(types)) for place in range(len(types))]
        kept = KEPT.format(where=where, index=index, w=w, value=pattern(flat, variant, held))
        if has_signed(types):
            kept = f"let k = {kept} in\n    search (rules, k)"
        read_ += HELD_READ.format(where=where, kept=kept, index=index, w=w)
    return {
        "SerializeAs.write": ("By the variant.", write),
        "DeserializeAs.read": ("By the variant.", read_),
    }


def struct_read(flat):
    """The tuple of the fields has the content of the struct."""
    kept = "kept_otherwise _ _ _ _ _ _ _ _ refl c.in_ok-fields.ensures.read"
    if has_signed(flat.held):
        fields = [
            f"{quoted(field.name)} = c.in_ok-fields.fields{'.1' * n}.0" for n, field in enumerate(flat.item.fields)
        ]
        value = f"(record {{ {'; '.join(fields)} }})"
        kept = f"""
    let k = kept_otherwise _ _ {flat.word}_datum _ _ _ _ {value} refl c.in_ok-fields.ensures.read in
    search (rules, k)"""
    return f"""
pub returns-clause-read : goal.returns-clause-read
returns-clause-read c = {kept}
"""


ENUM_WRITE = """
pub returns-in-{v} : goal.returns-in-{v}
returns-in-{v} c = rw c.in-{v}.is (c.{call}.ensures ({w}_trees c.args.left) refl)
"""

ENUM_FOUND = """
pub returns-in_err-found-clause-refused : goal.returns-in_err-found-clause-refused
returns-in_err-found-clause-refused c =
    let ss = {w}_trees c.args.left in
    refused_on (choice_tree ss) c.args.place c.args.reader.now c.from_residual.result c.in_err-found.field-0.0 \
c.from_residual.ensures.1
    (c.in_err-found.ensures.refused ss refl)
"""

UNIT_READ = """
pub returns-{where}-clause-read : goal.returns-{where}-clause-read
returns-{where}-clause-read c =
    unit_variant_kept ({w}_trees c.args.left) {index} c.in_ok-found.ensures.enters (omega (arith, \
c.in_ok-found.ensures.known)) refl
    c.args.budget.now c.enter_variant.ensures.taken c.{take}.ensures {w}_datum {w}'.{v} refl
"""

HELD_READ = """
pub returns-in_err-held-{where}-clause-refused : goal.returns-in_err-held-{where}-clause-refused
returns-in_err-held-{where}-clause-refused c =
    variant_refused ({w}_trees c.args.left) {index} c.in_ok-found.ensures.enters (omega (arith, \
c.in_ok-found.ensures.known))
    c.from_residual-in_err-held-{where}.result c.in_err-held-{where}.field-0.0 \
c.from_residual-in_err-held-{where}.ensures.1 c.in_err-held-{where}.ensures.refused

pub returns-in_ok-held-{where}-clause-continues : goal.returns-in_ok-held-{where}-clause-continues
returns-in_ok-held-{where}-clause-continues c = continues_on _ _ _ c.in_ok-found.ensures.continues \
c.in_ok-held-{where}.ensures.continues

pub returns-in_ok-held-{where}-clause-read : goal.returns-in_ok-held-{where}-clause-read
returns-in_ok-held-{where}-clause-read c =
    {kept}
"""

KEPT = """variant_kept ({w}_trees c.args.left) {index} c.in_ok-found.ensures.enters (omega (arith, \
c.in_ok-found.ensures.known))
    c.args.budget.now c.enter_variant.ensures.taken c.in_ok-held-{where}.ensures.read {w}_datum {value} refl"""
