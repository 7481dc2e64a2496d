"""The proofs of a group of recursive types in the second format."""

import re

from second_format import SIGNED, applied, bound_names, data_of, field_in, steps_of, tree_of, trees_of
from second_format_flat import answers
from second_format_containers import (
    FEW_FIELDS,
    has_many_fields,
    list_answers,
    list_keep_answer,
    map_answers,
    option_answers,
)
from second_format_std import WORDS_OF_STD
from second_format_text import WORDS, payload_datum, used
from structs import quoted

OF_LEMMAS = [
    ("std.proofs.Common", "◌≡◌ Option Some None Box Global map refl ap ◌∙◌ string_bytes"),
    ("std.specs.Float", "binary32 binary64"),
    *WORDS_OF_STD,
    ("bitcode_serde_types.specs.Written", WORDS),
]
OF_ANSWERS = [
    ("std.proofs.Common", "rules arith ◌≡◌ ◌<◌ ℕ zero suc false Some None [] map refl ap sym subst ◌∙◌ string_bytes"),
    ("std.specs.Float", "binary32 binary64"),
    *WORDS_OF_STD,
    ("bitcode_serde_types.specs.Written", WORDS),
    (
        "bitcode_serde_types.proofs.StepsRead",
        "continues_on still_there columns_first columns_behind no_fields_kept place_there kept_otherwise PairsKept "
        "no_memory no_pairs pairs_more keys_there values_there key_not_kept value_not_kept pairs_kept map_kept "
        "entries_mapped refused_on too_deep too_deep_written and_field field_refused and_fields fields_refused and_found found_refused "
        "all_fields_kept ItemsKept no_items items_there and_item item_refused items_kept item_stuck and_list "
        "variant_refused variant_kept unit_variant_kept",
    ),
]


def own_imports(group, text, with_lemmas=True):
    own = " ".join(
        f"{shaped.word}_tree {shaped.word}_trees {shaped.word}_step {shaped.word}_datum" for shaped in group.types
    )
    own += " " + " ".join(f"{flat.word}_tree {flat.word}_trees {flat.word}_datum" for flat in group.below)
    own += " " + " ".join(f"{shaped.fields_word(variant)}_trees" for shaped, variant, _ in group.payloads)
    found = used([(f"{group.crate}.specs.{group.specs}", own)], text)
    place = f"{group.crate}.specs.declared.{group.module}"
    for shaped in group.types:
        found += used(
            [
                (
                    f"{place}.{group.ordered[0].name}.TheFolds",
                    f"fold-roll-{shaped.name} fold_out-{shaped.name} map-{shaped.name}",
                )
            ],
            text,
        )
        if shaped.options:
            former = f"former-{shaped.name}-{shaped.options[0]}"
            found += used([(f"{place}.{group.ordered[0].name}.TheShapes", former)], text)
        found += used([(f"{place}.{shaped.name}", f"{shaped.name} out-{shaped.name}")], text)
        if f"{shaped.word}'." in text:
            found += f"use Rattle.{place}.{shaped.name}.TheVariants as {shaped.word}'\n"
    first = group.ordered[0].name
    opened = " ".join(f"{shaped.name}-F" for shaped in group.types)
    found += used([(f"{place}.{first}.TheOpen", opened)], text) if opened else ""
    if with_lemmas:
        found += used(
            [
                (
                    f"{group.crate}.proofs.{group.lemmas}",
                    " ".join(f"{shaped.word}_content" for shaped in group.types),
                )
            ],
            text,
        )
    return found


def columns_of(parts, n):
    """That one of the fields has columns."""
    each = [part.has_columns(n) for part in parts]
    first = next((place for place, one in enumerate(each) if one == "refl"), None)
    if first is None:
        first = next(place for place, one in enumerate(each) if one)
    proof = "refl" if each[first] == "refl" else f"columns_first _ _ ({each[first]})"
    for _ in range(first):
        proof = f"columns_behind _ _ ({proof})"
    return proof


def columns_lemmas(group):
    """That the type of each list has columns, as the end of a list asks."""
    text = ""
    several = len(group.types) > 1
    text += "\nmutual\n" if several else ""
    inside = "  " if several else ""
    for shaped in group.types:
        w = shaped.word
        proof = columns_of(shaped.parts, "n") if shaped.is_struct else "refl"
        text += "" if several and shaped is group.types[0] else "\n"
        text += f"""{inside}{w}_columns : (n : ℕ) → false ≡ column_free ({w}_tree n)
{inside}{w}_columns zero = refl
{inside}{w}_columns (suc n) = {proof}
"""
    return text


def lemmas(group):
    """The contents of structs with options of themselves."""
    text = "".join(content_lemma(group, shaped) for shaped in group.options)
    return (
        "-- The content of a struct with options, by these. Written by `scripts/second_format`.\n"
        + used(OF_LEMMAS, text)
        + own_imports(group, text, False)
        + text
    )


def content_lemma(group, shaped):
    """One level of the content of a struct with options of itself, by the content of each value inside."""
    w, name, first = shaped.word, shaped.name, shaped.options[0]
    mapped = f"former-{name}-{first}.map {name} Datum {w}_datum"
    own = lambda field: f"(option_datum (λ b. {w}_datum b.value) t.{field})"
    open_ = lambda field: f"(option_datum (λ b. b.value) ({mapped} t.{field}))"

    def held(turn):
        """The content where the options before this one are told, and this one is a variable."""
        for field, part in zip(shaped.item.fields, shaped.parts):
            place = shaped.options.index(field.name) if part.kind == "option" else None
            if place is None:
                yield applied(part.datum(), f"t.{field.name}")
            else:
                yield "z" if place == turn else (own if place < turn else open_)(field.name)

    count = len(shaped.options)
    turns = [
        f"ap (λ z. tuple {data_of([*held(turn)])}) ({w}_option t.{option})" for turn, option in enumerate(shaped.options)
    ]
    return f"""
{w}_option : (o : Option (Box {name} Global)) → option_datum (λ b. b.value) ({mapped} o) ≡ \
option_datum (λ b. {w}_datum b.value) o
{w}_option None = refl
{w}_option (Some b) = refl

pub {w}_content : (t : {name}-F {name}) → {w}_step (map-{name} {name} Datum {w}_datum t) ≡ tuple {data_of([*held(count)])}
{w}_content t =
    {f"{BREAK}∙ ".join(turns)}
"""


def with_head(group, about, goals, text):
    return (
        f"-- {about} Written by `scripts/second_format`.\n"
        + used(OF_ANSWERS, text)
        + own_imports(group, text)
        + f"use Rattle.{group.crate}.proofs.{goals}.Goals as goal\n"
        + text
    )


# ---- writing


def variant_equation(group, shaped, variant, taken):
    """The content of a variant's value."""
    w = shaped.word
    args = "".join(f" {one}" for one in taken)
    if not taken:
        return (
            f"ap {w}_datum (sym {w}'.rolls-{variant.name}) ∙ "
            f"fold-roll-{shaped.name} {group.fold(shaped)} {shaped.name}-F.{variant.name}"
        )
    index = [other for other, _ in shaped.variants].index(variant)
    parts = shaped.variants[index][1]
    several = len(parts) > 1
    return (
        f"ap {w}_datum (sym ({w}'.rolls-{variant.name}{args})) ∙ "
        f"fold-roll-{shaped.name} {group.fold(shaped)} ({shaped.name}-F.{variant.name}{args})"
        + maps_told(
            parts, taken, lambda terms: f"choice {index} " + (f"(tuple {data_of(terms)})" if several else terms[0])
        )
    )


def maps_told(parts, values, whole):
    """The content of the maps among the parts, one after another, where that of their values was in the place of these.
    `whole` is the content of the whole, by the terms of the parts."""
    text = ""
    for place, part in enumerate(parts):
        if part.kind != "map":
            continue
        terms = [
            "z"
            if n == place
            else other.mapped(value)
            if other.kind == "map" and n > place
            else applied(other.datum(), value)
            for n, (other, value) in enumerate(zip(parts, values))
        ]
        entries = f"entries_mapped {part.key()} {part.of.word}_datum {values[place]}.entries"
        text += f"\n    ∙ ap (λ z. {whole(terms)}) ({entries})"
    return text


def tuple_of(terms):
    return f"tuple {data_of(terms)}"


def of_struct(group, shaped):
    """The content of the struct that is written."""
    if not shaped.options:
        values = [f"(out-{shaped.name} c.args.self.now).{field.name}" for field in shaped.item.fields]
        return f"fold_out-{shaped.name} {group.fold(shaped)} c.args.self.now" + maps_told(
            shaped.parts, values, tuple_of
        )
    fold = f"fold_out-{shaped.name} {group.fold(shaped)} c.args.self.now"
    return f"{fold} ∙ {shaped.word}_content (out-{shaped.name} c.args.self.now)"


FOLLOWED = "c.in_ok-below.ensures.followed"


def left_through(name, end=" "):
    """What a `?` returned, as lemmas take it."""
    found = "c.from_residual" if name == "below" else f"c.from_residual-in_err-{name}"
    return f"{found}.result{end}c.in_err-{name}.field-0.0 {found}.ensures.1"


# where the line ends behind the first of these
BREAK = "\n    "


def writing(group, shaped, prefix=""):
    w = shaped.word
    text = f"""
pub {prefix}returns-in_err-below : goal.{prefix}returns-in_err-below
{prefix}returns-in_err-below t c =
    too_deep_written {w}_tree refl _ c.args.place {left_through('below')} c.in_err-below.ensures.refused \
c.args.writer.now _
"""
    if shaped.is_struct:
        return (
            text
            + f"""
pub {prefix}returns : goal.{prefix}returns
{prefix}returns t c = rw ({FOLLOWED}, {of_struct(group, shaped)}) c.write_tuple.ensures
"""
        )
    for index, (variant, parts) in enumerate(shaped.variants):
        names = bound_names(variant)
        v = variant.name
        call = "write_variant" if index == 0 else f"write_variant-in-{v}"
        equation = variant_equation(group, shaped, variant, [f"c.in-{v}.{name}" for name in names])
        text += f"""
pub {prefix}returns-in-{v} : goal.{prefix}returns-in-{v}
{prefix}returns-in-{v} t c =
    rw ({FOLLOWED}, c.in-{v}.is, {equation})
    (c.{call}.ensures ({w}_trees c.in_ok-below.below) refl)
"""
    return text


# ---- reading


def value_of(part):
    """The field that was read, as a term."""
    if part.run:
        return part.run.value(part)
    return f"c.loop-i.{part.local}" if part.is_inside else f"c.in_ok-{part.local}.{part.local}"


def no_fields(trees):
    return f"no_fields_kept ({trees}) c.args.place c.args.reader.now c.take.new.self c.requires.steady"


def lets(trees, parts, k):
    """What was read of the fields, one step after another."""
    text = f"    let k0 = {no_fields(trees)} in\n"
    for j, (n, held, run) in enumerate(steps_of(parts)[:k]):
        part = held[0]
        value = run.name if run else f"value{n}" if part.kind == "box" else part.local
        if part.is_inside:
            text += f"""    let k{j + 1} = and_list k{j} c.in_ok-place{n}.ensures.found c.loop-i.invariant \
c.in_ok-found{n}.ensures.enters c.in_ok-found{n}.ensures.continues (omega arith)
    ({part.of.word}_columns {left_of(trees)}) c.enter_list.ensures.taken {part.datum()} c.loop-i.{part.local} refl in
"""
            continue
        step = f"c.in_ok-{value}.ensures.continues c.in_ok-{value}.ensures.read"
        if run:
            step = f"and_fields ({trees}) c.in_ok-{value}.ensures.read k{j} c.in_ok-{value}.ensures.continues"
        elif part.kind == "other":
            step = f"and_field k{j} {step}"
        else:
            step = f"and_found k{j} c.in_ok-place{n}.ensures.found {step}"
        text += f"    let k{j + 1} = {step} in\n"
    return text


def left_of(trees):
    """How many references may be followed below, from the term of the trees."""
    return trees.split(" ", 1)[1]


def list_inside_answers(fn, trees, parts, j, n, tree, turn):
    """The answers for a list that is read among fields, one element after another: field `n`, in step `j`."""
    part, left = parts[n], left_of(trees)
    w, step = part.of.word, f"found_refused k{j} c.in_ok-place{n}.ensures.found"
    refused = f"c.in_err-found{n}.ensures.refused ({w}_tree {left}) ({w}_columns {left})"
    not_found = turn(f"{step} {left_through(f'found{n}', BREAK)} ({refused})")
    stuck = turn(
        f"item_stuck k{j} c.in_ok-place{n}.ensures.found c.loop-i.invariant c.in_ok-found{n}.ensures.enters"
        f" (omega arith){BREAK}{left_through('item')} c.in_err-item.ensures.refused"
    )
    text = f"""
pub {fn}-returns-in_err-found{n}-clause-refused : goal.{fn}-returns-in_err-found{n}-clause-refused
{fn}-returns-in_err-found{n}-clause-refused t c =
{lets(trees, parts, j)}{not_found}
pub {fn}-read_{w}-requires : goal.{fn}-read_{w}-requires
{fn}-read_{w}-requires t c =
    search (rules, items_there c.loop-i.invariant c.in_ok-found{n}.ensures.inside, c.loop-i.invariant.continues.steady)

pub {fn}-returns-in_err-item-clause-refused : goal.{fn}-returns-in_err-item-clause-refused
{fn}-returns-in_err-item-clause-refused t c =
{lets(trees, parts, j)}{stuck}
pub {fn}-loop-i-init : goal.{fn}-loop-i-init
{fn}-loop-i-init t c = no_items {w}_datum ({w}_tree {left}) _ _ _ _ c.in_ok-found{n}.ensures.continues.steady (search \
rules)

pub {fn}-loop-i-preserved : goal.{fn}-loop-i-preserved
{fn}-loop-i-preserved t c = and_item c.loop-i.invariant c.in_ok-item.ensures.continues c.in_ok-item.ensures.read _ \
c.in_ok-keep.ensures.kept
"""
    if len(parts) > FEW_FIELDS:
        text += f"""
pub {fn}-returns-in_err-keep-clause-refused : goal.{fn}-returns-in_err-keep-clause-refused
{fn}-returns-in_err-keep-clause-refused t c =
    refused_on ({tree}) c.args.place c.args.reader.now {left_through('keep')}
    (no_memory ({tree}) c.args.place c.args.reader.now _ c.in_err-keep.ensures.refused)
"""
    return text


def counted(name, count):
    return name if count == 1 else f"{name}-{count}"


def fields_answers(fn, tree, trees, parts, is_deep, datum, value, equation):
    """The answers of a function that reads fields, one step after another, below a reference or not."""
    turn = lambda inner: f"    rw {FOLLOWED} ({inner})\n" if is_deep else f"    {inner}\n"
    steps, text, called = steps_of(parts), "", []
    for j, (n, held, run) in enumerate(steps):
        part = held[0]
        is_behind = j > 0 and steps[j - 1][1][0].kind != "other"
        there = f"place_there _ _ _ _ k{j} c.requires.place"
        if part.kind == "other":
            called.append("read_some" if run else "read_field")
            if is_behind:
                goal = f"{fn}-{counted(f'{called[-1]}-requires', called.count(called[-1]))}"
                text += f"""
pub {goal} : goal.{goal}
{goal} t c =
{lets(trees, parts, j)}    let there = {there} in
    let steady = k{j}.continues.steady in
    search (rules, there, steady)
"""
        else:
            called.append("find_field")
            if is_behind:
                goal = f"{fn}-{counted('find_field-requires', called.count('find_field'))}"
                text += f"""
pub {goal} : goal.{goal}
{goal} t c =
{lets(trees, parts, j)}    record {{ place = {there}; steady = k{j}.continues.steady }}
"""
            if part.is_inside:
                text += list_inside_answers(fn, trees, parts, j, n, tree, turn)
                continue
            if len(parts) > FEW_FIELDS:
                called.append(part.function())
                goal = f"{fn}-{counted(f'{part.function()}-requires', called.count(part.function()))}"
                text += f"""
pub {goal} : goal.{goal}
{goal} t c = (search rules, (c.in_ok-place{n}.ensures.inside, c.in_ok-place{n}.ensures.continues.steady))
"""
        text += step_refused(fn, trees, parts, j, is_deep, turn)
    last = len(steps)
    kept = f"all_fields_kept k{last} c.args.budget.now c.take.ensures {datum} {value} ({equation})"
    if has_signed_field(parts):
        kept = f"let k = {kept} in search (rules, k)"
    read = f"rw {FOLLOWED} ({kept})" if is_deep else kept
    goal = f"{fn}-returns"
    return (
        text
        + f"""
pub {goal} : goal.{goal}
{goal} t c =
{lets(trees, parts, last)}    record {{ continues = k{last}.continues; read = {read}; refused = tt }}
"""
    )


def step_refused(fn, trees, parts, j, is_deep, turn):
    """The answer for the `?` of a step."""
    n, held, run = steps_of(parts)[j]
    part = held[0]
    found = run.name if run else f"value{n}" if part.kind == "box" else part.local
    k = f"k{j}" if j else f"({no_fields(trees)})"
    through = left_through(found, BREAK)
    if n == 0 and part.kind == "other" and not is_deep:
        through = through.replace(f"c.from_residual-in_err-{found}", "c.from_residual")
    refused = f"c.in_err-{found}.ensures.refused"
    if run:
        left, behind = left_of(trees), parts[n + len(held) :]
        shapes = f"{trees_of(held, left)} {trees_of(behind, left)}"
        inner = f"fields_refused ({trees}) {shapes} {k}{BREAK}{through} {refused}"
    elif part.kind == "other":
        inner = f"field_refused {k} {through} {refused}"
    else:
        inner = f"found_refused {k} c.in_ok-place{n}.ensures.found {through} {refused}"
    goal = f"{fn}-returns-in_err-{found}-clause-refused"
    return f"""
pub {goal} : goal.{goal}
{goal} t c =
{lets(trees, parts, j) if j else ''}{turn(inner)}"""


def has_signed_field(parts):
    """Whether a field itself is a signed number: it is told otherwise in a value than in a clause."""
    return any(part.kind == "other" and part.rust in SIGNED for part in parts)


def boxes(parts):
    found = [f"c.in_ok-{part.local}.ensures.ok" for part in parts if part.kind == "box"]
    return f"rw ({', '.join(found)}) refl" if found else "refl"


def deep_answer(fn, tree):
    goal = f"{fn}-returns-in_err-below-clause-refused"
    return f"""
pub {goal} : goal.{goal}
{goal} t c =
    too_deep {tree} refl _ c.args.place {left_through('below')} c.in_err-below.ensures.refused c.args.reader.now
"""


def raise_on_boxes(shaped):
    """A struct with options of itself has no boxes of itself, since it would not end."""
    assert all(part.kind != "box" for part in shaped.parts)


def struct_answers(group, shaped):
    w, fn = shaped.word, f"read_{shaped.word}"
    pairs = zip(shaped.item.fields, shaped.parts)
    fields = "; ".join(f"{quoted(field.name)} = {value_of(part)}" for field, part in pairs)
    value = f"(record {{ {fields} }})"
    values = [value_of(part) for part in shaped.parts]
    equation = f"fold-roll-{shaped.name} {group.fold(shaped)} {value}" + maps_told(shaped.parts, values, tuple_of)
    if shaped.options:
        equation = f"fold-roll-{shaped.name} {group.fold(shaped)} {value} ∙ {w}_content {value}"
        raise_on_boxes(shaped)
    if any(part.kind == "box" for part in shaped.parts):
        equation += f" ∙ {boxes(shaped.parts)}"
    return deep_answer(fn, f"{w}_tree") + fields_answers(
        fn, f"{w}_tree c.args.left", f"{w}_trees c.in_ok-below.below", shaped.parts, True, f"{w}_datum", "_", equation
    )


def enum_answers(group, shaped):
    w, fn = shaped.word, f"read_{shaped.word}"
    goal = f"{fn}-returns-in_err-found-clause-refused"
    text = (
        deep_answer(fn, f"{w}_tree")
        + f"""
pub {goal} : goal.{goal}
{goal} t c =
    let ss = {w}_trees c.in_ok-below.below in
    rw {FOLLOWED}
    (refused_on (choice_tree ss) c.args.place c.args.reader.now {left_through('found')} \
(c.in_err-found.ensures.refused ss refl))
"""
    )
    for index, (variant, parts) in enumerate(shaped.variants):
        where = f"in-{index}" if index < len(shaped.variants) - 1 else "in_default"
        text += arm_answers(group, shaped, variant, parts, index, where)
    return text


def arm_answers(group, shaped, variant, parts, index, where):
    w, fn = shaped.word, f"read_{shaped.word}"
    entered = (
        f"({w}_trees c.in_ok-below.below) {index} c.in_ok-found.ensures.enters "
        "(omega (arith, c.in_ok-found.ensures.known))"
    )
    if not parts:
        goal = f"{fn}-returns-{where}-clause-read"
        take = "take" if first_take(shaped, variant) else f"take-{where}"
        return f"""
pub {goal} : goal.{goal}
{goal} t c =
    rw {FOLLOWED}
    (unit_variant_kept {entered} refl c.args.budget.now c.enter_variant.ensures.taken
    c.{take}.ensures {w}_datum _ ({variant_equation(group, shaped, variant, [])}))
"""
    kind = parts[0].kind if len(parts) == 1 else "several"
    name = "value" if kind == "box" else "held"
    ok, bad = f"c.in_ok-{name}-{where}", f"c.in_err-{name}-{where}"
    if kind == "several":
        held = [field_in(f"{ok}.held", place, len(parts)) for place in range(len(parts))]
        equation = variant_equation(group, shaped, variant, held)
    elif kind == "box":
        equation = variant_equation(group, shaped, variant, [f"c.in_ok-held-{where}.held"])
        equation += f" ∙ rw c.in_ok-held-{where}.ensures.ok refl"
    else:
        equation = variant_equation(group, shaped, variant, [f"{ok}.held"])
    goal = f"{fn}-returns-in_err-{name}-{where}-clause-refused"
    text = f"""
pub {goal} : goal.{goal}
{goal} t c =
    rw {FOLLOWED}
    (variant_refused {entered}
    {left_through(f'{name}-{where}')} {bad}.ensures.refused)
"""
    is_plain = all(part.kind == "other" for part in parts)
    value = "_"
    if is_plain and has_signed_field(parts):
        value = f"({shaped.word}'.{variant.name} {' '.join(held if kind == 'several' else [f'{ok}.held'])})"
    kept = (
        f"variant_kept {entered}\n"
        f"    c.args.budget.now c.enter_variant.ensures.taken {ok}.ensures.read {w}_datum {value} ({equation})"
    )
    if has_signed_field(parts):
        kept = f"let k = {kept} in\n    search (rules, k)"
    goal = f"{fn}-returns-in_ok-held-{where}"
    return (
        text
        + f"""
pub {goal}-clause-continues : goal.{goal}-clause-continues
{goal}-clause-continues t c = continues_on _ _ _ c.in_ok-found.ensures.continues {ok}.ensures.continues

pub {goal}-clause-read : goal.{goal}-clause-read
{goal}-clause-read t c =
    rw {FOLLOWED}
    ({kept})
"""
    )


def first_take(shaped, variant):
    """Whether it is the first variant without fields, whose `take` has no further name."""
    return next(other for other, parts in shaped.variants if not parts) is variant


def reading(group):
    text = columns_lemmas(group) if group.listed else ""
    for shaped in group.types:
        text += struct_answers(group, shaped) if shaped.is_struct else enum_answers(group, shaped)
    for shaped, variant, parts in group.payloads:
        name = shaped.fields_word(variant)
        text += fields_answers(
            f"read_{name}",
            f"tuple_tree ({name}_trees c.args.left)",
            f"{name}_trees c.args.left",
            parts,
            False,
            payload_datum(parts),
            "_",
            boxes(parts),
        )
    for shaped in group.options:
        text += option_answers(group, shaped)
    for shaped in group.lists:
        text += list_answers(shaped)
        if any(map(has_many_fields, group.types)):
            text += list_keep_answer(shaped)
    for part in group.maps:
        text += map_answers(part)
    return named_alone(group, text)


def has_inner(group):
    """Whether more than one function reads values of the group."""
    return len(group.types) > 1 or bool(group.payloads or group.lists or group.options or group.maps)


def named_alone(group, text):
    """The text, with the names of goals as they are where one function alone reads values of the group."""
    if has_inner(group):
        return text
    return re.sub(rf"(?<![\w-])(invariant-|)read_{group.types[0].word}-(?=[a-z])", r"\1", text)


def invariant_inside(fn, parts, left):
    """The invariant of a list that is read among fields."""
    return "".join(
        f"""
abbrev pub invariant-{fn}-loop-i : goal.invariant-{fn}-loop-i
invariant-{fn}-loop-i l =
    ItemsKept {part.of.word}_datum ({part.of.word}_tree {left}) l.found{n}.place l.initial.reader l.initial.budget \
l._i l.{part.local}.items l.reader l.budget
"""
        for n, part in enumerate(parts)
        if part.is_inside
    )


def decreases(fn, measure):
    return f"\nabbrev pub decreases-{fn} : goal.decreases-{fn}\ndecreases-{fn} l = {measure}\n"


def invariants(group):
    text = ""
    measure = "3 * l.left" if has_inner(group) else "l.left"
    for shaped in group.types:
        text += decreases(f"read_{shaped.word}", measure)
    for shaped, variant, _ in group.payloads:
        name = shaped.fields_word(variant)
        text += decreases(f"read_{name}", "3 * l.left + 2")
    for shaped in group.types:
        if shaped.is_struct:
            text += invariant_inside(f"read_{shaped.word}", shaped.parts, "l.below")
    for shaped, variant, parts in group.payloads:
        text += invariant_inside(f"read_{shaped.fields_word(variant)}", parts, "l.left")
    for shaped in group.options:
        fn = f"read_{shaped.inner('option')}"
        text += decreases(fn, "3 * l.left + 1")
    for shaped in group.lists:
        fn = f"read_{shaped.inner('list')}"
        text += decreases(fn, "3 * l.left + 1")
        text += f"""
abbrev pub invariant-{fn}-loop-i : goal.invariant-{fn}-loop-i
invariant-{fn}-loop-i l =
    ItemsKept {shaped.word}_datum ({shaped.word}_tree l.left) l.found.place l.initial.reader l.initial.budget l._i \
l.items.items l.reader l.budget
"""
    for part in group.maps:
        fn = part.function()
        text += decreases(fn, "3 * l.left + 1")
        text += f"""
abbrev pub invariant-{fn}-loop-i : goal.invariant-{fn}-loop-i
invariant-{fn}-loop-i l =
    PairsKept {part.key()} {part.of.word}_datum {tree_of(part.type.parts[0], 'l.left')} ({part.of.word}_tree l.left) \
l.found.keys l.found.values
    l.initial.reader l.initial.budget l._i l.pairs.items l.reader l.budget
"""
    plus = ["◌*◌", "◌+◌"][: 1 + ("+" in text)] if has_inner(group) else []
    plus = f"use Rattle.std.proofs.Common.{{{', '.join(plus)}}}\n" if plus else ""
    return (
        "-- Written by `scripts/second_format`.\n"
        + plus
        + used(OF_ANSWERS, text)
        + own_imports(group, text)
        + f"use Rattle.{group.crate}.proofs.{group.module}.+{group.module}.Given as goal\n"
        + named_alone(group, text)
    )


def flat_answers(group, flat):
    """The proofs of the impls of a flat type."""
    found = {}
    for method, (about, text) in answers(flat).items():
        goals = f"{group.module}.{flat.name}{method}"
        place = f"{group.crate}.specs.declared.{group.module}.{flat.name}"
        own = used([(f"{group.crate}.specs.{group.specs}", f"{flat.word}_trees {flat.word}_datum")], text)
        own += f"use Rattle.{place}.TheVariants as {flat.word}'\n" if f"{flat.word}'." in text else ""
        head = f"-- {about} Written by `scripts/second_format`.\n" + used(OF_ANSWERS, text) + own
        head += f"use Rattle.{group.crate}.proofs.{goals}.Goals as goal\n"
        found[f"{goals.replace('.', '/')}/Answers.antt"] = head + text
    return found


def files(group):
    """The proofs, by the names of their files below proofs/."""
    found = {}
    for flat in group.flats.values():
        found |= flat_answers(group, flat)
    return found | cycle_files(group) if group.types else found


def cycle_files(group):
    """The proofs of the types that contain themselves or each other."""
    found = {f"{group.lemmas}.antt": lemmas(group)} if group.lemmas else {}
    module = group.module
    if len(group.types) == 1:
        shaped = group.types[0]
        goals = f"{module}.{shaped.name}SerializeAs.+write"
        found[f"{module}/{shaped.name}SerializeAs/+write/Answers.antt"] = with_head(
            group, "The fields or the variant, or one reference too many.", goals, writing(group, shaped)
        )
    else:
        goals = f"{module}.+{module}_write"
        text = "".join(writing(group, shaped, f"{shaped.name}SerializeAs::write-") for shaped in group.types)
        found[f"{module}/+{module}_write/Answers.antt"] = with_head(
            group, "The fields or the variant, or one reference too many.", goals, text
        )
    found[f"{module}/+{module}/Answers.antt"] = with_head(
        group, "One field or element after another.", f"{module}.+{module}", reading(group)
    )
    found[f"{module}/+{module}/Invariants.antt"] = invariants(group)
    return found
