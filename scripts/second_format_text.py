"""The code and the definitions of a group of recursive types in the second format."""

import re

from second_format import MAPS, applied, bound, bound_names, data_of, field_in, sounds, steps_of, trees_of
from second_format_std import TYPES_OF_STD, WORDS_OF_STD
from structs import declaration as struct_declaration
from variants import declaration as enum_declaration

HEADER = "What is below the declarations was written by `scripts/second_format`."


def has_name(name, text):
    """Whether the text has the name, or an operator."""
    if name.startswith("◌"):
        return f" {name.strip('◌')} " in text
    return re.search(rf"(?<![\w.'-]){re.escape(name)}(?![\w'-]|:(?!:)| = c\.)", text) is not None


def imports(groups, text, form):
    """The imports whose names the text has, beside its comments."""
    text = re.sub(r"(?m)^ *--.*", "", text)
    lines = []
    for module, names in groups:
        found = [name for name in names.split() if has_name(name, text)]
        if found:
            lines.append(form(module, found))
    return "".join(lines)


def used(groups, text):
    return imports(groups, text, lambda module, found: f"use Rattle.{module}.{{{', '.join(found)}}}\n")


# ---- definitions

# `bitcode_serde_types/specs/Written.antt` has these of several modules
WORDS = (
    "Datum unit number text list tuple choice no_data datum_and data_of float_number width_1 width_2 width_4 width_8 "
    "width_16 natural truth column_free ShapeTree ShapeTrees unit_tree never_tree bool_tree natural_tree integer_tree "
    "float_tree char_tree text_tree seq_tree map_tree option_tree tuple_tree choice_tree no_trees tree_and IsSound "
    "IsSteady Continues IsRefusalAt option_datum map_datum set_datum ReadsAs KeepsAll result_tree result_datum"
)
OF_SPECS = [
    ("std.specs.Prelude", "ℕ zero suc map refl string_bytes"),
    ("std.specs.Float", "binary32 binary64"),
    *WORDS_OF_STD,
    ("bitcode_serde_types.specs.Written", WORDS),
]


def specs(group):
    """The file of definitions."""
    from second_format_flat import specs as flat_specs

    lines, mapped = [], set()
    for flat in group.below:
        lines += with_plain(flat_specs(flat), [flat], mapped)
    if group.types:
        lines += with_plain(cycle_specs(group), group.types, mapped)
    for flat in group.above:
        lines += with_plain(flat_specs(flat), [flat], mapped)
    text = "\n".join(lines).rstrip() + "\n"
    names = ", ".join(f"`{one.name}`" for one in group.all)
    head = f"-- The shapes of {names}, and the content of their values. Written by `scripts/second_format`.\n" + used(
        OF_SPECS, text
    )
    declared = f"Rattle.{group.crate}.specs.declared.{group.module}"
    for one in group.all:
        fold = f", fold-{one.name}" if one in group.types else ""
        head += f"use {declared}.{one.name}.{{{one.name}{fold}}}\n"
        if one not in group.types and not one.is_struct:
            head += f"use {declared}.{one.name}.TheVariants as {one.word}'\n"
    if group.types:
        opened = ", ".join(f"{shaped.name}-F" for shaped in group.ordered)
        head += f"use {declared}.{group.ordered[0].name}.TheOpen.{{{opened}}}\n"
    return head + "\n" + text


def with_plain(lines, types, mapped):
    """The definitions of these types, with the lemmas that their values keep all that was read. `mapped` has the words of
    the types with maps and heaps."""
    text = "\n".join(lines)
    if "map_tree" in text or "heap_tree" in text or any(has_name(f"{word}_tree", text) for word in mapped):
        mapped.update(one.word for one in types)
        return lines
    is_sound = lambda line: "_sound : " in line and line.endswith(f"({types[0].word}_tree left)")
    start = max(place for place, line in enumerate(lines) if is_sound(line))
    sound = lines[start:]
    several = lines[start - 1] == "mutual"
    plain = ["-- a value keeps all that was read: no map or heap is in it", *(["mutual"] if several else [])]
    for line in sound:
        plain.append(
            re.sub(r"width_\d+", "tt", without_notes(line)).replace("_sound", "_plain").replace("IsSound", "KeepsAll")
        )
    return [*lines, *plain]


def without_notes(line):
    """The line without the proofs that data with a note have a column."""
    while ", refl)" in line:
        end = line.index(", refl)")
        start, depth = end, 1
        while depth:
            start -= 1
            depth += {")": 1, "(": -1}.get(line[start], 0)
        line = line[:start] + line[start + 1 : end] + line[end + len(", refl)") :]
    return line


def cycle_specs(group):
    """The definitions of the types that contain themselves or each other."""
    lines = []
    several = len(group.types) > 1
    inside = "  " if several else ""
    lines.append("abbrev mutual" if several else "-- by how many references may be followed on one path")
    for shaped in group.types:
        pub = f"  pub {shaped.word}_tree" if several else f"abbrev pub {shaped.word}_tree"
        lines += [
            f"{pub} : ℕ → ShapeTree",
            f"{inside}{shaped.word}_tree zero = never_tree",
            f"{inside}{shaped.word}_tree (suc left) = {shaped.tree_word()} {shaped.trees('left')}",
            "",
        ]
    for shaped in group.types:
        what = "the fields" if shaped.is_struct else "what each variant holds"
        lines += [
            f"-- {what} of `{shaped.name}`",
            f"abbrev pub {shaped.word}_trees : ℕ → ShapeTrees",
            f"{shaped.word}_trees left = {shaped.trees('left')}",
            "",
        ]
    for shaped, variant, parts in group.payloads:
        name = shaped.fields_word(variant)
        lines += [f"abbrev pub {name}_trees : ℕ → ShapeTrees", f"{name}_trees left = {trees_of(parts, 'left')}", ""]
    data = " ".join("Datum" for _ in group.types)
    lines.append("-- one level, with the content of each value inside in its place")
    for shaped in group.ordered:
        lines.append(f"abbrev pub {shaped.word}_step : {shaped.name}-F {data} → Datum")
        if shaped.is_struct:
            fields = [part.in_step(f"t.{field.name}") for field, part in zip(shaped.item.fields, shaped.parts)]
            lines.append(f"{shaped.word}_step t = tuple {data_of(fields)}")
        else:
            for index, (variant, parts) in enumerate(shaped.variants):
                taken = "".join(f" x{place}" for place in range(len(parts)))
                pattern = f"({shaped.name}-F.{variant.name}{taken})" if parts else f"{shaped.name}-F.{variant.name}"
                held = [part.in_step(f"x{place}") for place, part in enumerate(parts)]
                payload = "unit" if not held else held[0] if len(held) == 1 else f"(tuple {data_of(held)})"
                lines.append(f"{shaped.word}_step {pattern} = choice {index} {payload}")
        lines.append("")
    for shaped in group.types:
        lines += [
            f"abbrev pub {shaped.word}_datum : {shaped.name} → Datum",
            f"{shaped.word}_datum = fold-{shaped.name} {group.fold(shaped)}",
            "",
        ]
    sound = sound_lines(group, inside)
    if several:
        lines.append("mutual")
    lines += sound
    return lines


def sound_lines(group, inside):
    """That the columns of each type are such as there are."""
    lines = []
    for shaped in group.types:
        if shaped.is_struct:
            each = [part.sound("left") for part in shaped.parts]
        else:
            each = [payload_sound(parts) for _, parts in shaped.variants]
        lines += [
            f"{inside}pub {shaped.word}_sound : (left : ℕ) → IsSound ({shaped.word}_tree left)",
            f"{inside}{shaped.word}_sound zero = tt",
            f"{inside}{shaped.word}_sound (suc left) = {sounds(each)}",
            "",
        ]
    return lines


def payload_sound(parts):
    if not parts:
        return "tt"
    return parts[0].sound("left") if len(parts) == 1 else sounds([part.sound("left") for part in parts])


# ---- code

OF_CODE = [
    ("std.specs.Prelude", "◌≡◌ ◌≤◌ ℕ length map string_bytes IfOk IfErr OnOk"),
    ("std.specs.Float", "binary32 binary64"),
    *WORDS_OF_STD,
    ("bitcode_serde_types.specs.Written", WORDS),
]
OF_LIBRARY = [
    (
        "bitcode_serde_types::written",
        "Budget DeserializeAs DeserializeFields Error HasShape Reader Reason SerializeAs Writer enter_list enter_map "
        f"enter_variant find_field follow {' '.join(sorted(MAPS.values()))} read_at read_field read_some read_tuple write_tuple "
        "write_variant",
    ),
    ("std::alloc", "Global"),
]


def contract(tree, datum, indent="    "):
    return f"""{indent}requires place {{ place ≤ length reader.old.places.below.items }}
{indent}requires steady {{ IsSteady reader.old }}
{indent}ensures continues {{ OnOk result (Continues reader.old reader.new) }}
{indent}ensures read {{ IfOk result (λ t. ReadsAs {datum} {tree} place reader.old budget.old t reader.new budget.new) }}
{indent}ensures refused {{ IfErr result (λ e. IsRefusalAt {tree} place reader.old e.reason) }}
"""


def reads(group, name, result, tree, datum, about, body):
    """A function that reads something of the group."""
    generics, reader = (f"<{group.lifetime}>", f"Reader<{group.lifetime}>") if group.lifetime else ("", "Reader<'_>")
    return f"""
// {about}
#[cycle({group.module})]
fn {name}{generics}(
    alloc: Global,
    reader: &mut {reader},
    budget: &mut Budget,
    left: usize,
    place: usize,
) -> Result<{result}, Error>
{contract(tree, datum)}{{
{body}}}
"""


def fields_read(parts, left):
    text = ""
    for n, held, run in steps_of(parts):
        part = held[0]
        if run:
            call = f"read_some(alloc, reader, budget, {left}, place, {n}, {len(parts)})?"
            names = nested([one.local for one in held]).replace("()", "_end")
            text += f"    let {run.name}: {nested([one.rust for one in held])} = {call};\n    let {names} = {run.name};\n"
            continue
        if part.kind == "other":
            call = f"read_field(alloc, reader, budget, {left}, place, {n}, {len(parts)})?"
            text += f"    let {part.local}: {part.rust} = {call};\n"
            continue
        text += f"    let place{n} = find_field(reader, place, {n}, {len(parts)})?;\n"
        text += held_read(part, left, f"place{n}", part.local, f"value{n}", "    ", f"found{n}")
    return text


def held_read(part, left, place, name, value, indent, found="found"):
    """Reads a value of the group, a box or a list of such, at a place."""
    if part.is_inside:
        return f"""{indent}let {found} = enter_list(reader, budget, false, {place})?;
{indent}let mut {name} = Vec::new(alloc);
{indent}for _i in 0..{found}.count {{
{indent}    let item = read_{part.of.word}(alloc, reader, budget, {left}, {found}.place)?;
{indent}    budget.keep(&mut {name}, item)?;
{indent}}}
"""
    call = f"{part.function()}(alloc, reader, budget, {left}, {place})?;\n"
    if part.kind != "box":
        return f"{indent}let {name} = {call}"
    return f"{indent}let {value} = {call}{indent}let {name} = Box::new(alloc, {value})?;\n"


def built(owner, fields, kind, names):
    """A value of a struct or a variant, of these parts."""
    if kind == "named":
        each = [
            name if name == field.name else f"{field.name}: {name}" for field, name in zip(fields, names)
        ]
        return f"{owner} {{ {', '.join(each)} }}" if each else f"{owner} {{}}"
    return f"{owner}({', '.join(names)})" if kind == "tuple" else owner


DEEP = "    let below = follow(left)?;\n"


def reading(group):
    text = ""
    for shaped in group.types:
        body = DEEP
        if shaped.is_struct:
            body += "    budget.take(1);\n" + fields_read(shaped.parts, "below")
            names = [part.local for part in shaped.parts]
            body += f"    Ok({built(shaped.name, shaped.item.fields, shaped.item.kind, names)})\n"
        else:
            count = len(shaped.variants)
            body += f"    let found = enter_variant(reader, budget, {count}, Reason::InvalidEnumVariant, place)?;\n"
            body += "    match found.index {\n"
            for index, (variant, parts) in enumerate(shaped.variants):
                taken = index if index < count - 1 else "_"
                body += f"        {taken} => {{\n{arm(group, shaped, variant, parts)}        }}\n"
            body += "    }\n"
        text += reads(
            group,
            f"read_{shaped.word}",
            shaped.of,
            f"({shaped.word}_tree left)",
            f"{shaped.word}_datum",
            f"Reads a value of `{shaped.name}`.",
            body,
        )
    for shaped, variant, parts in group.payloads:
        name = shaped.fields_word(variant)
        body = (
            "    budget.take(1);\n"
            + fields_read(parts, "left")
            + f"    Ok(({', '.join(f'field{n}' for n in range(len(parts)))}))\n"
        )
        text += reads(
            group,
            f"read_{name}",
            f"({', '.join(part.rust for part in parts)})",
            f"(tuple_tree ({name}_trees left))",
            payload_datum(parts),
            f"Reads the fields of `{variant.name}`.",
            body,
        )
    for shaped in group.options:
        body = f"""    let found = enter_variant(reader, budget, 2, Reason::InvalidOption, place)?;
    if found.index == 0 {{
        budget.take(1);
        return Ok(None);
    }}
    let value = read_{shaped.word}(alloc, reader, budget, left, found.place)?;
    let held = Box::new(alloc, value)?;
    Ok(Some(held))
"""
        text += reads(
            group,
            f"read_{shaped.inner('option')}",
            f"Option<Box<{shaped.of}>>",
            f"(option_tree ({shaped.word}_tree left))",
            option_datum(shaped),
            f"Reads a `{shaped.name}` that may be missing.",
            body,
        )
    for shaped in group.lists:
        body = f"""    let found = enter_list(reader, budget, false, place)?;
    let mut items = Vec::new(alloc);
    for _i in 0..found.count {{
        let item = read_{shaped.word}(alloc, reader, budget, left, found.place)?;
        budget.keep(&mut items, item)?;
    }}
    Ok(items)
"""
        text += reads(
            group,
            f"read_{shaped.inner('list')}",
            f"Vec<{shaped.of}>",
            f"(seq_tree ({shaped.word}_tree left))",
            list_datum(shaped),
            f"Reads a list of `{shaped.name}`.",
            body,
        )
    for part in group.maps:
        body = f"""    let found = enter_map(reader, budget, place)?;
    let mut pairs = Vec::new(alloc);
    for _i in 0..found.count {{
        budget.take(1);
        let key: {part.type.parts[0].name} = read_at(alloc, reader, budget, left, found.keys)?;
        let value = read_{part.of.word}(alloc, reader, budget, left, found.values)?;
        budget.keep(&mut pairs, (key, value))?;
    }}
    let made = {MAPS[part.type.name]}(alloc, pairs)?;
    Ok(made)
"""
        text += reads(
            group,
            part.function(),
            part.rust,
            part.tree("left"),
            part.datum(),
            f"Reads a map to `{part.of.name}`.",
            body,
        )
    return text


def option_datum(shaped):
    return f"(option_datum (λ b. {shaped.word}_datum b.value))"


def list_datum(shaped):
    return f"(λ v. list (data_of (map {shaped.word}_datum v.items)))"


def payload_datum(parts):
    """The content of what a variant holds, as a function of it."""
    if not parts:
        return "(λ d. d)"
    if len(parts) == 1:
        return parts[0].datum()
    data = [applied(part.datum(), field_in("t", place, len(parts))) for place, part in enumerate(parts)]
    return f"(λ t. tuple {data_of(data)})"


def arm(group, shaped, variant, parts):
    indent = " " * 12
    owner = f"{shaped.name}::{variant.name}"
    if not parts:
        return f"{indent}budget.take(1);\n{indent}Ok({built(owner, variant.fields, variant.kind, [])})\n"
    if len(parts) == 1:
        if parts[0].kind == "other":
            text = f"{indent}let held: {parts[0].rust} = read_at(alloc, reader, budget, below, found.place)?;\n"
        else:
            text = held_read(parts[0], "below", "found.place", "held", "value", indent)
        return text + f"{indent}Ok({built(owner, variant.fields, variant.kind, ['held'])})\n"
    if all(part.kind == "other" for part in parts):
        held = f"({', '.join(part.rust for part in parts)})"
        text = f"{indent}let held: {held} = read_at(alloc, reader, budget, below, found.place)?;\n"
    else:
        text = f"{indent}let held = read_{shaped.fields_word(variant)}(alloc, reader, budget, below, found.place)?;\n"
    taken, names = taken_apart([part.type for part in parts], indent)
    return text + taken + f"{indent}Ok({built(owner, variant.fields, variant.kind, names)})\n"


def taken_apart(types, indent):
    """What takes the fields of `held` apart, and their names. The toolchain does not prove that an array or a `char` is
    moved out of a tuple straight into a value."""
    if not any(type_.kind == "array" or type_.name == "char" for type_ in types):
        return "", [f"held.{place}" for place in range(len(types))]
    names = [f"field{place}" for place in range(len(types))]
    return f"{indent}let ({', '.join(names)}) = held;\n", names


def nested(names):
    text = "()"
    for name in reversed(names):
        text = f"({name}, {text})"
    return text


# `rt fmt` keeps arguments of a call in its line up to so many columns.
MOST_OF_ARGUMENTS = 60


def tuple_written(item, left):
    """The end of the body of `write` of a struct."""
    fields = nested([f"&self.{field.name}" for field in item.fields])
    call = lambda fields: f"{fields}, {len(item.fields)}, writer, {left}, place"
    if len(call(f"&{fields}")) <= MOST_OF_ARGUMENTS:
        return f"        write_tuple({call(f'&{fields}')})\n"
    return f"        let fields = {fields};\n        write_tuple({call('&fields')})\n"


def write_body(shaped):
    """The body of `write` of a recursive type."""
    body = f"    {DEEP}"
    if shaped.is_struct:
        return body + tuple_written(shaped.item, "below")
    body += "        match self {\n"
    for index, (variant, parts) in enumerate(shaped.variants):
        names, taken = bound_names(variant), bound(variant)
        held = "&()" if not names else names[0] if len(names) == 1 else f"&({', '.join(names)})"
        call = f"write_variant({held}, {index}, writer, below, place)"
        body += f"            {shaped.name}::{variant.name}{taken} => {{\n                {call}\n            }}\n"
    return body + "        }\n"


def impls(group, one):
    """The impls of a type."""
    from second_format_flat import is_free, read, written

    specs_ = f"Rattle.{group.crate}.specs.{group.specs}"
    word = one.word
    reads_lifetime = group.lifetime or "'a"
    if one in group.types:
        cycle = f"    #[cycle({group.module}_write)]\n" if len(group.types) > 1 else ""
        body, free = write_body(one), "false"
        read_body = f"        read_{word}(alloc, reader, budget, left, place)\n"
    else:
        cycle, body, free, read_body = "", written(one), is_free(one, reads_lifetime), read(one)
    of_own = bool(one.item.lifetime)
    free_clause = (
        f"\n        ensures {{ (left : ℕ) → result ≡ column_free ({word}_tree left) }}\n    {{" if of_own else " {"
    )
    read_clauses = "\n" + contract(f"({word}_tree left)", f"{word}_datum", "        ") + "    {" if of_own else " {"
    used_here = f"    ghost use {specs_}.{{{word}_tree, {word}_datum}};\n\n" if of_own else ""
    return f"""
impl{one.parameter} HasShape for {one.of} {{
    ghost use {specs_}.{{{word}_tree, {word}_datum, {word}_sound}};

    ghost tree = {{ {word}_tree }};

    ghost datum = {{ {word}_datum }};

    ghost sound = {{ {word}_sound }};
}}

impl{one.parameter} SerializeAs for {one.of} {{
{cycle}    fn write(&self, writer: &mut Writer, left: usize, place: usize) -> Result<(), Error> {{
{body}    }}
}}

impl<{reads_lifetime}> DeserializeAs<{reads_lifetime}> for {one.of} {{
{used_here}    fn is_free() -> bool{free_clause}
        {free}
    }}

    fn read(
        alloc: Global,
        reader: &mut Reader<{reads_lifetime}>,
        budget: &mut Budget,
        left: usize,
        place: usize,
    ) -> Result<{one.of}, Error>{read_clauses}
{read_body}    }}
}}
"""


def code(group):
    """The file of the types."""
    declared = ""
    for shaped in group.all:
        text = (struct_declaration if shaped.is_struct else enum_declaration)(shaped.item)
        cycle = f"#[cycle({group.module}_types)]\n" if shaped in group.types and len(group.types) > 1 else ""
        head = r"^(?=#\[derive|pub[ (]|struct |enum )"
        declared += "\n" + re.sub(head, cycle, text.strip(), count=1, flags=re.M) + "\n"
    text = declared + "".join(impls(group, one) for one in group.all)
    own = " ".join(f"{one.word}_tree {one.word}_trees {one.word}_datum" for one in [*group.types, *group.below])
    own += " " + " ".join(f"{shaped.fields_word(variant)}_trees" for shaped, variant, _ in group.payloads)
    functions = reading(group)
    text += functions
    names = ", ".join(f"`{one.name}`" for one in group.all)
    head = f"//! {names} in the second format. {HEADER}\n"
    ghost = lambda module, found: f"ghost use Rattle.{module}.{{{', '.join(found)}}};\n"
    head += (
        imports(OF_CODE, text, ghost) + imports([(f"{group.crate}.specs.{group.specs}", own)], functions, ghost) + "\n"
    )
    named = group.named_in_fields()
    of_std = [(module, " ".join(name for name in names.split() if name in named)) for module, names in TYPES_OF_STD]
    head += imports(
        [*OF_LIBRARY, *of_std],
        text,
        lambda module, found: f"use {module}::{{{', '.join(found)}}};\n"
        if len(found) > 1
        else f"use {module}::{found[0]};\n",
    )
    return head + text
