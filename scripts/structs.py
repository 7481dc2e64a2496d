"""The file of a struct, which corresponds to the tuple of its fields: what scripts/new_type writes."""

import re
from string import Template

import closed
from declarations import fields_of
from tokens import Refused
from skipped import all_fields, defaults, said_of
from known_types import MOST_LEFT, MOST_TYPES, Checker, of_text, types_in

# The names of fields without a name.
ORDINALS = "first second third fourth fifth sixth seventh eighth ninth tenth eleventh twelfth thirteenth fourteenth fifteenth sixteenth".split()
# Of more fields than these each half has a tuple.
MOST_FLAT = 8

# Of more than so much text the tuple of the types has a name.
MOST_IN_LINE = 60
# The toolchain names a file after an impl: by its type, its trait and the types that these take. A file's name has at most 250 bytes. So
# heads with more than so many letters name the types by short aliases; the rest is for what the toolchain adds at a tuple or a reference.
MOST_IN_A_HEAD = 200

# Words of clauses, which are quoted there.
QUOTED = set("data record deriving module package open abbrev axiom unfold unfoldable unfolding ruleset mutual infix infixl infixr elim "
             "Type coe fcoe tcoe hcom com".split())
# A derive of the Rust crate says what this script writes.
NOT_DERIVED = {"Encode", "Decode", "Serialize", "Deserialize", "Drop"}

HEAD = """//! $about
$operators$by_hand
$uses
"""
BODY = """$declaration
${alias}impl$shaped Shaped for $name {
$ghost_use    ghost data = { $data };

    fn told(&self) {$told}
}

impl$shaped ConvertFrom<$parts> for $name {
    fn convert_from(_alloc: Global, $taken: $parts) -> Result<Self, Error> {
        ${moved}Ok($built)
    }

    ghost same_shape = { refl };
}

${encoded}${apart}impl$has_decoder HasDecoder<$input> for $name {
    type Decoder = $decoder;
}
$owned"""
# A field that a struct lends, and the numbers of all of them.
FIELD = """impl$parameters HasField<$number> for $name {
${ghost_use}    type Field = $type;

    ghost field = { $ghost_field };

    fn field(&self) -> &$type {
        $lent
    }
}

"""
IN_FIELDS = """impl$shaped InFields for $name {
    type Numbers = $numbers;

    type Inside = $inside;

    ghost same_columns = { refl };

    ghost of_fields = { λ d h. h };

    ghost same_listings = { $alike };
}

"""
OPEN_ENCODER = """impl$has_encoder HasEncoder for $name {
    type Encoder = $encoder;
}

"""
# The decoder struct of a type of fields.
APART = """/// The decoder of each field of `$simple` that is a `$type`: the borrow checker covers no decoder that names as many types as all fields do.
#[derive(Drop)]
pub struct $apart<$input> {
    field: $inner,
}

impl<$input> HoldsData for $apart<$input> {
    ghost shape = { ⟦<$inner as HoldsData>⟧.shape };

    ghost held = { λ d. ⟦<$inner as HoldsData>⟧.held d.field };

    ghost owned = { λ d. ⟦<$inner as HoldsData>⟧.owned d.field };

    ghost free_inside = { λ d. ⟦<$inner as HoldsData>⟧.free_inside d.field };
}

impl<$input> NewDecoder for $apart<$input> {
    fn new(alloc: Global) -> Self {
        $apart { field: NewDecoder::new(alloc) }
    }

    fn column_free(&self) -> ColumnFree {
        self.field.column_free()
    }
}

impl<$input> View<$input> for $apart<$input> {
    fn read(&mut self, input: &mut &$input [u8], k: usize, strict: bool) -> Result<bool, Error> {
        self.field.read(input, k, strict)
    }
}

impl<$input> Decoder<$type> for $apart<$input> {
    ghost makes_free = { ⟦<$inner as Decoder<$type>>⟧.makes_free };

    fn decode(&mut self) -> Result<$type, Error> {
        self.field.decode()
    }

    ghost same_shape = { refl };
}

"""
OWNED = """
impl$parameters DecodeOwned for $name {}
"""
# What is known of a type, by what is known of the tuple that it corresponds to, one to one, or but for skipped fields.
DATA = "data_as ($ghost_parts) (λ p. ($ghost_made, refl)) ($one_to_one) ⟦<$parts as Shaped>⟧.data"
SKIPPED_DATA = "skipped_data ($ghost_parts) (λ t. $said) (λ g p. ($ghost_made, (refl, $shown))) ⟦<$parts as Shaped>⟧.data"


def quoted(name):
    """The name in a clause."""
    return f"«{name}»" if name in QUOTED else name


def halved(items):
    """One item for itself, a tuple of some, or a tuple of two tuples, as text."""
    if len(items) == 1:
        return items[0]
    if len(items) <= MOST_FLAT:
        return "(" + ", ".join(items) + ")"
    half = len(items) // 2
    return f"({halved(items[:half])}, {halved(items[half:])})"


def paired(items):
    """One item for itself, or a pair of those of the first half and of those of the second, as text."""
    half = len(items) // 2
    return items[0] if len(items) == 1 else f"({paired(items[:half])}, {paired(items[half:])})"


def paths(count, whole="p"):
    """Where in the pairs the items stand."""
    half = count // 2
    return [whole] if count == 1 else paths(half, f"{whole}.0") + paths(count - half, f"{whole}.1")


def alike(count):
    """That the listings of so many fields are those of their nested pairs."""
    return "field_alike" if count == 1 else f"(pair_alike {alike(count // 2)} {alike(count - count // 2)})"


def places(count, whole="p"):
    """Where in the tuple the parts stand."""
    if count == 1:
        return [whole]
    if count <= MOST_FLAT:
        return [f"{whole}.{i}" for i in range(count)]
    return [f"{whole}.{half}.{i}" for half, size in ((0, count // 2), (1, count - count // 2)) for i in range(size)]


def heads(item):
    """What stands before a declaration, with what the type has to derive."""
    derives = [name for name in item.derives if name not in NOT_DERIVED]
    derives += [] if "Copy" in derives else ["Drop"]
    return [*item.docs, f"#[derive({', '.join(derives)})]", *item.attributes]


def declaration(struct):
    """The struct as it was declared, with what it has to derive."""
    lines = heads(struct)
    head = f"{struct.seen}struct {struct.name}{bounds(struct, '')}"
    if struct.kind == "unit":
        return "\n".join([*lines, head + ";", ""])
    if struct.kind == "tuple" and not any(field.docs or field.attributes for field in struct.fields):
        return "\n".join([*lines, head + "(" + ", ".join(field.seen + of_text(field.type) for field in struct.fields) + ");", ""])
    opening, closing = ("(", ");") if struct.kind == "tuple" else (" {", "}")
    lines.append(head + opening)
    for field in all_fields(struct):
        name = "" if struct.kind == "tuple" else f"{field.name}: "
        lines += [f"    {text}" for text in (*field.docs, *field.attributes, f"{field.seen}{name}{of_text(field.type)},")]
    return "\n".join([*lines, closing, ""])


def bounds(item, bound, lifetime=None):
    """The parameters of the item, each type with the bound; with another lifetime before them, if it has none of its own."""
    first = lifetime or item.lifetime
    listed = ([first] if first else []) + [f"{name}: {bound}" if bound else name for name in item.types]
    listed += [f"const {name}: usize" for name in item.consts]
    return f"<{', '.join(listed)}>" if listed else ""


def arguments(item):
    """What the item takes, as its type has it."""
    listed = [name for name in (item.lifetime, *item.types, *item.consts) if name]
    return f"<{', '.join(listed)}>" if listed else ""


def is_generic(item):
    """Whether the item has parameters besides a lifetime."""
    return bool(item.types or item.consts)


def parameter(name):
    """The field's name as that of a parameter: a contract calls what a function gives `result`, and what is written has a parameter `to`."""
    return f"{name}_" if name in ("result", "to") else name


def initialized(field):
    """The field in an expression that makes a struct of parameters."""
    return field.name if parameter(field.name) == field.name else f"{field.name}: {parameter(field.name)}"


def in_a_head(item, types, prefix, first=0):
    """The types as the head of an impl has them, and the aliases of those that would make a name of a file too long, numbered from the
    first on."""
    text = "".join([item.name, "HasField16", *types])
    if len(re.sub(r"\W", "", text)) + len("Tuple16") * len(re.findall(r"[(\[&]", text)) <= MOST_IN_A_HEAD:
        return types, ""
    names, aliases = {}, ""
    for number, type in enumerate(types, first):
        if type not in names and len(type) > len(prefix) + 3:
            taken = [name for name in [item.lifetime, *item.types] if name and re.search(rf"(?<![\w']){re.escape(name)}(?!\w)", type)]
            names[type] = f"{prefix}{number}" + (f"<{', '.join(taken)}>" if taken else "")
            aliases += f"type {names[type]} = {type};\n\n"
    return [names.get(type, type) for type in types], aliases


def encoder_of(types, parts):
    """The encoder of a struct with fields of these types: that of their tuple, which of three and more is one of a
    struct. `parts` is what the struct corresponds to."""
    if len(types) > 2:
        whole = parts if len(types) <= MOST_FLAT else f"({', '.join(types)})"
        return f"<{whole} as HasEncoder>::Encoder"
    return f"StructEncoder<<{paired(types) if types else '()'} as HasEncoder>::Encoder>"


def lent_text(item, lent, ghost_use=""):
    """How the fields are lent, of the terms and bodies that give each of them."""
    texts, name = [], item.name + arguments(item)
    for number, (field, (ghost_field, body)) in enumerate(zip(fields_of(item), lent)):
        texts.append(Template(FIELD).substitute(parameters=bounds(item, "Shaped"), number=number, type=of_text(field.type), name=name, ghost_use=ghost_use, ghost_field=ghost_field, lent=body))
    return "".join(texts)


def fields_text(item, own, lent, law, parts, ghost_use=""):
    """How the fields are lent, of the terms and bodies that give each of them, and by what they are encoded."""
    types, name = [of_text(field.type) for field in fields_of(item)], item.name + arguments(item)
    numbers = paired([f"Nth<{number}>" for number in range(len(types))]) if types else "()"
    life, shaped, encoder = arguments(item), bounds(item, "Shaped"), encoder_of(types, parts)
    if closed.is_closed(item, own):
        coder = closed.encoder_text(item, own, name, life, shaped, encoder)
    else:
        coder = Template(OPEN_ENCODER).substitute(has_encoder=bounds(item, "HasEncoder"), name=name, encoder=encoder)
    alike_law = "λ t. " + (law if len(types) < 2 else law[1:-1])
    in_fields = Template(IN_FIELDS).substitute(shaped=shaped, name=name, numbers=numbers, inside=parts, alike=alike_law)
    return lent_text(item, lent, ghost_use) + in_fields + coder


def types_left(item, own):
    """How many types the decoder of the item names, and which types of fields have a decoder struct of their own so that these are few."""
    fields = fields_of(item)
    saved = {}
    for field in fields:
        saved[of_text(field.type)] = saved.get(of_text(field.type), 0) + types_in(field.type, own) - 1
    left, apart = len(fields) + sum(saved.values()), []
    if is_generic(item) and left <= MOST_TYPES:
        return left, apart
    for text in sorted(saved, key=lambda text: -saved[text]):
        if left > MOST_LEFT:
            apart.append(text)
            left -= saved[text]
    return left, apart


def closed_head(item, own):
    """What the contracts of coders of the item's own are stated in."""
    if not closed.is_closed(item, own):
        return "", set()
    operators = "ghost use Rattle.std.specs.Prelude.{IfSome};\n" if closed.item_reads_one(item, own) else ""
    return operators, {"Part"} | ({"reserve_as"} if closed.has_arrays(item, own) else set())


def decoders(types, apart, input):
    """The type of the decoder of a tuple of these types, some of which have one by itself."""
    if not any(text in apart for text in types):
        return f"<{halved(types)} as HasDecoder<{input}>>::Decoder"
    if len(types) == 1:
        return f"{apart[types[0]]}<{input}>"
    half = len(types) // 2
    return f"TupleDecoder<{decoders(types[:half], apart, input)}, {decoders(types[half:], apart, input)}>"


def decoder(item, own, input, parts):
    """The decoder of the item, and the decoder structs of fields that have one."""
    inner, apart = decoder_of_parts(item, own, input, parts)
    return f"ConvertFromDecoder<{parts}, {inner}>" if apart else f"DecoderOfFields<{input}, {parts}>", apart


def decoder_of_parts(item, own, input, parts):
    """The decoder of what the item corresponds to, and the decoder structs of fields that have one."""
    fields = fields_of(item)
    _, found = types_left(item, own)
    if not found:
        return f"<{parts} as HasDecoder<{input}>>::Decoder", ""
    most, line = max((types_in(field.type, own), field.type.line) for field in fields)
    if is_generic(item) or most > MOST_TYPES:
        raise Refused(line, f"the fields name more than {MOST_TYPES} types, the borrow checker's limit for a decoder: move them to another struct without type parameters")
    apart = {text: f"{item.name}Decoder{number}" for number, text in enumerate(found)}
    texts = [Template(APART).substitute(simple=item.name, apart=name, input=input, inner=f"<{text} as HasDecoder<{input}>>::Decoder", type=text) for text, name in apart.items()]
    return decoders([of_text(field.type) for field in fields], apart, input), "".join(texts)


def tuple_text(item, imports, own, lent, **row):
    """The file of what stands for the tuple of its fields, of what is said of these."""
    is_owned = not item.lifetime
    fields, name, input = fields_of(item), item.name + arguments(item), item.lifetime or "'a"
    used = {"ConvertFrom", "Error", "HasDecoder", "HasEncoder", "InFields", "Shaped"}
    used |= {"StructEncoder"} if len(fields) < 3 else set()
    used |= {"HasField", "Nth"} if fields else set()
    used |= {"DecodeOwned"} if is_owned else set()
    parts, alias = halved([of_text(field.type) for field in fields]) if fields else "()", "Parts" + arguments(item)
    is_long = len(row["pattern"]) + len(parts) > MOST_IN_LINE
    type_of_decoder, apart = decoder(item, own, input, alias if is_long else parts)
    used |= {"ConvertFromDecoder", "TupleDecoder"} if apart else {"DecoderOfFields"}
    is_closed = closed.is_closed(item, own)
    coders = {closed.NEEDED} if is_closed else {"bitcode::coder::{ColumnFree, Decoder, HoldsData, NewDecoder, View}"} if apart else ()
    imports = {*imports, "std::alloc::Global", *coders}
    reads_one = is_closed and closed.item_reads_one(item, own)
    stated = ["ReadsValue"] if reads_one else []
    stated += ["SurelyOverflows"] if is_closed and closed.has_arrays(item, own) else []
    by_hand = [*stated, "data_as", "field_alike", *(["pair_alike"] if len(fields) > 1 else []), "refl"]
    operators, more = closed_head(item, own)
    used |= more
    if is_closed:
        apart += closed.decoder_text(item.name, name, input, type_of_decoder, closed.item_reads_one(item, own))
        type_of_decoder = f"{item.name}Decoder<{input}>"
    lines = [f"use bitcode::{{{', '.join(sorted(used))}}};", *(f"use {path};" for path in sorted(imports))]
    row |= {
        "decoder": type_of_decoder,
        "apart": apart,
        "operators": operators,
        "alias": f"type Parts{bounds(item, '')} = {parts};\n\n" if is_long else "",
        "uses": "\n".join(sorted(lines)) + "\n",
        "name": name,
        "parts": alias if is_long else parts,
        "taken": "parts" if is_long else row["pattern"],
        "moved": f"let {row['pattern']} = parts;\n        " if is_long else "",
        "data": data_text(item, row, alias if is_long else parts),
        "shaped": bounds(item, "Shaped"),
        "by_hand": f"ghost use Rattle.bitcode.specs.ByHand.{{{', '.join(by_hand)}}};\n",
        "has_decoder": bounds(item, f"HasDecoder<{input}>", input),
        "input": input,
        "encoded": fields_text(item, own, lent, alike(max(len(fields), 1)), alias if is_long else parts, row["ghost_use"]),
        "owned": Template(OWNED).substitute(parameters=bounds(item, "DecodeOwned"), name=name) if is_owned else "",
    }
    return Template(HEAD + BODY).substitute(row)


def data_text(item, row, parts):
    """What is known of the type."""
    if not defaults(item):
        return Template(DATA).substitute(row, parts=parts)
    said, shown = said_of(item)
    return Template(SKIPPED_DATA).substitute(row, parts=parts, said=said, shown=shown)


def file_text(struct, imports, own):
    """The file of the struct."""
    fields, count = struct.fields, len(struct.fields)
    names = [parameter(field.name) if struct.kind == "named" else ORDINALS[i] if count > 1 else "value" for i, field in enumerate(fields)]
    values = [(field, default) for field, default in defaults(struct)]
    made = "; ".join([*(f"{quoted(field.name)} = {place}" for field, place in zip(fields, places(count))), *(f"{quoted(field.name)} = {default.term}" for field, default in values)])
    inits = [*map(initialized, fields), *(f"{field.name}: {default.text}" for field, default in values)]
    built = {"named": f"{struct.name} {{ {', '.join(inits)} }}", "tuple": f"{struct.name}({', '.join(names)})", "unit": struct.name}
    return tuple_text(
        struct,
        imports,
        own,
        [(f"λ t. t.{field.name}", f"&self.{field.name}") for field in fields],
        about=f"`{struct.name}` corresponds to the tuple of its fields. What is below its declaration was written by `scripts/new_type`.",
        declaration=declaration(struct),
        ghost_use="",
        ghost_parts="λ t. " + (halved([f"t.{field.name}" for field in fields]) if fields else "tt"),
        ghost_made=f"record {{ {made} }}",
        told="".join(f"\n        self.{field.name}.told();" for field in fields) + ("\n    " if fields else ""),
        one_to_one="λ t. refl",
        pattern=halved(names) if fields else "_nothing",
        built=built[struct.kind] if inits or struct.kind != "named" else struct.name + " {}",
    )


def struct_text(struct, own, told):
    """The file of a struct, and the crates that it needs."""
    checker = Checker(struct, own, told)
    checker.check_all()
    return file_text(struct, checker.imports, own), checker.crates
