"""The file of a struct with more than 16 fields, which corresponds to pairs of parts: what scripts/new_type writes."""

from string import Template

from declarations import fields_of
from known_types import Checker, names_in, of_text, types_in
from tokens import Refused
from closed import NEEDED, decoder_text, encoder_text, has_arrays, item_reads_one, lists_of, part_encoder_text
from structs import BODY, DATA, HEAD, IN_FIELDS, OWNED, alike, arguments, bounds, closed_head, declaration, decoder_of_parts
from structs import halved, initialized, is_generic, lent_text, paired, parameter, paths, places, quoted

# A struct has no more fields than these, which name no more types: of more the borrow checker covers no encoder.
MOST_WIDE = MOST_ENCODED = 48
# A part has no more fields than these: they have one tuple.
MOST_IN_PART = 8


def parts_of(struct):
    """The parts of the struct: structs of five to eight fields, each with the parameters of the whole that these name."""
    count = len(struct.fields)
    number = -(-count // MOST_IN_PART)
    parts = []
    for i in range(number):
        fields = struct.fields[count * i // number:count * (i + 1) // number]
        used = {name for field in fields for name in names_in(field.type)}
        parts.append(struct._replace(
            docs=[f"/// Fields of `{struct.name}`, from `{fields[0].name}` to `{fields[-1].name}`."], derives=[], attributes=[], name=f"{struct.name}Part{i}",
            lifetime=struct.lifetime if struct.lifetime in used else None, types=[name for name in struct.types if name in used],
            fields=[field._replace(docs=[], attributes=[]) for field in fields],
        ))
    return parts


def record_of(fields, place):
    """The record of these fields in a clause, as they are found in that place."""
    return "; ".join(f"{quoted(field.name)} = {place}.{field.name}" for field in fields)


def types_encoded(type, own):
    """How many types the type's encoder names: a struct of one's own without coders of its own names those of its fields."""
    item = own[type.name].item if type.kind == "path" and type.name in own and not own[type.name].is_closed else None
    if not item:
        return types_in(type, own)
    return sum(types_encoded(field.type, own) for field in fields_of(item)) + sum(types_encoded(part, own) for part in type.parts if part.kind != "lifetime") or 1


def part_text(part, number, own, one):
    """What is written of a part, which has a decoder of its own."""
    input, name = part.lifetime or "'a", part.name + arguments(part)
    fields, types = part.fields, [of_text(field.type) for field in part.fields]
    alias = f"Fields{number}" + arguments(part)
    inner, apart = decoder_of_parts(part, own, input, alias)
    of_fields = f"ConvertFromDecoder<{alias}, {inner}>" if apart else f"DecoderOfFields<{input}, {alias}>"
    apart += decoder_text(part.name, name, input, of_fields, one, f"Data{number}")
    made = "; ".join(f"{quoted(field.name)} = {place}" for field, place in zip(fields, places(len(fields))))
    data = Template(DATA).substitute(ghost_parts=f"λ t. {halved([f't.{field.name}' for field in fields])}", ghost_made=f"record {{ {made} }}", one_to_one="λ t. refl", parts=alias)
    return Template(BODY).substitute(
        declaration=declaration(part), alias=f"type {alias} = {halved(types)};\n\n", shaped=bounds(part, "Shaped"), name=name, ghost_use="", parts=alias, data=data,
        told="".join(f"\n        self.{field.name}.told();" for field in fields) + "\n    ",
        taken=halved([parameter(field.name) for field in fields]), moved="", built=f"{part.name} {{ {', '.join(map(initialized, fields))} }}", encoded="", apart=apart, has_decoder=bounds(part, f"HasDecoder<{input}>", input), input=input,
        decoder=f"{part.name}Decoder<{input}>", owned="\n",
    )


def alike_parts(sizes):
    """That the listings of parts with so many fields are those of the nested pairs of all fields."""
    half = len(sizes) // 2
    return alike(sizes[0]) if len(sizes) == 1 else f"(pair_alike {alike_parts(sizes[:half])} {alike_parts(sizes[half:])})"


def nested_encoders(names):
    """The encoder of the parts, in pairs."""
    half = len(names) // 2
    return names[0] + "Encoder" if half == 0 else f"TupleEncoder<{nested_encoders(names[:half])}, {nested_encoders(names[half:])}>"


def encoders_text(struct, parts, own):
    """How the fields are lent, the encoders of the parts, and that of all fields."""
    life, texts, first = arguments(struct), [], 0
    for number, part in enumerate(parts):
        numbers = [f"Nth<{at}>" for at in range(first, first + len(part.fields))]
        types = [of_text(field.type) for field in part.fields]
        first += len(part.fields)
        texts.append(part_encoder_text(part, own, number, struct, life, lists_of(part.fields, paired), paired(types), paired(numbers)))
    whole, name = [part.name + arguments(part) for part in parts], struct.name + life
    alike_law = "λ t. " + alike_parts([len(part.fields) for part in parts])[1:-1]
    in_fields = Template(IN_FIELDS).substitute(shaped=life, name=name, numbers=paired(whole), inside="Parts" + life, alike=alike_law)
    lent = lent_text(struct, [(f"λ t. t.{field.name}", f"&self.{field.name}") for field in struct.fields])
    return lent + "".join(texts) + in_fields + encoder_text(struct, own, name, life, life, f"StructEncoder<{nested_encoders([part.name for part in parts])}>")


def wide_text(struct, own, told):
    """The file of the struct, and the crates that it needs."""
    if len(struct.fields) > MOST_WIDE:
        raise Refused(struct.line, f"{len(struct.fields)} fields exceed the limit of {MOST_WIDE}: move some of them to another struct")
    if struct.kind != "named":
        raise Refused(struct.line, f"{len(struct.fields)} fields exceed the limit of 16 for fields without names: name them")
    if is_generic(struct):
        parameter_of = [*struct.types, *struct.consts][0]
        why = "a struct with more than 16 fields cannot have type parameters"
        raise Refused(struct.line, f"{why}: write the type itself for `{parameter_of}`")
    checker = Checker(struct, own, told)
    checker.check_all()
    parts, input, name = parts_of(struct), struct.lifetime or "'a", struct.name + arguments(struct)
    if sum(types_encoded(field.type, own) for field in struct.fields) > MOST_ENCODED:
        raise Refused(struct.line, f"the fields name more than {MOST_ENCODED} types, the borrow checker's limit for an encoder: group consecutive fields in structs, until it has 16 fields or fewer")
    one = item_reads_one(struct, own)
    texts = [part_text(part, number, own, one and item_reads_one(part, own)) for number, part in enumerate(parts)]
    alias = "Parts" + arguments(struct)
    whole = [part.name + arguments(part) for part in parts]
    found = [(field, f"{place}.{field.name}") for part, place in zip(parts, paths(len(parts))) for field in part.fields]
    names = {field.name for field in struct.fields}
    held = [f"part{number}{'_' * any(name.startswith('part') for name in names)}" for number in range(len(parts))]
    moved = "".join(f"let {part.name} {{ {', '.join(map(initialized, part.fields))} }} = {own_name};" for part, own_name in zip(parts, held))
    used = {"ConvertFrom", "DecoderOfFields", "Error", "HasDecoder", "HasEncoder", "HasField", "InFields", "Nth", "Shaped", "StructEncoder"}
    used |= set() if struct.lifetime else {"DecodeOwned"}
    used |= {"ConvertFromDecoder"} if any("ConvertFromDecoder<" in text for text in texts) else set()
    stated = ["SurelyOverflows"] if has_arrays(struct, own) else []
    used |= {"Part", "PartEncoder", "PartOf", "PartsEncoder", "TupleEncoder"} | ({"reserve_as", "reserve_part"} if stated else set())
    used |= {"TupleDecoder"} if any("TupleDecoder<" in text for text in texts) else set()
    imports = {*checker.imports, "std::alloc::Global", NEEDED}
    uses = sorted([f"use bitcode::{{{', '.join(sorted(used))}}};", *(f"use {path};" for path in imports)])
    data = Template(DATA).substitute(
        ghost_parts=f"λ t. {paired([f'record {{ {record_of(part.fields, chr(116))} }}' for part in parts])}",
        ghost_made="record { " + "; ".join(f"{quoted(field.name)} = {place}" for field, place in found) + " }", one_to_one="λ t. refl", parts=alias,
    )
    apart = decoder_text(struct.name, name, input, f"DecoderOfFields<{input}, {alias}>", one)
    body = Template(BODY).substitute(
        declaration="", alias=f"type {alias} = {paired(whole)};\n\n", shaped=bounds(struct, "Shaped"), name=name, ghost_use="", parts=alias, data=data,
        told="".join(f"\n        self.{field.name}.told();" for field in struct.fields) + "\n    ",
        taken=paired(held), moved=moved + " ", built=f"{struct.name} {{ {', '.join(map(initialized, struct.fields))} }}",
        encoded=encoders_text(struct, parts, own), apart=apart, has_decoder=bounds(struct, f"HasDecoder<{input}>", input), input=input,
        decoder=f"{struct.name}Decoder<{input}>",
        owned="" if struct.lifetime else Template(OWNED).substitute(parameters=bounds(struct, "DecodeOwned"), name=name),
    )
    head = Template(HEAD).substitute(
        about=f"`{struct.name}` corresponds to pairs of parts of its fields. What is below its declaration was written by `scripts/new_type`.",
        operators=closed_head(struct, own)[0],
        by_hand=f"ghost use Rattle.bitcode.specs.ByHand.{{{', '.join([*(['ReadsValue'] if one else []), *stated, 'data_as', 'field_alike', 'lists_both', 'pair_alike', 'refl'])}}};\n", uses="\n".join(uses) + "\n",
    )
    return head + declaration(struct) + "\n" + "\n".join(texts) + body, checker.crates
