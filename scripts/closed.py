"""Coders of a struct's own, which forward to those of its fields: a type that holds the struct then names one encoder
and one decoder for it, and not those of all that is inside. The toolchain has a limit for these."""

from string import Template

from declarations import Struct, fields_of
from known_types import INTEGERS, MOST_FIELDS, of_text

# A struct whose fields name no more types than these has no coders of its own, since that costs less to prove: one that
# no enum and no struct with coders of its own holds, and one that such a type holds.
MOST_OPEN, MOST_HELD = 19, 7
# The types whose values own no memory, if those that they take do not.
PLAIN = {
    "Duration",
    "IpAddr",
    "Ipv4Addr",
    "Ipv6Addr",
    "Option",
    "Ordering",
    "PhantomData",
    "Range",
    "RangeInclusive",
    "Result",
    "Saturating",
    "SocketAddr",
    "SocketAddrV4",
    "SocketAddrV6",
    "Uuid",
    "Wrapping",
    "bool",
    "char",
    "f32",
    "f64",
}
# How many types the encoders of these types name.
WEIGHTS = {
    "IpAddr": 5,
    "Range": 3,
    "RangeInclusive": 3,
    "SocketAddr": 12,
    "SocketAddrV4": 4,
    "SocketAddrV6": 6,
}
# What `use` lines bring in for coders of one's own.
NEEDED = "bitcode::coder::{Buffer, ColumnFree, Decoder, EncodeMany, Encoder, HoldsColumns, HoldsData, NewDecoder, View}"

# The columns of an encoder, which are those of the encoder that it forwards to.
HOLDER = """/// The columns of `$simple`.
#[derive(Drop)]
pub struct ${simple}Encoder {
    fields: $held,
}

impl HoldsColumns for ${simple}Encoder {
    ghost columns = { λ e. ⟦<$held as HoldsColumns>⟧.columns e.fields };

    ghost room = { λ e. ⟦<$held as HoldsColumns>⟧.room e.fields };

    ghost capacity = { λ e. ⟦<$held as HoldsColumns>⟧.capacity e.fields };

    ghost surely_overflows = { λ e n. $surely };

    ghost overflows = { λ e n. ⟦<$held as HoldsColumns>⟧.overflows e.fields n };

    ghost writes_free = { ⟦<$held as HoldsColumns>⟧.writes_free };
}

impl Buffer for ${simple}Encoder {
    fn new(alloc: Global) -> Self {
        ${simple}Encoder { fields: Buffer::new(alloc) }
    }

    fn reserve(&mut self, n: usize) -> Result<(), Error> {
        $reserve
    }

    fn collect_into(&mut self, out: &mut Vec<u8>) -> Result<(), Error> {
        self.fields.collect_into(out)
    }

    fn clear(&mut self) {
        self.fields.clear();
    }
}

"""
ENCODER = """impl$shaped Encoder<$name> for ${simple}Encoder {
    fn encode(&mut self, t: &$name) -> Result<(), Error> {
        Encoder::<$name>::encode(&mut self.fields, t)
    }

    fn write_directly(&mut self, t: &$name, out: &mut Vec<u8>) -> Result<bool, Error> {
        Encoder::<$name>::write_directly(&mut self.fields, t, out)
    }

    ghost of_shape = { λ e. refl };

    ghost surely = { λ e n h. $law };
}

impl$shaped EncodeMany<$name> for ${simple}Encoder {
    fn encode_part_of_each<S, W: Part<S, $name>>(&mut self, items: &[S], which: &W, first: &$name) -> Result<(), Error> {
        EncodeMany::<$name>::encode_part_of_each(&mut self.fields, items, which, first)
    }

    ghost of_shape = { λ e. refl };

    ghost surely = { λ e n h. $law };
}

impl$shaped HasEncoder for $name {
    type Encoder = ${simple}Encoder;
}

"""
# The encoder of a part of the fields of a struct, which borrows them from the struct.
PART = """impl$shaped PartOf<$whole> for $name {
    ghost shape = { $shape };

    ghost lists = { $lists };
}

impl$shaped PartEncoder<$whole, $name> for ${simple}Encoder {
    fn encode_part(&mut self, whole: &$whole) -> Result<(), Error> {
        PartEncoder::<$whole, $numbers>::encode_part(&mut self.fields, whole)
    }

    fn write_part(&mut self, whole: &$whole, out: &mut Vec<u8>) -> Result<(), Error> {
        PartEncoder::<$whole, $numbers>::write_part(&mut self.fields, whole, out)
    }

    ghost of_shape = { λ e. refl };

    ghost surely = { λ e n h. $law };
}

impl$shaped PartsEncoder<$whole, $name> for ${simple}Encoder {
    fn encode_part_in_each<S, W: Part<S, $whole>>(&mut self, items: &[S], which: &W) -> Result<(), Error> {
        PartsEncoder::<$whole, $numbers>::encode_part_in_each(&mut self.fields, items, which)
    }

    ghost of_shape = { λ e. refl };

    ghost surely = { λ e n h. $law };
}

"""
DECODER = """type $data<$input> = $decoder;

/// The data of `$simple`.
#[derive(Drop)]
pub struct ${simple}Decoder<$input> {
    fields: $data<$input>,
}

impl<$input> HoldsData for ${simple}Decoder<$input> {
    ghost shape = { ⟦<$data<$input> as HoldsData>⟧.shape };

    ghost held = { λ d. ⟦<$data<$input> as HoldsData>⟧.held d.fields };

    ghost owned = { λ d. ⟦<$data<$input> as HoldsData>⟧.owned d.fields };

    ghost free_inside = { λ d. ⟦<$data<$input> as HoldsData>⟧.free_inside d.fields };
}

impl<$input> NewDecoder for ${simple}Decoder<$input> {
    fn new(alloc: Global) -> Self {
        ${simple}Decoder { fields: NewDecoder::new(alloc) }
    }

    fn column_free(&self) -> ColumnFree {
        self.fields.column_free()
    }
}

impl<$input> View<$input> for ${simple}Decoder<$input> {
    fn read(&mut self, input: &mut &$input [u8], k: usize, strict: bool) -> Result<bool, Error> {
        self.fields.read(input, k, strict)
    }
}

impl<$input> Decoder<$name> for ${simple}Decoder<$input> {
    ghost makes_free = { ⟦<$data<$input> as Decoder<$name>>⟧.makes_free };

    fn decode(&mut self) -> Result<$name, Error> {
        self.fields.decode()
    }
$reads_one
    ghost same_shape = { refl };
}

"""
# How a value is read without a decoder.
READS_ONE = """
    const READS_ONE: bool = true;

    #[inline(always)]
    fn read_one(alloc: Global, input: &mut &[u8]) -> Option<$name>
        ensures { IfSome result
            (λ t. ReadsValue ⟦<$name as Shaped>⟧.data.makes ⟦<$data<$input> as HoldsData>⟧.shape input.old.now t
            input.new.now) }
    {
        <$data<$input> as Decoder<$name>>::read_one(alloc, input)
    }
"""


def inside_of(type, own):
    """What is known of the types, without that one, where its fields are looked at. A recursive type is refused
    elsewhere."""
    return {name: known for name, known in own.items() if name != type.name}


def own_types_in(type, own):
    """The types of one's own that the type names, and those in the fields of a generic struct that it names."""
    found, item = [], own[type.name].item if type.kind == "path" and type.name in own else None
    if type.kind == "path" and type.name in own:
        found.append(type)
    if item and (item.types or item.consts):
        types = [field.type for field in fields_of(item) if field.type.name not in item.types]
        inner = [with_arguments(inner, item, type.parts) for inner in types]
        found += [one for inner in inner for one in own_types_in(inner, inside_of(type, own))]
    return found + [inner for part in type.parts for inner in own_types_in(part, own)]


def own_types_of(item, own):
    """The types of one's own in the fields of the item."""
    return [found for field in fields_of(item) for found in own_types_in(field.type, own)]


def is_pair(item):
    """Whether the item corresponds to the tuple of its fields: a struct, or an enum of one variant."""
    return isinstance(item, Struct) or len(item.variants) == 1


def weight(type, own):
    """How many types the type's encoder names, about: coders of a type's own count as one."""
    if type.kind == "path" and type.name in own:
        item = own[type.name].item
        is_one = not item or own[type.name].is_closed or not is_pair(item)
        return (
            1
            if is_one
            else 1
            + sum(weight(field.type, inside_of(type, own)) for field in fields_of(item))
            + sum(weight(part, own) for part in type.parts)
        )
    here = (
        0 if type.kind in ("tuple", "number", "lifetime") else WEIGHTS.get(type.name, 1) if type.kind == "path" else 1
    )
    return here + sum(weight(part, own) for part in type.parts if type.kind != "reference")


def owns_memory(type, own):
    """Whether values of the type may own memory."""
    if type.kind in ("reference", "lifetime", "number"):
        return False
    if type.kind == "path" and type.name in own:
        item = own[type.name].item
        return (
            not item
            or any(owns_memory(field.type, inside_of(type, own)) for field in fields_of(item))
            or any(owns_memory(part, own) for part in type.parts)
        )
    is_plain = type.kind != "path" or type.name in PLAIN or type.name in INTEGERS or type.name.startswith("NonZero")
    return not is_plain or any(owns_memory(part, own) for part in type.parts)


def with_closed(items, own):
    """What is known of the types, with which of them have coders of their own: structs that have many fields or name many
    types, those that hold such a struct, and larger ones and ones with memory that such a struct or an enum holds."""
    items = [item for item in items if not (item.types or item.consts)]

    def weighs_more(item, most):
        return sum(weight(field.type, own) for field in fields_of(item)) > most

    while True:
        closed = {item.name for item in items if is_pair(item) and own[item.name].is_closed}
        inside = {found.name for item in items if item.name in closed for found in own_types_of(item, own)}
        held = {found.name for item in items if not is_pair(item) for found in own_types_of(item, own)}
        more = {
            item.name
            for item in items
            if is_pair(item)
            and item.name not in closed
            and fields_of(item)
            and (
                is_wide(item)
                or weighs_more(item, MOST_OPEN)
                or item.name in inside | held
                and weighs_more(item, MOST_HELD)
                or item.name in inside
                and any(owns_memory(field.type, own) for field in fields_of(item))
                or any(own[found.name].is_closed for found in own_types_of(item, own))
            )
        }
        if not more:
            return own
        # the smallest ones first: what holds them names fewer types then
        first = min(
            more,
            key=lambda name: next(
                sum(weight(field.type, own) for field in fields_of(item)) for item in items if item.name == name
            ),
        )
        own = own | {first: own[first]._replace(is_closed=True)}


def is_wide(item):
    """Whether the item has more fields than one tuple has."""
    return len(fields_of(item)) > MOST_FIELDS


def is_closed(item, own):
    """Whether the item has coders of its own."""
    return item.name in own and own[item.name].is_closed


def with_arguments(type, item, parts):
    """The type with what the item takes in the place of its parameters."""
    lifetimes = [part for part in parts if part.kind == "lifetime"]
    given = dict(zip([*item.types, *item.consts], [part for part in parts if part.kind != "lifetime"]))
    given |= {item.lifetime: lifetimes[0]} if item.lifetime and lifetimes else {}
    if type.name in given and not type.parts:
        return given[type.name]
    name = given[type.name].name if type.kind in ("array", "reference") and type.name in given else type.name
    return type._replace(name=name, parts=[with_arguments(part, item, parts) for part in type.parts])


def still_of(item, life):
    """The lifetime parameter in the place of which encoders have that of the whole program."""
    return life.replace(item.lifetime, "'static") if item.lifetime else life


# Types of std and of the kit that are encoded as arrays, or may be, and those whose parts have lengths or variants of
# their own, so that room is not reserved for arrays inside them.
ADDRESSES = {"Ipv4Addr", "Ipv6Addr", "IpAddr", "SocketAddrV4", "SocketAddrV6", "SocketAddr"}
AS_ARRAYS = {"Uuid", *ADDRESSES}
IN_LISTS = {
    "Vec", "BoxedSlice", "RcSlice", "ArcSlice", "VecDeque", "LinkedList", "ArrayVec", "BinaryHeap", "BTreeSet",
    "HashSet", "BTreeMap", "HashMap", "Option", "Result",
}


def may_overflow(type, own):
    """Whether room for values of the type may be refused for the number of arrays."""
    if type.kind == "path" and type.name in own:
        item = own[type.name].item
        types = [field.type for field in fields_of(item)] if item else []
        return not item or any(may_overflow(one, inside_of(type, own)) for one in [*types, *type.parts])
    if type.kind == "array" or type.name in AS_ARRAYS:
        return True
    return type.name not in IN_LISTS and any(may_overflow(part, own) for part in type.parts)


def has_arrays(item, own):
    """Whether room for values of the item may be refused for the number of arrays."""
    return any(may_overflow(field.type, own) for field in fields_of(item))


def reserving(item, own, shape, held, call):
    """What `Buffer` says of too many arrays, its law, and how room is reserved: with that call if there may be some."""
    if has_arrays(item, own):
        surely = f"SurelyOverflows {shape} (⟦<{held} as HoldsColumns>⟧.columns e.fields) n"
        return {"surely": surely, "law": "h", "reserve": call}
    return {"surely": "⊥", "law": "absurd h", "reserve": "self.fields.reserve(n)"}


def encoder_text(item, own, name, life, shaped, encoder):
    """The encoder of the item, which holds that one."""
    still = still_of(item, life)
    taken = life if item.lifetime and item.lifetime in encoder else ""
    held = "Held" + still_of(item, taken)
    shape = f"⟦<{item.name}{still} as Shaped>⟧.data.shape"
    row = {
        "simple": item.name,
        "name": name,
        "held": held,
        "shaped": shaped,
    }
    row |= reserving(item, own, shape, held, f"reserve_as::<{item.name}{still}, _>(&mut self.fields, n)")
    alias = f"type Held{taken} = {encoder};\n\n"
    return alias + Template(HOLDER + ENCODER).substitute(row)


def lists_of(fields, nested):
    """The listings of the fields of a struct, in their nested pairs."""
    text = nested([f"\0{number}\0" for number in range(len(fields))]).replace("(", "(lists_both ").replace(", ", " ")
    for number, field in enumerate(fields):
        lists = f"(λ t d. ⟦<{of_text(field.type)} as Shaped>⟧.data.lists t.{field.name} d)"
        text = text.replace(f"\0{number}\0", lists)
    return text[1:-1]


def part_encoder_text(part, own, number, struct, life, lists, types, numbers):
    """The encoder of a part of the fields of a struct, of whose types and numbers these are the nested pairs."""
    name, whole = part.name + (life if part.lifetime else ""), struct.name + life
    pairs, held, names = (f"{alias}{number}" for alias in ("Pairs", "Held", "Numbers"))
    of = life if part.lifetime else ""
    still = still_of(part, of)
    whole_still = struct.name + still_of(struct, life)
    shape = f"⟦<{pairs}{still} as Shaped>⟧.data.shape"
    row = {
        "simple": part.name,
        "name": name,
        "whole": whole,
        "held": held + still,
        "numbers": names,
        "shape": shape,
        "shaped": life,
        "lists": lists,
    }
    call = f"reserve_part::<{whole_still}, {names}, _>(&mut self.fields, n)"
    row |= reserving(part, own, shape, held + still, call)
    aliases = f"type {pairs}{of} = {types};\n\ntype {held}{of} = <{pairs}{of} as HasEncoder>::Encoder;\n\n"
    return aliases + f"type {names} = {numbers};\n\n" + Template(HOLDER + PART).substitute(row)


# Types whose decoders read lists without a decoder, those that read one value, and those that read what is inside them.
IN_READ_LISTS = {*INTEGERS, "f32", "f64", "bool", "String"}
READ_ONE = {*IN_READ_LISTS, "char", "Ordering", "Duration", *ADDRESSES, *(f"NonZero{name.capitalize()}" for name in INTEGERS)}
READ_LISTS = {"Vec", "BoxedSlice", "RcSlice", "ArcSlice"}
READ_INSIDE = {"Option", "Result", "Box", "Rc", "Arc", "Wrapping", "Saturating", "Range", "RangeInclusive"}


def reads_one(type, own):
    """Whether the decoder of the type reads one value without a decoder. It is not told of a type whose declaration is in
    another file, or has attributes."""
    if type.kind == "path" and type.name in own:
        item = own[type.name].item
        if not item or item.attributes:
            return False
        if not is_pair(item):
            return not any(variant.fields for variant in item.variants)
        held = [with_arguments(field.type, item, type.parts) for field in fields_of(item)]
        return all(reads_one(inner, inside_of(type, own)) for inner in held)
    if type.kind == "array" or type.kind == "path" and type.name in READ_LISTS:
        inner = type.parts[0]
        return inner.kind == "path" and inner.name not in own and inner.name in IN_READ_LISTS
    if type.kind == "tuple" or type.kind == "path" and type.name in READ_INSIDE:
        return bool(type.parts) and all(reads_one(part, own) for part in type.parts)
    return type.kind == "path" and type.name in READ_ONE


def item_reads_one(item, own):
    """The same of a struct. A value that borrows a text is read by its decoder."""
    return not item.lifetime and all(reads_one(field.type, own) for field in fields_of(item))


def decoder_text(simple, name, input, decoder, one, data="Data"):
    """The decoder of the type, which holds that one. `one` tells whether that one reads one value without a decoder."""
    row = {"simple": simple, "name": name, "input": input, "data": data}
    return Template(DECODER).substitute(row, decoder=decoder, reads_one=Template(READS_ONE).substitute(row) if one else "")
