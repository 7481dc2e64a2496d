"""The file of an enum with type parameters of which some variants have fields. Its coders are type parameters, too."""

import re
from string import Template

from known_types import MOST_TYPES, of_text, types_in
from numbered import OPENING, VARIANTS, Numbered
from structs import arguments, bounds, paired
from tokens import Refused

# The variants have their coders together, and so many can: crates/bitcode_enums/src/variants.
MOST_VARIANTS = 4
PLACES = ["first", "second", "third", "fourth"]

COLUMNS = """$encoding WritesVariants<At<0>, At<$count>, $encoders> for $name {
    fn write(&self, to: &mut $encoders) -> Result<(), Error> {
        match self {$encode}
    }

    ghost are_columns = { λ c. (refl, $in_place) };
}

/// The columns of the payloads of `$simple`, by their encoders.
#[derive(Drop)]
pub struct ${simple}Columns<$es>($encoders);

impl<$hold_columns> HoldsVariantColumns for ${simple}Columns<$es> {
    ghost columns = { columns_in (λ c. c.0) ⟦<$encoders as HoldsVariantColumns>⟧.columns };
}

impl<$buffers> VariantColumns for ${simple}Columns<$es> {
    fn new(alloc: Global) -> Self {
        ${simple}Columns(VariantColumns::new(alloc))
    }

    fn collect_all(&mut self, out: &mut Vec<u8>) -> Result<(), Error> {
        self.0.collect_all(out)
    }

    fn clear_all(&mut self) {
        self.0.clear_all();
    }
}

$encoding WritesVariants<At<0>, At<$count>, ${simple}Columns<$es>> for $name {
    fn write(&self, to: &mut ${simple}Columns<$es>) -> Result<(), Error> {
        WritesVariants::<At<0>, At<$count>, $encoders>::write(self, &mut to.0)
    }

    ghost are_columns = { λ c. (refl, $inside) };
}

"""
PAYLOADS = """/// The payloads that values of `$simple` are made of, by their decoders.
#[derive(Drop)]
pub struct ${simple}Payloads<$of_payloads, $ds>(Decoders$count<At<0>, $of_payloads, $ds>);

impl<$of_payloads, $hold_data> HoldsPayloads for ${simple}Payloads<$of_payloads, $ds> {
    ghost held = { payloads_in (λ d. d.0) ⟦<Decoders$count<At<0>, $of_payloads, $ds> as HoldsPayloads>⟧.held };
}

impl<$of_payloads, $new> NewPayloads for ${simple}Payloads<$of_payloads, $ds> {
    fn new(alloc: Global) -> Self {
        ${simple}Payloads(NewPayloads::new(alloc))
    }
}

impl<$shaped, $hold_data> PayloadsOf<At<0>, At<$count>, $name> for ${simple}Payloads<($payloads), $ds> {
    ghost counted = { record { shapes = refl; lists = λ d. refl } };
}

impl<$input, $shaped, $views> PayloadsView<$input, At<0>, At<$count>, $name> for ${simple}Payloads<($payloads), $ds> {
    fn read_at(
        &mut self,
        number: usize,
        input: &mut &$input [u8],
        k: usize,
        strict: bool,
        free: &mut u128,
    ) -> Result<bool, Error> {
        PayloadsView::<At<0>, At<$count>, $name>::read_at(&mut self.0, number, input, k, strict, free)
    }
}

impl<$shaped, $decoding> PayloadsDecoder<At<0>, At<$count>, $name> for ${simple}Payloads<($payloads), $ds> {
    ghost makes_free = { $makes_free };
    ghost same_shapes = { $same_shapes };

    fn decode_at(&mut self, number: usize) -> Result<$name, Error> {
        PayloadsDecoder::<At<0>, At<$count>, $name>::decode_at(&mut self.0, number)
    }
}

type Columns$arguments = ${simple}Columns<$all_encoders>;

type Decoders<$input, $types> = ${simple}Payloads<($payloads), $all_decoders>;

impl$has_encoder HasEncoder for $name {
    type Encoder = EnumEncoder<$count, Columns$arguments>;
}

impl$has_decoder HasDecoder<$input> for $name {
    type Decoder = EnumDecoder<$input, $count, $name, Decoders<$input, $types>>;
}

impl$owned DecodeOwned for $name {}
"""


def law_of_shape(encoder):
    """That the empty columns of an encoder are those of its type, as a term: of a pair's encoder, by those of both
    parts, since a ghost member cannot cite a law of another crate's `impl`."""
    found = re.fullmatch(r"TupleEncoder<(\w+), (.+)>", encoder)
    if not found:
        return f"{encoder}.of_shape"
    second = law_of_shape(found[2])
    return f"both_of_shape {found[1]}.of_shape " + (f"({second})" if " " in second else second)


def alike(laws):
    """That two lists are the same, by the laws of their elements."""
    found = "refl"
    for law in reversed(list(laws)):
        found = f"first_and {law} " + (found if found == "refl" else f"({found})")
    return found


class Generic(Numbered):
    """The parts of the file of an enum with type parameters."""

    def __init__(self, enum, own, crate, module):
        super().__init__(enum, own, crate, module)
        self.own, self.groups = own, [range(self.count)]

    def check(self):
        """Stops at an enum whose coders cannot be type parameters."""
        line, lifetime, types = self.enum.line, self.enum.lifetime, self.enum.types
        if lifetime:
            why = "the borrow checker covers no enum with fields that has a lifetime and type parameters"
            raise Refused(line, f"{why}: write `String` for `&{lifetime} str`, or the type itself for `{types[0]}`")
        if self.count > MOST_VARIANTS:
            why = f"an enum with type parameters has at most {MOST_VARIANTS} variants if one has fields"
            raise Refused(line, f"{why}: move some of them to another enum")
        if self.types_named() > MOST_TYPES:
            why = f"the variants name more than {MOST_TYPES} types, the borrow checker's limit for a decoder"
            raise Refused(line, f"{why}: move fields to a struct without type parameters")

    def types_named(self):
        """How many types the decoder names: it ends at no struct."""
        fields = [field for variant in self.enum.variants for field in variant.fields]
        return 2 + self.count + sum(types_in(field.type, self.own) for field in fields)

    def letters(self, count, *found):
        """Names for so many parameters, with the first of these letters that no name of the enum begins with."""
        used = " ".join([self.enum.name, *self.enum.types, *self.types])
        letter = next(letter for letter in found if not re.search(rf"\b{letter}[0-9]", used))
        return [f"{letter}{number}" for number in range(1, 1 + count)]

    def encoders_of(self):
        """The encoder of each variant's payload, with a parameter for each field; and these with what they encode."""
        fields = [[of_text(field.type) for field in variant.fields] or ["()"] for variant in self.enum.variants]
        names = iter(self.letters(sum(map(len, fields)), "E", "C", "Q"))
        found = [[(next(names), type) for type in types] for types in fields]
        pairs = [paired([name for name, _ in part]) for part in found]
        return [text.replace("(", "TupleEncoder<").replace(")", ">") for text in pairs], sum(found, [])

    def columns_alike(self, encoders, place):
        """That the columns in that place are those of the variants."""
        return alike(f"({law_of_shape(encoder)} {place}.{name})" for encoder, name in zip(encoders, PLACES))

    def laws(self):
        """The laws that the file names."""
        several = any(len(variant.fields) > 1 for variant in self.enum.variants)
        return {"both_of_shape", "first_and"} if several else {"first_and"}

    def coders(self):
        """What is written of the coders that are parameters."""
        (encoders, es), ds = self.encoders_of(), self.letters(self.count, "D", "P", "R")
        shaped = ", ".join(f"{name}: Shaped" for name in self.enum.types)
        decoding = [f"{name}: Decoder<{type}>" for name, type in zip(ds, self.types)]
        return {
            "shaped": shaped,
            "es": ", ".join(name for name, _ in es),
            "ds": ", ".join(ds),
            "encoding": f"impl<{shaped}, {', '.join(f'{name}: Buffer + Encoder<{type}>' for name, type in es)}>",
            "buffers": ", ".join(f"{name}: Buffer" for name, _ in es),
            "hold_columns": ", ".join(f"{name}: HoldsColumns" for name, _ in es),
            "hold_data": ", ".join(f"{name}: HoldsData" for name in ds),
            "makes_free": " && ".join(f"{name}.makes_free" for name in ds),
            "same_shapes": alike(f"{name}.same_shape" for name in ds),
            "new": ", ".join(f"{name}: NewDecoder" for name in ds),
            "views": ", ".join(f"{name}: NewDecoder + View<{self.input}>" for name in ds),
            "encoders": f"Encoders{self.count}<At<0>, {', '.join(encoders)}>",
            "decoding": ", ".join(decoding),
            "of_payloads": self.letters(1, "V", "W", "X")[0],
            "payloads": ", ".join(self.types),
            "decoders": f"Decoders{self.count}<At<0>, ({', '.join(self.types)}), {', '.join(ds)}>",
            "in_place": self.columns_alike(encoders, "c"),
            "inside": self.columns_alike(encoders, "c.0"),
            "all_encoders": ", ".join(f"<{type} as HasEncoder>::Encoder" for _, type in es),
            "all_decoders": ", ".join(f"<{type} as HasDecoder<{self.input}>>::Decoder" for type in self.types),
        }

    def file(self, imports):
        """The file of the type."""
        self.check()
        enum, count = self.enum, self.count
        used = set("At DecodeOwned Enum EnumDecoder EnumEncoder EnumOf Error HasDecoder HasEncoder HoldsPayloads "
                   "HoldsVariantColumns NewPayloads PayloadsDecoder PayloadsOf PayloadsView Shaped VariantColumns "
                   "WritesVariants told_as".split())
        used |= {f"{kind}{count}" for kind in ("Decoders", "Encoders", "OneOf", "Variants")}
        used |= {"TupleEncoder"} if any(len(variant.fields) > 1 for variant in enum.variants) else set()
        uses = {f"use bitcode::{{{', '.join(sorted(used))}}};", *(f"use {path};" for path in imports)}
        uses.add("use bitcode::coder::{Buffer, Decoder, Encoder, HoldsColumns, HoldsData, NewDecoder, View};")
        row = self.of_group(self.groups[0]) | {"types": ", ".join(enum.types)}
        row |= {"simple": enum.name, "count": count, "input": self.input, "arguments": arguments(enum)}
        row |= {"has_encoder": bounds(enum, "HasEncoder"), "owned": bounds(enum, "DecodeOwned")}
        row |= {"has_decoder": bounds(enum, f"HasDecoder<{self.input}>", self.input)}
        opening = Template(OPENING).substitute(self.opening(uses, self.laws()))
        opening = opening.replace("Prelude.{◌≡◌};", "Prelude.{◌≡◌, ◌&&◌};")
        variants = Template(VARIANTS).substitute(self.of_group(self.groups[0]))
        return opening + variants + Template(COLUMNS + PAYLOADS).substitute(row | self.coders())
