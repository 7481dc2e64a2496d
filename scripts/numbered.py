"""The file of an enum of which some variants have fields: it is written and read by the numbers of its variants."""

from string import Template

from closed import inside_of, is_pair, with_arguments
from declarations import fields_of
from known_types import MOST_TYPES, is_number, of_text, types_in
from structs import arguments, bounds, in_a_head, paths, quoted
from variants import LETTERS, arms, declaration, held_type, names_of, one_to_one, payload, value

# So many variants that follow each other have their coders together, at the most: crates/bitcode_enums/src/variants.
MOST_TOGETHER = 4
ORDINALS = ["first", "second", "third", "fourth"]
# So many groups of an enum that borrows have their coders together: of groups of groups the borrow checker covers none.
MOST_BORROWED = 2
# Of more groups than these each is a part by itself: the checker takes far longer for a few large parts.
MOST_GROUPS = 4
# Of more than so much text the type of a group's encoders has a name.
MOST_IN_PLACE = 48
# Of more fields than these the compiler needs to be told the types of what a coder takes.
MOST_FOUND = 1

OPENING = """//! `$simple` is written by the numbers of its variants. What is below its declaration was written by `scripts/new_type`.
ghost use Rattle.std.specs.Prelude.{◌≡◌};
ghost use Rattle.bitcode.specs.ByHand.{$by_hand};
ghost use Rattle.$crate.specs.declared.$module.$ghost.{$ghost};

$uses
$declaration
impl$life Enum for $name {
    ghost each = { each_variant ($payloads_of) refl (λ at. elim [ $payload ]) $values ($one_to_one) };

    fn variant(&self) -> u8 {
        match self {$index}
    }
}

impl$life Shaped for $name {
    ghost data = { enum_data ⟦<$name as Enum>⟧.each };

    fn told(&self) {
        let _number = self.variant();
    }
}

impl$life EnumOf<$count> for $name {
    ghost counted = { (refl, refl) };
    ghost lists_variants = { λ t d listed. listed };
    ghost makes_variants = { λ d t made. made };
}

"""
FILE = OPENING + """$groups
${all_columns}type Decoders<$input> = $decoders;

/// The columns of the payloads of `$simple`.
#[derive(Drop)]
pub struct $columns(Columns);

impl HoldsVariantColumns for $columns {
    ghost columns = { columns_in (λ c. c.0) ⟦<Columns as HoldsVariantColumns>⟧.columns };
}

impl VariantColumns for $columns {
    fn new(alloc: Global) -> Self {
        $columns(VariantColumns::new(alloc))
    }

    fn collect_all(&mut self, out: &mut Vec<u8>) -> Result<(), Error> {
        self.0.collect_all(out)
    }

    fn clear_all(&mut self) {
        self.0.clear_all();
    }
}

impl$life WritesVariants<At<0>, At<$count>, $columns> for $name {
    fn write(&self, to: &mut $columns) -> Result<(), Error> {
        WritesVariants::<At<0>, At<$count>, Columns>::write(self, &mut to.0)
    }

    ghost are_columns = { λ c. (refl, refl) };
}

$parts$whole
impl$life HasEncoder for $name {
    type Encoder = EnumEncoder<$count, $columns>;
}

impl<$input> HasDecoder<$input> for $name {
    type Decoder = EnumDecoder<$input, $count, $name, $holder>;
}
$owned"""

OWNED = """
impl DecodeOwned for $name {}
"""

VARIANTS = """${short_names}impl$life Variants$size<At<$first>, At<$end>, $short> for $name {
    ghost values = { ($values) };
    ghost are = { ($are, refl) };

    fn of_payload(payload: OneOf$size<$types>) -> Self
        ensures { result ≡ of_one_of_$size $arms $taken }
    {
        match payload {$made}
    }
}

"""
GROUP = VARIANTS + """${alias}impl$life WritesVariants<At<$first>, At<$end>, $encoders> for $name {
    fn write(&self, to: &mut $encoders) -> Result<(), Error> {
        match self {$encode}
    }

    ghost are_columns = { λ c. (refl, refl) };
}
"""
# A part is a struct, since the borrow checker covers no decoder that names more than MOST_TYPES types. It holds a `NotCompared`, since the
# checker compares structs field by field where they are dropped.
PART = """type $alias<$input> = NotCompared<$decoders>;

/// The payloads of the variants $first to $last of `$simple`.
#[derive(Drop)]
pub struct $part<$input>($alias<$input>$mark);

"""
# What reads the payloads of some variants, or of all of them.
PAYLOADS = """impl<$input> HoldsPayloads for $part<$input> {
    ghost held = { payloads_in (λ d. d.0) ⟦<$alias<$input> as HoldsPayloads>⟧.held };
}

impl<$input> NewPayloads for $part<$input> {
    fn new(alloc: Global) -> Self {
        $part(NewPayloads::new(alloc)$marked)
    }
}

impl<$input> PayloadsOf<At<$first>, At<$end>, $name> for $part<$input> {
    ghost counted = { record { shapes = refl; lists = λ d. refl } };
}

impl<$input> PayloadsView<$input, At<$first>, At<$end>, $name> for $part<$input> {
    fn read_at(&mut self, number: usize, input: &mut &$input [u8], k: usize, strict: bool, free: &mut u128) -> Result<bool, Error> {
        PayloadsView::<At<$first>, At<$end>, $name>::read_at(&mut self.0, number, input, k, strict, free)
    }
}

impl<$input> PayloadsDecoder<At<$first>, At<$end>, $name> for $part<$input> {
    ghost makes_free = { ⟦<$alias<$input> as PayloadsDecoder<At<$first>, At<$end>, $name>>⟧.makes_free };
    ghost same_shapes = { refl };

    fn decode_at(&mut self, number: usize) -> Result<$name, Error> {
        PayloadsDecoder::<At<$first>, At<$end>, $name>::decode_at(&mut self.0, number)
    }
}

"""
# The columns of several groups are a struct, too: one that names more types is covered no more than such a decoder.
COLUMN_PART = """type $alias = NotCompared<$columns>;

/// The columns of the payloads of the variants $first to $last of `$simple`.
#[derive(Drop)]
pub struct $part($alias);

impl HoldsVariantColumns for $part {
    ghost columns = { columns_in (λ c. c.0) ⟦<$alias as HoldsVariantColumns>⟧.columns };
}

impl VariantColumns for $part {
    fn new(alloc: Global) -> Self {
        $part(VariantColumns::new(alloc))
    }

    fn collect_all(&mut self, out: &mut Vec<u8>) -> Result<(), Error> {
        self.0.collect_all(out)
    }

    fn clear_all(&mut self) {
        self.0.clear_all();
    }
}

impl$life WritesVariants<At<$first>, At<$end>, $part> for $name {
    fn write(&self, to: &mut $part) -> Result<(), Error> {
        WritesVariants::<At<$first>, At<$end>, $alias>::write(self, &mut to.0)
    }

    ghost are_columns = { λ c. (refl, refl) };
}

"""
WHOLE = """/// The payloads that values of `$simple` are made of.
#[derive(Drop)]
pub struct $part<$input>($alias<$input>$mark);

"""
MARK, MARKED = ", PhantomData<&'a ()>", ", PhantomData"
ARE = "is_variant refl (λ p. refl) (λ p old new h. h) (λ p old h. h) (λ p old new h. h)"


POINTERS = ("Box", "Rc", "Arc", "Wrapping", "Saturating", "Range", "RangeInclusive")


def is_nothing(type, own):
    """Whether values of the type have no columns, so that a decoder of them keeps no part of an input."""
    if type.kind == "path" and type.name in own:
        item, within = own[type.name].item, inside_of(type, own)
        if not item or not is_pair(item) or own[type.name].is_closed:
            return False
        return all(is_nothing(with_arguments(field.type, item, type.parts), within) for field in fields_of(item))
    is_of_parts = type.kind in ("tuple", "array") or type.name in POINTERS
    return type.name == "PhantomData" or is_of_parts and all(is_nothing(part, own) for part in type.parts)


def groups_of(weights):
    """The numbers of the variants that have their coders together, in as few groups as there can be, as even as they can be; in more where the
    variants of one name more types than a group may."""
    count = len(weights)
    for most in range(MOST_TOGETHER, 1, -1):
        groups = min(-(-count // most), count // 2)
        ends = [count * (n + 1) // groups for n in range(groups)]
        found = [range(first, end) for first, end in zip([0, *ends], ends)]
        if all(sum(weights[n] for n in group) <= MOST_TYPES for group in found):
            break
    return found


def parts_of(groups, weights, most):
    """The groups that a part holds together, no more than `most` of them."""
    parts, room = [], 0
    for group in groups:
        weight = sum(weights[n] for n in group)
        if not parts or weight > room or len(parts[-1]) == most:
            parts, room = [*parts, []], MOST_TYPES
        parts[-1].append(group)
        room -= weight
    return parts


def in_twos(groups):
    """The type of the coders of all groups, in twos. Each group is given by the number of its first variant and the type of its coders."""
    middle = (len(groups) + 1) // 2
    return groups[0][1] if len(groups) == 1 else f"TwoGroups<At<{groups[middle][0]}>, {in_twos(groups[:middle])}, {in_twos(groups[middle:])}>"


class Numbered:
    """The parts of the file of an enum."""

    def __init__(self, enum, own, crate, module):
        self.enum, self.own, self.crate, self.module, self.count = enum, own, crate, module, len(enum.variants)
        weights = [sum(types_in(field.type, own) for field in variant.fields) for variant in enum.variants]
        self.groups = groups_of(weights)
        most = MOST_BORROWED if enum.lifetime else len(self.groups) if len(self.groups) <= MOST_GROUPS else 1
        self.parts = parts_of(self.groups, weights, most)
        self.column_parts = parts_of(self.groups, weights, len(self.groups))
        self.is_split = len(self.column_parts) > 1
        self.types = [held_type(variant) for variant in enum.variants]
        self.life, self.input = bounds(enum, "Shaped"), enum.lifetime or "'a"
        self.name = enum.name + arguments(enum)

    def types_named(self):
        """How many types the decoder names: it ends at its parts."""
        return 2 + 2 * len(self.parts)

    def types_of(self, numbers):
        """The types of the payloads of these variants."""
        return ", ".join(self.types[n] for n in numbers)

    def encoders(self, numbers):
        """The encoders of these variants: their type, and what names it where it is long or that of all columns. They borrow nothing."""
        types = self.types_of(numbers).replace(self.enum.lifetime, "'static") if self.enum.lifetime else self.types_of(numbers)
        type = f"EncodersOf{len(numbers)}<At<{numbers[0]}>, {types}>"
        if len(self.groups) > 1 and len(type) <= MOST_IN_PLACE:
            return type, ""
        name = "Columns" + (f"Of{numbers[0]}To{numbers[-1]}" if len(self.groups) > 1 else "")
        return name, f"type {name} = {type};\n\n"

    def of_group(self, numbers):
        """What is written of variants that have their coders together, but for the type of their encoders."""
        rows, size = [(ORDINALS[place], self.enum.variants[n]) for place, n in enumerate(numbers)], len(numbers)

        def written(ordinal, variant):
            fields = payload(names_of(variant), "&()")
            found = ", ".join(["_"] * (size + 1) + [payload([f"&{of_text(field.type)}" for field in variant.fields], "")])
            types = f"::<{found}>" if len(variant.fields) > MOST_FOUND else ""
            return f"\n            {value(self.enum, variant)} => to.encode_{ordinal}{types}(self, &{fields}),"

        others = "\n            _ => unreachable!()," if len(self.groups) > 1 else ""
        short, short_names = in_a_head(self.enum, [self.types[n] for n in numbers], "Payload", numbers[0])

        takes_one = any(len(variant.fields) == 1 and not is_number(variant.fields[0].type) for _, variant in rows)

        def is_taken_apart(types):
            """Whether a `let` takes the fields of a variant apart: the toolchain does not prove an arm that takes out
            an array beside other fields, or several fields beside an arm that takes one whole."""
            if any(type.kind == "array" for type in types):
                return len(types) > 1
            return takes_one and len(types) > 2 and not is_number(types[0])

        def made(ordinal, variant):
            fields, made_of = payload(names_of(variant), "()"), value(self.enum, variant)
            if is_taken_apart([field.type for field in variant.fields]):
                taken = f"{{\n                let {fields} = fields;\n                {made_of}\n            }}"
                return f"\n            OneOf{size}::{ordinal.capitalize()}(fields) => {taken}"
            return f"\n            OneOf{size}::{ordinal.capitalize()}({fields}) => {made_of},"

        return {
            "life": self.life,
            "size": size,
            "short": ", ".join(short),
            "short_names": short_names,
            "first": numbers[0],
            "end": numbers[-1] + 1,
            "types": self.types_of(numbers),
            "name": self.name,
            "values": ", ".join(f"λ p. {self.built(variant)}" for _, variant in rows),
            "arms": " ".join(f"(λ p. {self.built(variant)})" for _, variant in rows),
            "taken": "payload.entry" if self.enum.lifetime else "payload",
            "are": ", ".join([ARE] * size),
            "made": "".join(made(ordinal, variant) for ordinal, variant in rows) + "\n        ",
            "encode": "".join(written(ordinal, variant) for ordinal, variant in rows) + others + "\n        ",
        }

    def group(self, numbers):
        """What the enum says of variants that have their coders together."""
        encoders, alias = self.encoders(numbers)
        return Template(GROUP).substitute(self.of_group(numbers), encoders=encoders, alias=alias)

    def decoders(self, groups):
        """The decoders of these groups: their type, and a mark of the input's lifetime and its value where none of them keeps a part of the input."""
        type = in_twos([(group[0], f"DecodersOf{len(group)}<{self.input}, At<{group[0]}>, {self.types_of(group)}>") for group in groups])
        fields = [field for group in groups for n in group for field in self.enum.variants[n].fields]
        borrows = self.enum.lifetime or not all(is_nothing(field.type, self.own) for field in fields)
        return {"decoders": type, "mark": "" if borrows else MARK, "marked": "" if borrows else MARKED}

    def part(self, groups, whole=False):
        """The struct that holds the decoders of these groups, or of all of them, and its name."""
        first, end = groups[0][0], groups[-1][-1] + 1
        of = "" if whole else f"{first}To{end - 1}"
        row = {**self.decoders(groups), "part": f"{self.enum.name}Payloads{of}", "alias": f"Decoders{of}", "simple": self.enum.name, "name": self.name,
               "input": self.input, "first": first, "last": end - 1, "end": end}
        return Template((WHOLE if whole else PART) + PAYLOADS).substitute(row), row["part"]

    def columns(self):
        """The encoders of all variants: those of groups in twos, or structs that hold those of several groups."""
        of_groups = [[(group[0], self.encoders(group)[0]) for group in part] for part in self.column_parts]
        if not self.is_split:
            return f"type Columns = {in_twos(of_groups[0])};\n\n" if len(self.groups) > 1 else ""
        texts, names = [], []
        for part, types in zip(self.column_parts, of_groups):
            first, last = part[0][0], part[-1][-1]
            names.append((first, f"{self.enum.name}Columns{first}To{last}"))
            texts.append(Template(COLUMN_PART).substitute(alias=f"Columns{first}To{last}", columns=in_twos(types), part=names[-1][1], first=first, last=last, end=last + 1, simple=self.enum.name, life=self.life, name=self.name))
        return "".join(texts) + f"type Columns = {in_twos(names)};\n\n"

    def payloads(self):
        """The decoders of all variants, in one struct, or in one struct for each part."""
        if len(self.parts) > 1:
            texts, names = zip(*map(self.part, self.parts))
            decoders = in_twos([(part[0][0], f"{name}<{self.input}>") for part, name in zip(self.parts, names)])
            return {"parts": "".join(texts), "decoders": decoders, "whole": "", "holder": f"Decoders<{self.input}>"}
        text, name = self.part(self.groups, True)
        return {"parts": "", "decoders": self.decoders(self.groups)["decoders"], "whole": text, "holder": f"{name}<{self.input}>"}

    def built(self, variant):
        """A function of a payload, which gives the value that has it, in a ghost member."""
        found = paths(len(variant.fields)) if variant.fields else []
        return " ".join([f"{quoted(self.enum.name)}.{variant.name}", *found])

    def variants(self):
        """What the enum says of its variants: the payloads of each, the payload of a value, and the value that has a payload."""
        types = self.enum.types
        *before, last = [f"{type}.data" if type in types else f"⟦<{type} as Shaped>⟧.data" for type in self.types]
        payload_of = [(" ".join([f"{quoted(self.enum.name)}.{variant.name}", *LETTERS[: len(variant.fields)]]), payload(list(LETTERS[: len(variant.fields)]), "tt")) for variant in self.enum.variants]
        *first, end = [f"λ p. ({self.built(variant)}, refl)" for variant in self.enum.variants]
        return {
            "payloads_of": "".join(f"payload_and {quote} (" for quote in before) + f"last_payload {last}" + ")" * len(before),
            "payload": " | ".join(f"{value} ↦ at {number} {held}" for number, (value, held) in enumerate(payload_of)),
            "values": "".join(f"(({value}), " for value in first) + end + ")" * len(first),
        }

    def opening(self, uses, by_hand=()):
        """What the file has up to the variants' coders, with these lines and names besides those of all such files."""
        by_hand = {*by_hand, *"columns_in each_variant enum_data is_variant last_payload payload_and payloads_in refl".split()}

        def numbered(number, variant):
            names = names_of(variant)
            return f"told_as({number}, &{payload(names, '')})" if names else number

        return {
            "simple": self.enum.name,
            "name": self.name,
            "life": self.life,
            "input": self.input,
            "ghost": quoted(self.enum.name),
            "crate": self.crate,
            "module": self.module,
            "count": self.count,
            "uses": "\n".join(sorted({*uses, "use std::alloc::Global;"})) + "\n",
            "declaration": declaration(self.enum),
            "by_hand": ", ".join(sorted(by_hand | {f"of_one_of_{len(numbers)}" for numbers in self.groups})),
            **self.variants(),
            "one_to_one": one_to_one(self.enum),
            "index": arms(self.enum, lambda number, variant: value(self.enum, variant), numbered),
        }

    def file(self, imports):
        """The file of the type."""
        payloads = self.payloads()
        imports = {*imports, "std::marker::PhantomData"} if MARK in payloads["parts"] + payloads["whole"] else imports
        used = set("At Enum EnumDecoder EnumEncoder EnumOf Error HasDecoder HasEncoder HoldsPayloads "
                   "HoldsVariantColumns NewPayloads PayloadsDecoder PayloadsOf PayloadsView Shaped VariantColumns "
                   "WritesVariants told_as".split())
        used |= {f"{kind}{len(numbers)}" for numbers in self.groups for kind in ("DecodersOf", "EncodersOf", "OneOf", "Variants")}
        has_parts = len(self.parts) > 1 or self.is_split
        used |= {"NotCompared"} if has_parts else set()
        used |= ({"TwoGroups"} if len(self.groups) > 1 else set()) | (set() if self.enum.lifetime else {"DecodeOwned"})

        return Template(FILE).substitute(
            self.opening({f"use bitcode::{{{', '.join(sorted(used))}}};", *(f"use {path};" for path in imports)}),
            columns=f"{self.enum.name}Columns",
            groups="\n".join(map(self.group, self.groups)),
            all_columns=self.columns(),
            **payloads,
            owned="" if self.enum.lifetime else Template(OWNED).substitute(name=self.name),
        )
