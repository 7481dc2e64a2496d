"""The file of an enum: of one whose variants all lack fields, of one of which some have fields (numbered.py), and of one or no variant."""

from string import Template

from declarations import fields_of
from generic_enums import Generic
from known_types import MOST_FIELDS, Checker
from numbered import Numbered
from structs import NOT_DERIVED, halved, places, quoted, tuple_text
from tokens import Refused
from variants import LETTERS, arms, declaration, one_to_one, value

MOST_VARIANTS = 256

BARE = """//! `$name` numbers its variants. What is below its declaration was written by `scripts/new_type`.
ghost use Rattle.std.specs.Prelude.{[], ◌∷◌, refl};
ghost use Rattle.bitcode.specs.ByHand.{bare_data};
ghost use Rattle.$crate.specs.declared.$module.$ghost.{$ghost};

use bitcode::{BareEncoder, BareShaped, BareVariants, DecodeOwned, HasDecoder, HasEncoder, Shaped, VariantDecoder};

$declaration
impl BareVariants<$count> for $name {
    ghost variant = { elim [ $variant ] };

    ghost values = { $values };

    ghost in_order = { (refl, refl) };

    ghost one_to_one = { $one_to_one };

    fn index(&self) -> u8 {
        $index
    }

    fn from_index(index: u8) -> Self {
        match index {$from_index}
    }
}

impl Shaped for $name {
    ghost data = { bare_data $count ⟦<$name as BareVariants<$count>>⟧.variant ⟦<$name as BareVariants<$count>>⟧.values ⟦<$name as BareVariants<$count>>⟧.in_order ⟦<$name as BareVariants<$count>>⟧.one_to_one };

    fn told(&self) {
        let _index = self.index();
    }
}

impl BareShaped<$count> for $name {
    ghost has_shape = { refl };

    ghost lists_bare = { λ t d h. h };

    ghost makes_bare = { λ d t h. h };
}

impl HasEncoder for $name {
    type Encoder = BareEncoder<$count>;
}

impl<'a> HasDecoder<'a> for $name {
    type Decoder = VariantDecoder<'a, $count, true>;
}

impl DecodeOwned for $name {}
"""

NEVER = """//! `$name` has no values. A field holds it as `Absent<$name>`. What is below its declaration was written by `scripts/new_type`.
use bitcode::{NoVariants};

$declaration
impl NoVariants for $name {
    ghost never = { λ t P h. elim t [ ] };
}
"""


def one_text(enum, crate, module, imports, own):
    """The file of an enum of one variant, which stands for the tuple of its fields as a struct does."""
    variant, ghost = enum.variants[0], quoted(enum.name)
    letters, name = list(LETTERS[: len(variant.fields)]), f"{ghost}.{variant.name}"
    inner = {"named": f" {{ {', '.join(f'{field.name}: {letter}' for field, letter in zip(variant.fields, letters))} }}", "tuple": f"({', '.join(letters)})", "unit": ""}
    built = f"{enum.name}::{variant.name}{inner[variant.kind]}"
    taken = f"\n        let {built} = self;" if letters else ""

    def only(letter):
        """The pattern of the variant with one field's name."""
        names = [other if other == letter else "_" for other in letters]
        inner = {"named": f" {{ {', '.join(f'{field.name}: {name}' for field, name in zip(variant.fields, names))} }}", "tuple": f"({', '.join(names)})"}[variant.kind]
        return f"let {enum.name}::{variant.name}{inner} = self; {letter}"

    return tuple_text(
        enum,
        imports,
        own,
        [(f"elim [ {' '.join([name, *letters])} ↦ {letter} ]", only(letter)) for letter in letters],
        about=f"`{enum.name}` corresponds to the tuple of its variant's fields. What is below its declaration was written by `scripts/new_type`.",
        declaration=declaration(enum),
        ghost_use=f"    ghost use Rattle.{crate}.specs.declared.{module}.{ghost}.{{{ghost}}};\n\n",
        ghost_parts=f"elim [ {' '.join([name, *letters])} ↦ {halved(letters) if letters else 'tt'} ]",
        ghost_made=" ".join([name, *places(len(letters))]) if letters else name,
        told=taken + "".join(f"\n        {letter}.told();" for letter in letters) + ("\n    " if letters else ""),
        one_to_one=one_to_one(enum),
        pattern=halved(letters) if letters else "_nothing",
        built=built,
    )


def bare_text(enum, crate, module):
    """The file of an enum whose variants all lack fields."""
    last, names = len(enum.variants) - 1, [f"{quoted(enum.name)}.{variant.name}" for variant in enum.variants]
    is_cast = "Copy" in enum.derives and all(variant.kind == "unit" and not variant.number for variant in enum.variants)
    row = {
        "name": enum.name,
        "ghost": quoted(enum.name),
        "crate": crate,
        "module": module,
        "count": last + 1,
        "declaration": declaration(enum),
        "variant": " | ".join(f"{name} ↦ {place}" for place, name in enumerate(names)),
        "values": " ∷ ".join([*names, "[]"]),
        "index": "*self as u8" if is_cast else f"match self {{{arms(enum, lambda place, variant: value(enum, variant), lambda place, variant: place)}}}",
        "one_to_one": one_to_one(enum),
        "from_index": arms(enum, lambda place, variant: "_" if place == last else place, lambda place, variant: value(enum, variant)),
    }
    return Template(BARE).substitute(row)


def check_variants(enum):
    """Stops at variants that cannot be written, or too many of them."""
    count, fields = len(enum.variants), fields_of(enum)
    derived = [name for name in enum.derives if name not in {"Clone", "Copy", *NOT_DERIVED}]
    if count == 0 and derived:
        raise Refused(enum.line, f"remove the `{derived[0]}`: no call could meet its contract, since an enum without variants has no values")
    if count > MOST_VARIANTS:
        raise Refused(enum.line, f"{count} variants exceed the limit of 256: move some of them to another enum")
    if fields and count > 1 and enum.consts:
        why = f"an enum with fields cannot have the parameter `const {enum.consts[0]}`"
        raise Refused(enum.line, f"{why}: write the number itself, or hold the array in a struct")
    for variant in enum.variants:
        if fields and variant.number:
            raise Refused(variant.line, "only an enum without fields can have numbers: remove it")
        if variant.name in ("Below", "deriving"):
            raise Refused(variant.line, f"`{variant.name}` cannot name a variant in Rattle: choose another name")
        if len(variant.fields) > MOST_FIELDS:
            raise Refused(variant.line, f"{len(variant.fields)} fields exceed the limit of 16: move some of them to another struct")


def enum_text(enum, own, told, crate, module):
    """The file of an enum, and the crates that it needs."""
    check_variants(enum)
    checker = Checker(enum, own, told)
    checker.check_all()
    if not enum.variants:
        text = Template(NEVER).substitute(name=enum.name, declaration=declaration(enum))
    elif len(enum.variants) == 1:
        text = one_text(enum, crate, module, checker.imports, own)
    elif not fields_of(enum):
        text = bare_text(enum, crate, module)
    else:
        text = (Generic if enum.types else Numbered)(enum, own, crate, module).file(checker.imports)
    return text, checker.crates
