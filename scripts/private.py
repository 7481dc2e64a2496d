"""Structs with private fields: what they are made from is made by decoding alone."""

import re

from declarations import Struct
from facade import with_names

# How a struct is made from the tuple of its fields, and how it is where only decoding makes these.
CONVERSION = re.compile(
    r"(?m)^(impl.*) ConvertFrom<(.*)> for (.*) \{\n    fn convert_from\(_alloc: Global, (.*): (.*)\) -> Result<Self, Error> \{\n"
    r"        ((?:.*\n        )?.*?)Ok\((.*)\)\n    \}$"
)
DECODED = r"""\1 FromDecoded<\2> for \3 {
    fn from_decoded(decoded: Decoded<\5>) -> Self
        ensures { MakesToo ⟦<\3 as Shaped>⟧.data.makes ⟦<\2 as Shaped>⟧.data.makes result $decoded.fields }
    {
        let \4 = decoded.into_fields();
        \6\7
    }"""
OTHERS = {
    "ConvertFrom": {"Decoded", "FromDecoded"},
    "ConvertFromDecoder": {"PrivateDecoder"},
    "DecoderOfFields": {"DecoderOfPrivate"},
}


def is_private(item):
    """Whether the item is a struct with a field that not every crate sees."""
    return isinstance(item, Struct) and any(field.seen != "pub " for field in item.fields)


def hidden(text, item):
    """The file of the item, which no caller makes of fields of its choice where these are private."""
    if not is_private(item):
        return text
    # The toolchain gives the method no clause of its trait that speaks of a part of what is passed.
    text = CONVERSION.sub(DECODED.replace("$decoded", "decoded.entry" if item.lifetime else "decoded"), text)
    text = with_names(text, "Rattle.bitcode.specs.ByHand", {"MakesToo"})
    text = text.replace("ConvertFromDecoder<", "PrivateDecoder<").replace("DecoderOfFields<", "DecoderOfPrivate<")
    rest = re.sub(r"(?m)^(ghost )?use .*$", "", text)

    def uses(found):
        names = {name for given in found[1].split(", ") for name in OTHERS.get(given, {given})}
        used = sorted(name for name in names if re.search(rf"(?<!\w){name}(?!\w)", rest))
        return f"use bitcode::{{{', '.join(used)}}};"

    text = re.sub(r"(?m)^use bitcode::\{([^}]*)\};$", uses, text, count=1)
    return text if re.search(r"\bGlobal\b", rest) else text.replace("use std::alloc::Global;\n", "")
