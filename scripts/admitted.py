"""Structs with a check of their fields, `#[check(start <= end)]`: what the check refuses is no value of the struct."""

import re

from declarations import Struct
from facade import with_names
from known_types import of_text
from structs import MOST_FLAT, parameter, places, quoted
from tokens import Refused

# How a struct is made of the tuple of its fields, and how it is where a check comes before.
CONVERSION = re.compile(
    r"(?m)^impl(.*) ConvertFrom<(.*)> for (.*) \{\n    fn convert_from\(_alloc: Global, (.*): (?:.*)\) -> Result<Self,"
    r" Error> \{\n"
    r"        (?:.*\n        )?.*?Ok\((.*)\)\n    \}\n\n    ghost same_shape = \{ refl \};\n\}$"
)
DATA = re.compile(r"data_as (\(λ t\. .*?\)) \(λ p\. \(record \{ (.*) \}, refl\)\) \(λ t\. refl\) (⟦.*⟧\.data) \}")
CHECKED = """impl$life FromChecked<$parts, <$parts as HasDecoder<$input>>::Decoder> for $name {
    ghost parts = { $ghost_parts };

    ghost takes = { λ p. $of_parts };

    ghost admits = { admits $typed_back (λ p. $of_parts) };

    fn from_checked(fields: $parts) -> Option<Self>
        ensures { MatchOption result (($of_tuple) ≡ false) (λ t. (($of_tuple) ≡ true) × ($lent ≡ fields)) }
    {
        let $taken = fields;
        $constructor($arguments)
    }

    ghost same_shape = { refl };

    ghost made = { λ t d m. m };

    ghost admitted = { admits-takes $back (λ p. $of_parts) };

    ghost free = { refl };
}"""
CONSTRUCTOR = """impl $name {
    /// Makes the value if `$rust`.
    pub fn new($parameters) -> Option<$name>
        ensures { MatchOption result (($of_fields) ≡ false) (λ t. (($of_fields) ≡ true)$kept) }
    {
        if $asked {
            Some($built)
        } else {
            None
        }
    }
}

"""
BACKS = {"bool": "bool_back", "char": "natural_back"}
BACKS |= {f"u{width}": "natural_back" for width in ("8", "16", "32", "64", "128", "size")}
BACKS |= {f"i{width}": "integer_back" for width in ("8", "16", "32", "64", "128", "size")}
COMPARED = {
    "natural_back": {"<=": "nat_le {0} {1}", "<": "nat_lt {0} {1}", "==": "nat_eq {0} {1}"},
    "integer_back": {"<=": "int_le {0} {1}", "<": "int_lt {0} {1}", "==": "int_le {0} {1} && int_le {1} {0}"},
}
TURNED = {">=": "<=", ">": "<"}
EXPECTED = (
    "a check compares fields with fields or integers (`<`, `<=`, `==`, `!=`, `>=`, `>`) and combines with `&&`, `||`"
    " and `!`"
)


class Check:
    """The check of a struct: as Rust, and as what the checker knows of it."""

    def __init__(self, item, inner, line):
        self.item, self.line, self.at = item, line, 0
        self.constructor, self.words = None, inner
        head = re.match(r"((?:\w+ :: )+\w+) ,", " ".join(inner))
        if head:
            self.constructor = head[1].replace(" ", "")
            self.words = inner[len(head[1].split()) + 1 :]
        if item.skipped:
            raise Refused(
                line,
                "a struct with a `#[check(..)]` has no skipped field: move it to another struct, which holds this one",
            )
        if item.kind != "named":
            raise Refused(line, "a struct with a `#[check(..)]` has named fields: name them")
        if any(field.change for field in item.fields):
            raise Refused(
                line,
                "a struct with a `#[check(..)]` cannot have versions: move the fields that change to another struct",
            )
        self.kinds = {field.name: BACKS.get(of_text(field.type)) for field in item.fields}
        for field in item.fields:
            if not self.kinds[field.name]:
                raise Refused(
                    field.line,
                    (
                        "a struct with a `#[check(..)]` has only fields of integers, `bool` and `char`: move the others"
                        " to another struct"
                    ),
                )
        if not 0 < len(item.fields) <= MOST_FLAT or item.lifetime or item.types or item.consts:
            raise Refused(line, f"a struct with a `#[check(..)]` has one to {MOST_FLAT} fields and no parameters")
        self.tree = self.either()
        if self.at < len(self.words):
            self.refuse()

    def refuse(self):
        raise Refused(self.line, f"{EXPECTED}: `{' '.join(self.words)}` is not supported")

    def peek(self):
        return self.words[self.at] if self.at < len(self.words) else ""

    def take(self, *words):
        if tuple(self.words[self.at : self.at + len(words)]) == words:
            self.at += len(words)
            return True
        return False

    def either(self):
        tree = self.both()
        while self.take("|", "|") or self.take("||"):
            tree = ("||", tree, self.both())
        return tree

    def both(self):
        tree = self.one()
        while self.take("&", "&") or self.take("&&"):
            tree = ("&&", tree, self.one())
        return tree

    def one(self):
        if self.take("!"):
            return ("!", self.one())
        if self.take("("):
            tree = self.either()
            if not self.take(")"):
                self.refuse()
            return tree
        left = self.operand()
        for sign in ("<=", ">=", "==", "!=", "<", ">"):
            if self.take(*sign) or self.take(sign):
                return (sign, left, self.operand())
        if self.kinds.get(left) != "bool_back":
            self.refuse()
        return ("field", left)

    def operand(self):
        self.take("self", ".")
        sign = "-" if self.take("-") else ""
        word = self.peek()
        if not (word in self.kinds or re.fullmatch(r"[0-9][0-9_]*", word)):
            self.refuse()
        self.at += 1
        return sign + word

    def ghost(self, tree, names):
        """What the checker knows of the check, where fields have these names."""
        if tree[0] == "field":
            return names[tree[1]]
        if tree[0] == "!":
            return f"not ({self.ghost(tree[1], names)})"
        if tree[0] in ("&&", "||"):
            left, right = (in_brackets(tree[0], one, self.ghost(one, names)) for one in tree[1:])
            return f"{left} {tree[0]} {right}"
        sign, left, right = tree
        if sign == "!=":
            return f"not ({self.ghost(('==', left, right), names)})"
        if sign in TURNED:
            sign, left, right = TURNED[sign], right, left
        kinds = {self.kinds[one] for one in (left, right) if one in self.kinds}
        if len(kinds) != 1 or kinds == {"bool_back"}:
            raise Refused(self.line, f"{EXPECTED}, both sides of the same sign")
        kind = kinds.pop()

        def term(one):
            if one in names:
                return names[one]
            return (
                one if kind == "natural_back" else f"(pos {one})" if one[0] != "-" else f"(negsuc {int(one[1:]) - 1})"
            )

        return COMPARED[kind][sign].format(term(left), term(right))

    def rust(self, tree, names):
        """The check in Rust, where fields have these names."""
        if tree[0] == "field":
            return names[tree[1]]
        if tree[0] == "!":
            return f"!({self.rust(tree[1], names)})"
        if tree[0] in ("&&", "||"):
            left, right = (in_brackets(tree[0], one, self.rust(one, names)) for one in tree[1:])
            return f"{left} {tree[0]} {right}"
        return f"{names.get(tree[1], tree[1])} {tree[0]} {names.get(tree[2], tree[2])}"


def in_brackets(sign, tree, text):
    """A part of what is combined by the sign."""
    return f"({text})" if tree[0] in ("&&", "||") and tree[0] != sign else text


def back(kinds):
    """How the tuple of fields of these kinds is read back of a datum."""
    if len(kinds) == 1:
        return kinds[0]
    half = len(kinds) // 2
    pair = f"pair_back {inside(kinds[:half])} {inside(kinds[half:])}"
    return pair if len(kinds) == 2 else f"tuple_back split_{len(kinds)} joined_{len(kinds)} again_{len(kinds)} ({pair})"


def inside(kinds):
    return kinds[0] if len(kinds) == 1 else f"({back(kinds)})"


def typed(kind, field):
    """How the field is read back, with what its values are."""
    return f"({kind} {{is_value = ⟦<{of_text(field.type)} as Shaped>⟧.data.is_value}})"


def check_of(item):
    """The check of the item, if it has one."""
    for text in item.attributes:
        found = re.fullmatch(r"#\[check\((.*)\)\]", text)
        if found:
            if not isinstance(item, Struct):
                raise Refused(item.line, "only a struct can have a `#[check(..)]`: move what is checked to a struct")
            return Check(item, found[1].split(), item.line)
    return None


def admitted(text, item):
    """The file of the struct, where its check comes before each value."""
    check = check_of(item)
    fields, name = item.fields, item.name
    parameters = [parameter(field.name) for field in fields]
    by_name = dict(zip(check.kinds, parameters))
    of_self = {field.name: quoted(field.name) for field in fields}
    row = {
        "name": name,
        "back": inside(list(check.kinds.values())),
        "typed_back": inside([typed(kind, field) for kind, field in zip(check.kinds.values(), fields)]),
        "of_parts": check.ghost(check.tree, dict(zip(check.kinds, places(len(fields))))),
        "of_tuple": check.ghost(check.tree, dict(zip(check.kinds, places(len(fields), "fields")))),
        "of_fields": check.ghost(check.tree, by_name),
        "rust": check.rust(check.tree, {one: one for one in check.kinds}),
        "asked": check.rust(check.tree, by_name),
        "constructor": check.constructor or f"{name}::new",
        "arguments": ", ".join(parameters),
        "parameters": ", ".join(f"{one}: {of_text(field.type)}" for one, field in zip(parameters, fields)),
        "kept": "".join(f" × (t.{field.name} ≡ {one})" for one, field in zip(parameters, fields)),
    }
    converted = CONVERSION.search(text)
    life, parts, _, taken, built = converted.groups()
    data = DATA.search(text)
    row |= {"life": "<'a>", "input": "'a", "parts": parts, "taken": taken, "built": built, "ghost_parts": data[1][1:-1]}
    row["lent"] = row["ghost_parts"].removeprefix("λ t. ")

    def filled(template):
        return re.sub(r"\$(\w+)", lambda found: row[found[1]], template)

    text = CONVERSION.sub(lambda _: filled(CHECKED), text)
    made = f"(λ p h. (record {{ {data[2]}; checked = h }}, refl))"
    law = f"admitted_data {data[1]} (λ p. {row['of_parts']}) {data[3]} refl {row['back']} (λ t. t.checked) {made} }}"
    text = DATA.sub(lambda _: law, text)
    text = text.replace("    ghost of_fields = { λ d h. h };", "    ghost of_fields = { λ d h. h.0 };")
    text = with_invariant(text, item, check.ghost(check.tree, of_self))
    if not check.constructor:
        text = text.replace("impl Shaped for", filled(CONSTRUCTOR) + "impl Shaped for", 1)
    text = re.sub(rf"DecoderOfFields<'a, (.*)>;", rf"DecoderOfChecked<'a, {name}, \1>;", text)
    words = {
        word
        for word in re.findall(r"[\w-]+", filled(CHECKED) + law)
        if re.fullmatch(r"admits|admits-takes|admitted_data|\w+_back|(?:split|joined|again)_\d|nat_\w+", word)
    }
    compared = set(re.findall(r"\bint_l[et]\b", filled(CHECKED) + law))
    text = re.sub(
        r"(?m)^ghost use Rattle\.bitcode\.specs\.ByHand\.\{data_as, ", "ghost use Rattle.bitcode.specs.ByHand.{", text
    )
    text = with_names(text, "Rattle.bitcode.specs.ByHand", words)
    signs = {sign for sign in ("◌&&◌", "◌||◌") if sign.strip("◌") in row["of_parts"]} | (
        {"not"} if "not (" in row["of_parts"] else set()
    )
    signs |= {one for one in ("pos", "negsuc") if f"({one} " in row["of_parts"]}
    text = with_names(text, "Rattle.std.specs.Prelude", {"◌≡◌", "true", "false", "MatchOption", *signs, *compared})
    text = re.sub(r"(?m)^use bitcode::\{(.*)\};$", lambda found: uses(found[1]), text, count=1)
    return text if re.search(r"(?m)^(?!use ).*\bGlobal\b", text) else text.replace("use std::alloc::Global;\n", "")


def uses(listed):
    others = {"ConvertFrom": "FromChecked", "DecoderOfFields": "DecoderOfChecked"}
    names = {others.get(name, name) for name in listed.split(", ")} - {"Error"}
    return f"use bitcode::{{{', '.join(sorted(names))}}};"


def with_invariant(text, item, clause):
    """The declaration with the check as an invariant, and without the attribute."""
    text = re.sub(r"(?m)^#\[check\(.*\)\]\n", "", text)
    head = re.search(rf"(?m)^(?:pub(?:\(crate\))? )?struct {item.name} \{{\n(?:.*\n)*?\}}$", text)
    return text[: head.end() - 1] + f"    ghost checked: {{ ({clause}) ≡ true }},\n}}" + text[head.end() :]
