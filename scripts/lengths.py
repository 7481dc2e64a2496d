"""Names that a file gives to lengths and types: scripts/new_type writes the numbers and the types themselves."""

import re

from declarations import with_fields
from known_types import TYPES, of_text
from tokens import Refused

NUMBER = re.compile(r"(0x[0-9a-fA-F_]+|0b[01_]+|0o[0-7_]+|[0-9][0-9_]*)(?:[iu](?:8|16|32|64|128|size))?")
# The operators, those that bind most first.
OPERATORS = ({"*": int.__mul__, "/": int.__floordiv__, "%": int.__mod__}, {"+": int.__add__, "-": int.__sub__},
             {"<<": int.__lshift__, ">>": int.__rshift__}, {"&": int.__and__}, {"^": int.__xor__}, {"|": int.__or__})
DIVISIONS, SHIFTS = (int.__floordiv__, int.__mod__), (int.__lshift__, int.__rshift__)
MOST = 2**64 - 1


class Unknown(Exception):
    """What is not the arithmetic of numbers and constants of the file."""


class Sum:
    """The value of words such as `2 * ( N + 1 )`."""

    def __init__(self, words, consts, above=()):
        text = " ".join(words).replace("< <", "<<").replace("> >", ">>")
        self.words = re.findall(r"<<|>>|\w+|[^\w\s]", text)
        self.at, self.consts, self.above = 0, consts, above

    def peek(self):
        return self.words[self.at] if self.at < len(self.words) else ""

    def next(self):
        self.at += 1
        return self.words[self.at - 1] if self.at <= len(self.words) else ""

    def value(self):
        found = self.level(len(OPERATORS) - 1)
        if self.peek() or not 0 <= found <= MOST:
            raise Unknown
        return found

    def level(self, number):
        """The value of what operators up to this level join."""
        found = self.level(number - 1) if number >= 0 else self.one()
        while number >= 0 and self.peek() in OPERATORS[number]:
            operator = OPERATORS[number][self.next()]
            right = self.level(number - 1)
            if right == 0 and operator in DIVISIONS or operator in SHIFTS and not 0 <= right < 64:
                raise Unknown
            found = operator(found, right)
        return found

    def one(self):
        word = self.next()
        if word == "(":
            found = self.level(len(OPERATORS) - 1)
            if self.next() != ")":
                raise Unknown
        elif NUMBER.fullmatch(word):
            digits = NUMBER.fullmatch(word)[1].replace("_", "")
            found = int(digits, 0 if digits[1:2].isalpha() else 10)
        elif word in ("u8", "u16") and self.words[self.at : self.at + 3] == [":", ":", "MAX"]:
            self.at, found = self.at + 3, 2 ** int(word[1:]) - 1
        elif word in self.consts and word not in self.above:
            found = Sum(self.consts[word].words, self.consts, (*self.above, word)).value()
        else:
            raise Unknown
        while self.peek() == "as":
            self.next()
            self.next()
        return found


class WrittenOut:
    """Puts numbers and types in the place of their names."""

    def __init__(self, consts, aliases, told):
        self.consts, self.aliases = {const.name: const for const in consts}, {alias.name: alias for alias in aliases}
        # The constants that lengths have.
        self.told, self.parameters, self.used, self.types = told, (), set(), {*self.aliases}

    def length(self, text, line):
        """The length as a number; one that is so already, or that is a parameter, is as it was."""
        if re.fullmatch(r"[0-9][0-9_]*(usize)?", text) or text in self.parameters:
            return text
        self.use(text)
        try:
            return str(Sum([text], self.consts).value())
        except Unknown:
            instead = "as a number, or by numbers and constants of this file, such as `2 * N`"
            self.told.fault(line, f"write the length `{text}` {instead}")
            return "1"

    def use(self, text):
        """Marks the constants in the text as used, and those in their values."""
        for name in {*re.findall(r"[A-Za-z_]\w*", text)} & set(self.consts) - self.used:
            self.used.add(name)
            self.use(" ".join(self.consts[name].words))

    def type(self, type, above=()):
        """The type with all of its names written out."""
        if type.kind == "number":
            return type._replace(name=self.length(type.name, type.line))
        name = type.name if type.kind == "path" and len(type.path) == 1 else None
        if name in self.aliases and name not in self.parameters:
            return self.alias(type, above)
        parts = [self.argument(type, number, part, above) for number, part in enumerate(type.parts)]
        if type.kind == "array":
            return type._replace(name=self.length(type.name, type.line), parts=parts)
        return type._replace(parts=parts)

    def argument(self, type, number, part, above):
        """A type or a number between the angle brackets of another type."""
        known = TYPES.get(type.name) if type.kind == "path" else None
        is_name = part.kind == "path" and len(part.path) == 1 and not part.parts
        is_length = known and known.numbers and number == known.types
        if is_name and (is_length or part.name in set(self.consts) - self.types - {*self.parameters}):
            return part._replace(kind="number", name=self.length(part.name, part.line), path=())
        return self.type(part, above)

    def alias(self, type, above):
        """The type that an alias stands for, of the types that it is given."""
        alias = self.aliases[type.name]
        if type.name in above:
            raise Refused(alias.line, f"`{type.name}` names itself: write the type that it is for")
        if len(type.parts) != len(alias.types):
            raise Refused(type.line, f"`{type.name}` takes {len(alias.types)} parameters")
        given = dict(zip(alias.types, [self.type(part, above) for part in type.parts]))

        def put(part):
            """The alias's own parameters replaced by what it is given."""
            if part.name in given and part.kind in ("path", "lifetime") and not part.parts:
                return given[part.name]._replace(line=type.line)
            name = given[part.name].name if part.kind == "reference" and part.name in given else part.name
            return part._replace(name=name, line=type.line, parts=[put(inner) for inner in part.parts])

        return self.type(put(alias.type), (*above, type.name))

    def fields(self, fields):
        found = []
        for field in fields:
            with self.told.going_on():
                found.append(field._replace(type=self.type(field.type)))
        return found

    def items(self, items, faulty):
        """The items with all names written out. Of those with a fault the names are added to the faulty ones."""
        found, self.types = [], {*self.aliases, *(item.name for item in items)}
        for item in items:
            faults, self.parameters = len(self.told.faults), (*item.types, *item.consts)
            found.append(with_fields(item, self.fields))
            faulty |= {item.name} if len(self.told.faults) > faults else set()
        for const in self.consts.values():
            why = "the fields have its value" if const.name in self.used else "no field uses it"
            self.told.note(const.line, f"`const {const.name}` is not written: {why}")
        for alias in self.aliases.values():
            self.told.note(alias.line, f"`type {alias.name}` is not written: the fields have `{of_text(alias.type)}`")
        return found
