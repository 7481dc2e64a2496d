"""Reads declarations of structs and enums as one writes them in Rust: what scripts/new_type reads."""

from collections import namedtuple

from attributes import ATTRIBUTES, OF_FIELDS, OF_VARIANTS, Attributes, parted
from changes import taken
from tokens import Passed, Refused, tokens

# What cannot be a name in Rust or in Rattle.
KEYWORDS = set("abstract as async await become box break const continue crate do dyn else ensures enum extern false "
               "final fn for gen ghost if impl in let loop macro match mod move mut override priv pub ref requires "
               "return self Self static struct super trait true try type typeof unsafe unsized use virtual where while "
               "yield".split())

# Other items that stand beside declarations.
OTHERS = set("async const extern fn impl macro_rules static trait type unsafe".split())
TYPES_OF = ("struct", "enum", "type", "union")
# Bounds of a parameter that the generated impls have where they need them, and that are taken off.
NEEDED = set("Decode DecodeOwned Deserialize DeserializeOwned Encode Serialize Sized".split())
BOUNDS = "the generated impls have the bounds that they need"

# A field's type: `kind` is path, reference, slice, array, tuple, or number; `name` the last word of a path, a lifetime or
# a length; `path` has the words of a path as it was written.
Type = namedtuple("Type", "kind name parts line path", defaults=((),))
# `change` has the versions in which it is there (changes.py).
Field = namedtuple("Field", "docs seen name type line attributes change", defaults=((), None))
# `types` has type parameters, and `consts` those that are numbers.
# `skipped` has the fields that are not written, each with its place among all.
Struct = namedtuple("Struct", "docs derives attributes seen name lifetime types fields kind line consts skipped", defaults=[(), ()])
# `kind` is unit, tuple or named; `number` what stands behind a variant's `=`.
Variant = namedtuple("Variant", "docs attributes name fields kind number line change", defaults=(None,))
Enum = namedtuple("Enum", "docs derives attributes seen name lifetime types variants line consts", defaults=((),))
# A name that a `use` line brings in, with the words of its path.
Use = namedtuple("Use", "name path line")
# Another name for a type, with the types that it takes; and a number that has a name.
Alias = namedtuple("Alias", "name types type line")
Const = namedtuple("Const", "name words line")


def word_of(item):
    """What the item is declared as."""
    return "enum" if isinstance(item, Enum) else "struct"


def fields_of(item):
    """The fields of a struct, or of all variants of an enum."""
    return item.fields if isinstance(item, Struct) else [field for variant in item.variants for field in variant.fields]


def with_fields(item, changed):
    """The item with each list of fields changed by that function."""
    if isinstance(item, Struct):
        return item._replace(fields=changed(item.fields))
    return item._replace(variants=[variant._replace(fields=changed(variant.fields)) for variant in item.variants])


class Words:
    """Reads tokens one after the other."""

    def __init__(self, text, told):
        found = tokens(text)
        of_file = [token.line for token in found if token.kind == "file"]
        self.tokens, self.at, self.told = [token for token in found if token.kind != "file"], 0, told
        if of_file:
            told.note(of_file[0], "comments of the whole file are taken off: each type has a file of its own")

    def peek(self, *texts):
        return self.tokens[self.at].text in texts

    def next(self):
        token = self.tokens[self.at]
        self.at = min(self.at + 1, len(self.tokens) - 1)
        return token

    def line(self):
        return self.tokens[self.at].line

    def is_end(self):
        return self.tokens[self.at].kind == "end"

    def take(self, text):
        return self.peek(text) and bool(self.next())

    def expect(self, text):
        if not self.take(text):
            raise Refused(self.line(), f"expected `{text}`, found `{self.tokens[self.at].text}`")

    def name(self):
        token = self.next()
        text = token.text.removeprefix("r#")
        if text in KEYWORDS:
            why = f"`{token.text}` is a keyword in Rattle: choose another name, such as `{text}_`"
            if token.kind != "raw" and not self.peek(":"):
                raise Refused(token.line, why)
            self.told.fault(token.line, why)
            return text + "_"
        if token.kind == "raw":
            return text
        if token.kind != "name":
            raise Refused(token.line, f"expected a name, found `{token.text}`")
        return token.text

    def word(self):
        """A word of a path."""
        return self.next().text if self.peek("crate", "self", "super") else self.name()

    def listed(self, close, item):
        """Items between commas, up to the mark that closes them."""
        items = []
        while not self.take(close):
            if item == self.type and self.begins_field():
                raise Refused(self.line(), f"expected `{close}`, found `{self.tokens[self.at].text}`")
            items.append(item())
            if not self.peek(close):
                self.expect(",")
        return items

    def begins_field(self):
        """Whether a field with a name or a `pub` begins here, or what stands before it."""
        return self.tokens[self.at].kind == "doc" or self.peek("pub", "#") or self.tokens[self.at + 1].text == ":"

    def each(self, close, item):
        """The same of fields or variants: behind one that is refused the next is read."""
        items = []
        while not self.take(close):
            start = self.at
            with self.told.going_on():
                items.append(item())
                if not self.peek(close):
                    self.expect(",")
                continue
            self.at = start
            self.pass_one(close)
            self.take(",")
            if self.is_end():
                raise Passed
        return items

    def pass_one(self, close):
        """Goes behind a field or a variant that is refused, and whose brackets may lack others."""
        opened, of = [], {")": "(", "]": "[", "}": "{", ">": "<"}
        while not self.is_end() and not (self.peek(close) and of[close] not in opened):
            text = self.next().text
            if text == "," and (not opened or "{" not in opened and self.begins_field()):
                self.at -= 1
                return
            if text in of.values():
                opened.append(text)
            while of.get(text) in opened and opened.pop() != of[text]:
                pass

    def until(self, *marks, opening="([{<", closing=")]}>"):
        """The texts up to one of these marks that no bracket holds."""
        depth, texts = 0, []
        while not self.is_end() and (depth or not self.peek(*marks)):
            text = self.next().text
            depth += (text in opening) - (text in closing)
            texts.append(text)
        return texts

    def balanced(self, opening, closing):
        """The text up to the closing mark; the opening one has been taken."""
        depth, texts = 1, []
        while depth:
            token = self.next()
            if token.kind == "end":
                raise Refused(token.line, f"`{closing}` is missing")
            depth += (token.text == opening) - (token.text == closing)
            texts.append(token.text)
        return texts[:-1]

    def pass_item(self):
        """Goes behind an item that is refused, and gives the names of the types in it, or that it would bring in."""
        names, depth, before, is_use = [], 0, "", False
        while not self.is_end():
            token = self.next()
            is_use = is_use or token.text == "use" and before in ("", "pub", ")")
            if is_use and token.text == "*" or token.kind == "name" and (is_use or before in TYPES_OF):
                names.append(token.text)
            before = token.text
            depth += (before in ("(", "[", "{")) - (before in (")", "]", "}"))
            if depth <= 0 and before in (";", "}"):
                self.take(";")
                break
        return names


class Parser(Words):
    """Reads declarations."""

    def __init__(self, text, told):
        super().__init__(text, told)
        self.attributes = Attributes(told)
        # The types whose declarations are refused, in part or as a whole.
        self.faulty, self.lifetimes = set(), []
        # How many modules hold what is read.
        self.depth = 0
        self.items, self.uses, self.aliases, self.consts = [], [], [], []

    def heads(self, of, known):
        """Comments of documentation and attributes before a variant or a field, which may have the known ones, and what
        they tell of its versions."""
        docs, found = self.before()
        change, found = taken(found, self.told)
        _, attributes = self.attributes.all(found, of, known)
        return docs, attributes, change

    def before(self):
        """Comments of documentation and attributes, with their lines."""
        docs, found = [], []
        while self.tokens[self.at].kind == "doc" or self.peek("#"):
            token = self.next()
            if token.kind == "doc":
                docs.append(token.text)
                continue
            is_inner = self.take("!")
            self.expect("[")
            inner = self.balanced("[", "]")
            if is_inner:
                self.told.note(token.line, f"`#![{''.join(inner[:1])}(..)]` is taken off: it is of the whole file")
            else:
                found.append((inner, token.line))
        return docs, found

    def seen(self):
        """`pub`, `pub(crate)` or nothing. In a struct of a tuple a `(` behind `pub` may begin the type."""
        if not self.take("pub"):
            return ""
        if not self.peek("(") or self.tokens[self.at + 1].text not in ("crate", "self", "super", "in"):
            return "pub "
        self.next()
        line, words = self.line(), self.balanced("(", ")")
        if len(words) > 1:
            raise Refused(line, "write `pub(crate)`: the file is in src/")
        return f"pub({words[0]}) "

    def type(self):
        line = self.line()
        if self.take("("):
            parts = self.listed(")", self.type)
            # `(T)` is T, and `(T,)` a tuple.
            is_one = len(parts) == 1 and self.tokens[self.at - 2].text != ","
            return parts[0] if is_one else Type("tuple", None, parts, line)
        if self.take("["):
            part = self.type()
            if self.take("]"):
                return Type("slice", None, [part], line)
            self.expect(";")
            return Type("array", " ".join(self.balanced("[", "]")), [part], line)
        if self.take("&"):
            lifetime = self.next().text if self.tokens[self.at].kind == "lifetime" else None
            if self.take("mut"):
                raise Refused(line, "a `&mut` cannot be decoded: write the value itself")
            return Type("reference", lifetime, [self.type()], line)
        if self.take("{"):
            return Type("number", " ".join(self.balanced("{", "}")), [], line)
        if self.tokens[self.at].kind in ("lifetime", "number"):
            return Type(self.tokens[self.at].kind, self.next().text, [], line)
        if self.peek("dyn", "extern", "fn", "for", "impl", "unsafe", "*", "!"):
            word = "fn" if self.peek("extern", "for", "unsafe") else self.tokens[self.at].text
            is_marker = self.tokens[self.at - 2].text == "PhantomData"
            instead = "write `PhantomData<T>`" if is_marker else "use another type"
            raise Refused(line, f"a type with `{word}` cannot be encoded: {instead}")
        if self.peek("<"):
            instead = "write the type that it is, or a type parameter for it"
            raise Refused(line, f"a type of a trait is not supported: {instead}")
        if self.take("Self"):
            raise Refused(line, "write the type's name in the place of `Self`")
        self.take("::")
        path = [self.word()]
        while self.take("::") and not self.peek("<"):
            path.append(self.word())
        return Type("path", path[-1], self.listed(">", self.type) if self.take("<") else [], line, tuple(path))

    def bounded(self, name, bounds, line):
        """Takes off the bounds that the generated impls have, and refuses others."""
        for bound in parted(bounds, "+"):
            text = "".join(bound).split(">", 1)[1] if bound[0] == "for" else "".join(bound)
            if text.split("<")[0].split("::")[-1] in NEEDED:
                self.told.note(line, f"the bound `{text}` of `{name}` is taken off: {BOUNDS}")
            else:
                self.told.fault(line, f"remove the bound `{text}`, and write it where a function needs it: {BOUNDS}")

    def generic(self):
        """A lifetime, a type or a number that an item takes, and which of them it is."""
        line = self.line()
        if self.take("const"):
            name = self.name()
            self.expect(":")
            if "".join(self.until(",", "=", ">")) != "usize":
                self.told.fault(line, f"write `const {name}: usize`: only lengths can be parameters")
            self.no_default(name, line)
            return "const", name
        kind = self.tokens[self.at].kind
        name = self.next().text if kind == "lifetime" else self.name()
        if self.take(":"):
            bounds = self.until(",", "=", ">")
            if kind != "lifetime":
                self.bounded(name, bounds, line)
        self.no_default(name, line)
        return kind, name

    def no_default(self, name, line):
        if self.take("="):
            self.told.fault(line, f"remove the default of `{name}`, and write the parameter where the type is named")
            self.until(",", ">")

    def where(self):
        """The bounds behind `where`."""
        line = self.line()
        if self.take("where"):
            for part in parted(self.until("{", ";")):
                left, *right = parted(part, ":")
                self.bounded("".join(left), sum(right, []), line)

    def field(self, named):
        docs, attributes, change = self.heads("field", OF_FIELDS)
        seen, line = self.seen(), self.line()
        name = self.name() if named else None
        if named:
            self.expect(":")
        return Field(docs, seen, name, self.with_one_lifetime(self.type()), line, attributes, change)

    def head(self, word):
        """The name of an item, and the lifetime, the types and the numbers that it takes."""
        line, name = self.line(), self.name()
        found = self.listed(">", self.generic) if self.take("<") else []
        self.no_twice([text for _, text in found], line)
        kinds = ("lifetime", "name", "const")
        lifetimes, types, consts = ([text for kind, text in found if kind == of] for of in kinds)
        if {"'static", "'_"} & set(lifetimes):
            raise Refused(line, f"the {word} borrows the text from the input: write `{word} {name}<'a>`")
        if len(lifetimes) > 1:
            others = ", ".join(f"`{text}`" for text in lifetimes[1:])
            whole = f"{word} {name}<{', '.join([lifetimes[0], *types, *(f'const {text}: usize' for text in consts)])}>"
            instead = f"write `{whole}`, and `{lifetimes[0]}` for {others}"
            self.told.fault(line, f"a value borrows from one input, so it has one lifetime: {instead}")
        self.where()
        self.lifetimes = lifetimes
        return name, lifetimes[0] if lifetimes else "", types, tuple(consts), line

    def with_one_lifetime(self, type):
        """The type with the first lifetime in the place of the item's others, of which all is said already."""
        name = self.lifetimes[0] if type.name in self.lifetimes else type.name
        return type._replace(name=name, parts=list(map(self.with_one_lifetime, type.parts)))

    def no_twice(self, names, line):
        for place, name in enumerate(names):
            if name in names[:place]:
                self.told.fault(line, f"`{name}` is declared twice: rename one of them")

    def fields(self):
        """The fields of a struct or a variant, and of which kind it is."""
        line = self.line()
        if self.take("{"):
            fields = self.each("}", lambda: self.field(True))
            self.no_twice([field.name for field in fields], fields[-1].line if fields else line)
            return fields, "named"
        if self.take("("):
            fields = self.each(")", lambda: self.field(False))
            return [field._replace(name=str(i)) for i, field in enumerate(fields)], "tuple"
        return [], "unit"

    def struct(self, docs, derives, attributes, seen):
        name, lifetime, types, consts, line = self.head("struct")
        fields, kind = self.fields()
        self.where()
        if kind != "named":
            self.expect(";")
        return Struct(docs, derives, attributes, seen, name, lifetime, types, fields, kind, line, consts)

    def variant(self):
        docs, attributes, change = self.heads("variant", OF_VARIANTS)
        line, name = self.line(), self.name()
        fields, kind = self.fields()
        if any(field.seen for field in fields):
            self.told.fault(line, "the fields of a variant are as visible as the enum: remove the `pub`")
        return Variant(docs, attributes, name, fields, kind, self.number() if self.take("=") else None, line, change)

    def number(self):
        """The number of a variant."""
        sign, line = "-" if self.take("-") else "", self.line()
        token = self.next()
        if token.kind != "number" or not self.peek(",", "}"):
            instead = "write the number of the variant itself, or remove it"
            raise Refused(line, f"{instead}: the encoding uses the variants' order")
        return sign + token.text

    def enum(self, docs, derives, attributes, seen):
        name, lifetime, types, consts, line = self.head("enum")
        self.expect("{")
        variants = self.each("}", self.variant)
        self.no_twice([variant.name for variant in variants], line)
        if any(variant.number or variant.fields for variant in variants):
            for text in [text for text in attributes if text.startswith("#[repr")]:
                self.told.note(line, f"`{text}` is taken off: no byte depends on it")
                attributes = [other for other in attributes if other != text]
        return Enum(docs, derives, attributes, seen, name, lifetime, types, variants, line, consts)

    def refuse_module(self, is_test):
        """Each type that the script writes is in a file of its own, right in src/. What is said of those inside is said
        too."""
        line, name = self.line(), self.name()
        if self.peek(";"):
            raise Refused(line, f"remove `mod {name};`, and write `use crate::{name}::..;` for its types")
        start = self.at + 1
        if is_test or not {"struct", "enum"} & set(self.balanced("{", "}") if self.take("{") else []):
            raise Refused(line, self.elsewhere(f"mod {name}"))
        instead = f"write the declarations of `mod {name}` without the `mod`"
        self.told.fault(line, f"each type gets its own module in src/: {instead}")
        self.at, self.depth = start, self.depth + 1
        self.file("}")
        self.depth -= 1

    def use(self, before=()):
        """What a `use` line brings in, or a part of it behind these words."""
        line, path = self.line(), list(before)
        while True:
            if self.take("{"):
                return [use for uses in self.listed("}", lambda: self.use(path)) for use in uses]
            if self.take("*"):
                if path[:1] and path[0] in ("std", "core", "alloc", "bitcode", "serde"):
                    return []
                if path == ["super"] and self.depth:
                    self.told.fault(line, "remove the `use super::*`: all types of the file are at hand")
                    return []
                raise Refused(line, "name each type in the `use` line")
            path.append(self.word())
            if not self.take("::"):
                break
        if self.peek("as"):
            raise Refused(line, f"remove the `as`: `{path[-1]}` is the type's name in the generated file, too")
        path = path[:-1] if path[-1] == "self" and len(path) > 1 else path
        return [Use(path[-1], tuple(path), line)]

    def alias(self):
        """Another name for a type."""
        line, name = self.line(), self.name()
        found = self.listed(">", self.generic) if self.take("<") else []
        self.expect("=")
        type = self.type()
        self.expect(";")
        return Alias(name, [text for _, text in found], type, line)

    def const(self):
        """A number that has a name. Its value is found where a length names it."""
        line, name = self.line(), self.name()
        self.expect(":")
        type = self.until("=", ";")
        self.expect("=")
        words = self.until(";", opening="([{", closing=")]}")
        self.expect(";")
        if "".join(type).strip("ui") not in ("8", "16", "32", "64", "128", "size"):
            raise Refused(line, self.elsewhere("const"))
        return Const(name, words, line)

    def macro(self):
        """The path of a macro that is called here, with its `!`, or nothing."""
        end = self.at
        while self.tokens[end].kind == "name" and self.tokens[end + 1].text == "::":
            end += 2
        is_macro = self.tokens[end].kind == "name" and self.tokens[end + 1].text == "!"
        return "".join(token.text for token in self.tokens[self.at : end + 2]) if is_macro else ""

    def elsewhere(self, word):
        allowed = "only structs, enums, `use` lines, aliases and lengths are allowed"
        return f"{allowed}: move the `{word}` to another file of your crate"

    def item(self):
        """A declaration, or what else is in the file."""
        self.attributes.has_others = False
        docs, found = self.before()
        seen = self.seen()
        if self.peek("struct", "enum"):
            read = self.struct if self.next().text == "struct" else self.enum
            self.items.append(read(docs, *self.attributes.all(found, "type", ATTRIBUTES), seen))
        elif self.take("use"):
            self.take("::")
            self.uses += self.use()
            self.expect(";")
        elif self.peek("union"):
            raise Refused(self.line(), "unions are not supported: write an enum")
        elif self.take("mod"):
            self.refuse_module(any(inner[:1] == ["cfg"] and "test" in inner for inner, _ in found))
        elif self.take("type"):
            self.aliases.append(self.alias())
        elif self.peek("const") and self.tokens[self.at + 1].text not in ("fn", "unsafe", "_") and self.take("const"):
            self.consts.append(self.const())
        elif self.peek(*OTHERS):
            raise Refused(self.line(), self.elsewhere(self.tokens[self.at].text))
        elif self.macro():
            raise Refused(self.line(), self.elsewhere(self.macro()))
        elif not self.is_end() or docs or found:
            raise Refused(self.line(), f"expected a struct or an enum, found `{self.tokens[self.at].text}`")

    def file(self, close=None):
        """Reads all of the file, or of a module up to the mark that closes it: behind what is refused, the next item."""
        while not self.is_end() and not self.take(close):
            start, faults = self.at, len(self.told.faults)
            try:
                self.item()
            except (Refused, Passed) as why:
                self.told.faults += getattr(why, "faults", [])
                self.at = start
                self.faulty |= {*self.pass_item()}
            if len(self.told.faults) > faults and self.items:
                self.faulty.add(self.items[-1].name)
