"""The types of fields that scripts/new_type knows: which of them the library writes and reads."""

from collections import namedtuple

from declarations import fields_of, word_of
from tokens import Refused

# A type of one's own: where it is imported from, its declaration if that is in the file, how many types its decoder names, one
# where it is imported, what it is as a key (keys.py), what it derives, as far as that is known, and whether it has coders of its own
# (closed.py).
Own = namedtuple("Own", "path item types key derives is_closed", defaults=(frozenset(), None, False))
# A type that the library writes and reads: where it is imported from, how many types and how many numbers it takes, and whether it
# can be a set's element or a map's key ("parts": if what it holds can).
Known = namedtuple("Known", "path types numbers key")
INTEGERS = [f"{sign}{width}" for sign in "ui" for width in ("8", "16", "32", "64", "128", "size")]
TYPES = {
    **{name: Known(None, 0, 0, "yes") for name in ["bool", "char", "String", *INTEGERS]},
    **{f"NonZero{name.capitalize()}": Known(f"std::num::NonZero{name.capitalize()}", 0, 0, "yes") for name in INTEGERS},
    **{name: Known(None, 0, 0, "no") for name in ["f32", "f64"]},
    "BoxedStr": Known("std::boxed::BoxedStr", 0, 0, "yes"),
    "RcStr": Known("std::rc::RcStr", 0, 0, "yes"),
    "ArcStr": Known("std::sync::ArcStr", 0, 0, "yes"),
    "CowStr": Known("std::borrow::CowStr", 0, 0, "yes"),
    "ArrayString": Known("arrayvec::ArrayString", 0, 1, "yes"),
    "Vec": Known(None, 1, 0, "parts"),
    "BoxedSlice": Known("std::boxed::BoxedSlice", 1, 0, "parts"),
    "RcSlice": Known("std::rc::RcSlice", 1, 0, "parts"),
    "ArcSlice": Known("std::sync::ArcSlice", 1, 0, "parts"),
    "VecDeque": Known("std::collections::VecDeque", 1, 0, "parts"),
    "LinkedList": Known("std::collections::LinkedList", 1, 0, "parts"),
    "ArrayVec": Known("arrayvec::ArrayVec", 1, 1, "parts"),
    "BinaryHeap": Known("std::collections::BinaryHeap", 1, 0, "no"),
    "BTreeSet": Known("std::collections::BTreeSet", 1, 0, "parts"),
    "HashSet": Known("std::collections::HashSet", 1, 0, "no"),
    "BTreeMap": Known("std::collections::BTreeMap", 2, 0, "parts"),
    "HashMap": Known("std::collections::HashMap", 2, 0, "no"),
    "Option": Known(None, 1, 0, "parts"),
    "Result": Known(None, 2, 0, "parts"),
    "Box": Known(None, 1, 0, "parts"),
    "Rc": Known("std::rc::Rc", 1, 0, "parts"),
    "Arc": Known("std::sync::Arc", 1, 0, "parts"),
    "Wrapping": Known("std::num::Wrapping", 1, 0, "parts"),
    "Saturating": Known("std::num::Saturating", 1, 0, "parts"),
    "Ordering": Known("std::cmp::Ordering", 0, 0, "yes"),
    "Range": Known("std::ops::Range", 1, 0, "no"),
    "RangeInclusive": Known("std::ops::RangeInclusive", 1, 0, "no"),
    "PhantomData": Known("std::marker::PhantomData", 1, 0, "parts"),
    "Duration": Known("std::time::Duration", 0, 0, "no"),
    "Uuid": Known("uuid::Uuid", 0, 0, "yes"),
    **{name: Known(f"std::net::{name}", 0, 0, "yes") for name in ["Ipv4Addr", "Ipv6Addr", "IpAddr"]},
    **{name: Known(f"std::net::{name}", 0, 0, "yes") for name in ["SocketAddrV4", "SocketAddrV6", "SocketAddr"]},
    "Absent": Known("bitcode::Absent", 1, 0, "no"),
}
# Types that borrow from the input, and take its lifetime first.
BORROWING = {"CowStr"}
# The first type of these has to be a key, and to have this derive.
KEYED = {"BTreeSet": "Ord", "HashSet": "Hash", "BinaryHeap": "Ord", "BTreeMap": "Ord", "HashMap": "Hash"}
INSTEAD = {
    "str": "write `&'a str`, `String`, `BoxedStr` or `RcStr`",
    "Cow": "write `CowStr<'a>`, `&'a str` or `String`",
    "Cell": "write the value itself",
    "RefCell": "write the value itself",
    "PathBuf": "write `String`",
    "OsString": "write `String` or `Vec<u8>`",
    **{f"Atomic{name.title()}": f"write `{name}`" for name in ["bool", *INTEGERS] if "128" not in name},
    "SystemTime": "write a `Duration` since a time of your choice",
    "Instant": "write a `Duration` since a time of your choice",
    "NonZero": "write `NonZeroU8` and so on",
    "c_char": "write `i8` or `u8`, as the platform has it",
    **{f"c_{name}": f"write `{type}`" for name, type in {
        "schar": "i8", "uchar": "u8", "short": "i16", "ushort": "u16", "int": "i32", "uint": "u32", "longlong": "i64",
        "ulonglong": "u64", "float": "f32", "double": "f64"}.items()},
    **{f"c_{name}": f"write `{type}64`, or `{type}32` where it has 4 bytes" for name, type in {"long": "i", "ulong": "u"}.items()},
    "f16": "write `f32`",
    "f128": "write `f64`",
    "IndexMap": "write `Vec<(K, V)>`",
    **{name: "write the value itself"
       for name in "LazyCell LazyLock ManuallyDrop Mutex OnceCell OnceLock Pin Reverse RwLock".split()},
    "Weak": "write an index or an id of what it points to",
    "Path": "write `String`",
    "OsStr": "write `String` or `Vec<u8>`",
    "CStr": "write `Vec<u8>`",
    "CString": "write `Vec<u8>`",
    "Bytes": "write `Vec<u8>`",
    "BytesMut": "write `Vec<u8>`",
    "IndexSet": "write `Vec<T>`",
    "SmallVec": "write `Vec<T>`",
    "TinyVec": "write `Vec<T>`",
    **{name: "write `HashMap<K, V>`" for name in "AHashMap DashMap FxHashMap".split()},
    **{name: "write `HashSet<T>`" for name in "AHashSet DashSet FxHashSet".split()},
    **{name: "write `String`" for name in "CompactString EcoString SmartString SmolStr Url".split()},
    **{name: "write the seconds or milliseconds since a time of your choice, as an `i64`"
       for name in "DateTime NaiveDate NaiveDateTime OffsetDateTime PrimitiveDateTime Timestamp".split()},
}
# A tuple, a struct and a variant have no more fields than these.
MOST_FIELDS = 16
# The borrow checker covers no decoder that names more types than so many. A struct in between ends that. Of a struct's decoder fewer are
# left, so that a type which holds it in a list or an option can have a struct in between too.
MOST_TYPES, MOST_LEFT = 32, 24


def is_number(type):
    """Whether the type is one of numbers, which also `bool` and `char` count as here."""
    return type.kind == "path" and type.name in (*INTEGERS, "f32", "f64", "bool", "char")


def of_text(type):
    """The type as Rattle writes it."""
    if type.kind == "reference":
        return f"&{type.name} {of_text(type.parts[0])}"
    if type.kind == "tuple":
        return "(" + ", ".join(map(of_text, type.parts)) + ("," if len(type.parts) == 1 else "") + ")"
    if type.kind == "array":
        return f"[{of_text(type.parts[0])}; {type.name}]"
    if type.kind == "slice":
        return f"[{of_text(type.parts[0])}]"
    return type.name + (f"<{', '.join(map(of_text, type.parts))}>" if type.parts else "")


def is_never(item):
    """Whether this is an enum without variants."""
    return word_of(item) == "enum" and not item.variants


def is_unsized(type):
    """Whether this is a text or a slice, which only a pointer holds."""
    return type.kind == "slice" or type.kind == "path" and type.name == "str"


def types_in(type, own):
    """How many types the type's decoder names."""
    if type.name == "PhantomData":
        return 1
    here = own[type.name].types if type.kind == "path" and type.name in own else 0 if type.kind in ("tuple", "number", "lifetime", "reference") else 1
    return here + sum(types_in(part, own) for part in type.parts)


def can_be_key(type, own, words):
    """Whether the type can be a set's element or a map's key; of one's own types those that are all this as keys."""
    if type.kind == "tuple":
        return len(type.parts) <= 12 and all(can_be_key(part, own, words) for part in type.parts)
    if type.kind != "path":
        return type.kind in ("reference", "number", "lifetime") or all(can_be_key(part, own, words) for part in type.parts)
    if type.name in own:
        return words <= own[type.name].key
    known = TYPES.get(type.name)
    return bool(known) and (known.key == "yes" or known.key == "parts" and all(can_be_key(part, own, words) for part in type.parts))


def could_be_key(item, own):
    """Whether a type of one's own is a key if it derives what keys derive, and the others in its fields are keys."""
    if word_of(item) == "enum":
        return len(item.variants) > 1 and not fields_of(item)
    words = frozenset({"Key", "Ord", "Hash"})
    keys = {name: known._replace(key=words) for name, known in own.items()}
    fits = all(can_be_key(field.type, keys, words) for field in fields_of(item))
    return fits and not (item.types or item.consts or item.skipped)


def no_key(type, own, derive):
    """What to write where the type is no key, since one of one's own in it is none; nothing where that is not why."""
    item = own[type.name].item if type.kind == "path" and type.name in own else None
    if item and not could_be_key(item, own):
        return ""
    for part in type.parts:
        if no_key(part, own, derive):
            return no_key(part, own, derive)
    if not item:
        return ""
    missing = [word for word in ("PartialEq", "Eq", "PartialOrd", "Ord", *(("Hash",) if derive == "Hash" else ())) if word not in item.derives]
    if missing:
        return f"derive `{', '.join(missing)}` for `{type.name}` too"
    return ""


class Checker:
    """Whether the library writes and reads the types of an item's fields; and what they are imported from."""

    def __init__(self, item, own, told):
        self.item, self.own, self.told, self.imports, self.crates = item, own, told, set(), set()
        # How often it was said that a type is no key.
        self.no_keys = 0

    def check_all(self):
        """Checks the types of all fields."""
        for field in fields_of(self.item):
            self.check_parts([field.type])

    def check_parts(self, parts):
        """Checks each of the types, whatever is said of the others, and tells whether nothing is said of any."""
        faults = len(self.told.faults)
        for part in parts:
            with self.told.going_on():
                self.check(part)
        return len(self.told.faults) == faults

    def check(self, type):
        """Stops at a type that the library does not write and read."""
        if type.kind == "reference":
            self.reference(type)
        elif type.kind == "slice":
            raise Refused(type.line, "slices cannot be decoded: write `Vec<T>`, or `BoxedSlice<T>`")
        elif type.kind == "array":
            self.array(type)
        elif type.kind == "tuple":
            if len(type.parts) > MOST_FIELDS:
                self.told.fault(type.line, "a tuple has at most 16 fields: write a tuple of tuples")
            self.check_parts(type.parts)
        elif type.kind == "path":
            self.path(type)
        else:
            raise Refused(type.line, f"expected a type, found `{type.name}`")

    def reference(self, type):
        inner = type.parts[0]
        if inner.kind != "path" or inner.name != "str":
            raise Refused(type.line, "only references to texts can be decoded: write the value itself, `Box<T>`, `Vec<T>` or `&'a str`")
        if type.name != self.item.lifetime or not type.name:
            word, lifetime = word_of(self.item), self.item.lifetime or "'a"
            raise Refused(type.line, f"the {word} borrows the text from the input: write `{word} {self.item.name}<{lifetime}>` and `&{lifetime} str`")

    def borrowing(self, type):
        """Stops where the type does not borrow from the item's input."""
        lifetime = self.item.lifetime or "'a"
        if [part.name for part in type.parts if part.kind == "lifetime"] != [self.item.lifetime]:
            word = word_of(self.item)
            raise Refused(type.line, f"the {word} borrows the text from the input: write `{word} {self.item.name}<{lifetime}>` and `{type.name}<{lifetime}>`")

    def array(self, type):
        element = type.parts[0]
        if any(name in self.item.types for name in names_in(element)):
            raise Refused(type.line, "arrays of a type parameter are not supported, since some would be too large: write `Vec<T>`")
        self.check(element)

    def path(self, type):
        if (type.line, type.name) in self.told.blamed:
            self.check_parts(type.parts if "<" in INSTEAD.get(type.name, "") else [])
            return
        if type.name in self.item.types and not type.parts:
            return
        if type.name == self.item.name:
            raise Refused(type.line, f"`{type.name}` is recursive: use `scripts/second_format` (docs/GUIDE.md)")
        if type.name in self.own:
            self.own_type(type)
            return
        known = TYPES.get(type.name)
        if not known:
            self.unknown(type)
            self.check_parts([part for part in type.parts if part.kind == "path" and not is_unsized(part)])
            return
        if type.name in BORROWING:
            self.borrowing(type)
        numbers = [part for part in type.parts if part.kind == "number"]
        types = [part for part in type.parts if part.kind != "number" and not (part.kind == "lifetime" and type.name in BORROWING)]
        if (len(types), len(numbers)) != (known.types, known.numbers):
            raise Refused(type.line, f"`{type.name}` takes {known.types} types and {known.numbers} numbers here")
        if known.path:
            self.imports.add(known.path)
            self.crates |= {known.path.split("::")[0]} - {"std"}
        if type.name in ("PhantomData", "Absent"):
            self.marker(type)
            return
        others = self.no_keys - len(self.told.faults)
        self.check_parts(types[:1])
        # Whether nothing else is said of the first type than that it holds what is no key.
        is_checked = others == self.no_keys - len(self.told.faults)
        self.check_parts(types[1:])
        if is_checked and type.name in KEYED and not self.is_replaced(types[0]):
            self.key(type, types)

    def is_replaced(self, type):
        """Whether it is said that another type is to be written for one in this, where none of these names is known."""
        is_blamed = (type.line, type.name) in self.told.blamed and type.name not in TYPES
        return is_blamed or any(map(self.is_replaced, type.parts))

    def marker(self, type):
        """A type that holds no value of what it names."""
        if type.name == "Absent":
            self.absent(type.parts[0])
        self.marked(type.parts[0])

    def key(self, type, types):
        """Stops at a set or a map whose elements are no keys."""
        if not can_be_key(types[0], self.own, {"Key", KEYED[type.name]}):
            element = of_text(types[0] if len(types) == 1 else types[0]._replace(kind="tuple", parts=types))
            instead = no_key(types[0], self.own, KEYED[type.name]) or f"write `Vec<{element}>`"
            self.told.fault(type.line, f"`{of_text(types[0])}` is not a key (docs/CODERS.md, \"Keys\"): {instead}")
            self.no_keys += 1

    def absent(self, type):
        """Stops at a type that has values."""
        item = self.own[type.name].item if type.kind == "path" and type.name in self.own else None
        if type.kind != "path" or type.name not in self.own or item and not is_never(item):
            raise Refused(type.line, "`Absent` holds an enum without variants: write the value itself")

    def marked(self, type):
        """Sees that what a marker names is there; nothing of it is written."""
        if type.kind == "reference" and type.name not in (self.item.lifetime or "'static", "'static"):
            raise Refused(type.line, "write a lifetime of the item, or `'static`")
        if type.kind == "path" and type.name in self.own:
            self.imports.add(self.own[type.name].path)
        elif type.kind == "path" and type.name in TYPES:
            self.imports |= {TYPES[type.name].path} - {None}
            self.crates |= {(TYPES[type.name].path or "std").split("::")[0]} - {"std"}
        elif type.kind == "path" and type.name not in (*self.item.types, *self.item.consts):
            raise Refused(type.line, f"`{type.name}` is not defined: use a type that is, or remove the marker")
        for part in type.parts:
            self.marked(part)

    def unknown(self, type):
        """Says what to write in the place of a type that the library does not write."""
        instead, name = self.instead(type), type.name
        if instead:
            self.told.fault(type.line, f"`{name}` is not supported: {instead}")
        elif "*" not in self.own:
            instead = f"declare it in this file, or bring it in with `use crate::..::{name};`"
            self.told.fault(type.line, f"`{name}` is not known here: {instead}")

    def instead(self, type):
        held = [part for part in type.parts if part.kind != "lifetime"]
        if type.name == "Cow" and held and held[0].kind == "slice":
            return f"write `BoxedSlice<{of_text(held[0].parts[0])}>` or `Vec<{of_text(held[0].parts[0])}>`"
        if type.name == "Cow" and held and not is_unsized(held[0]):
            return "write the value itself"
        return INSTEAD.get(type.name)

    def own_type(self, type):
        path, item, *_ = self.own[type.name]
        if item and is_never(item):
            raise Refused(type.line, f"`{type.name}` has no values: write `Absent<{type.name}>`")
        taken = len(type.parts) if not item else len(item.types) + len(item.consts) + bool(item.lifetime)
        if len(type.parts) != taken:
            raise Refused(type.line, f"`{type.name}` takes {taken} parameters")
        self.imports.add(path)
        for part in type.parts:
            if part.kind == "lifetime":
                lifetime, head = self.item.lifetime or "'a", "" if self.item.lifetime else f"`{word_of(self.item)} {self.item.name}<'a>` and "
                if part.name != self.item.lifetime:
                    raise Refused(type.line, f"write {head}`{lifetime}` for `{part.name}`")
            elif part.kind != "number" and part.name not in self.item.consts:
                self.check_parts([part])


def names_in(type):
    """The names of types, lifetimes and numbers in the type."""
    return [type.name, *(name for part in type.parts for name in names_in(part))]

