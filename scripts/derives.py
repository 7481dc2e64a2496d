"""Derives that do not compile at the type of a field: scripts/new_type takes them off or refuses them."""

import glob
import re

from declarations import Enum, fields_of
from known_types import TYPES, of_text
from skipped import all_fields

FLOATS, HASHED = {"f32", "f64"}, {"HashMap", "HashSet"}
TEXTS = {"String", "BoxedStr", "RcStr", "ArcStr", "CowStr"}
LISTS = {"Vec", "BoxedSlice", "RcSlice", "ArcSlice", "VecDeque", "LinkedList", "ArrayVec", "BTreeSet", "BTreeMap"}
RANGES = {"Range", "RangeInclusive"}
# A tuple of more parts has only these traits.
MOST_PARTS, OF_LONG_TUPLES = 12, {"Clone", "Copy"}
# The types that do not have a trait, whatever they hold.
LACKING = {
    "Clone": {"Absent"},
    "Copy": {"Absent", "Box", "Rc", "Arc", "BinaryHeap", *TEXTS, *LISTS, *HASHED, *RANGES},
    "Debug": {"Absent"},
    "Default": {"Absent", "Box", "Rc", "Arc", "BinaryHeap", "Result", "Ordering", "RangeInclusive", *TEXTS,
                *LISTS - {"ArrayVec"}, *HASHED,
                *(name for name in TYPES if name.startswith(("NonZero", "Ip", "Socket")))},
    "Eq": {"Absent", "BinaryHeap", *FLOATS},
    "Hash": {"Absent", "BinaryHeap", *FLOATS, *HASHED},
    "Ord": {"Absent", "BinaryHeap", *FLOATS, *HASHED, *RANGES},
    "PartialEq": {"Absent", "BinaryHeap"},
    "PartialOrd": {"Absent", "BinaryHeap", *HASHED, *RANGES},
}
# The types that have a trait, whatever they hold.
HAVING = {"Default": {"ArrayVec", "Option", "PhantomData"}, "Clone": {"Rc", "RcSlice", "Arc", "ArcSlice"}}


class Derives:
    """Which derives the types of a file keep."""

    def __init__(self, own, told, folder):
        self.own, self.told, self.folder = own, told, folder
        # The derives that each type keeps, and those that were taken off.
        self.kept, self.off = {}, {}

    def lacking(self, type, trait):
        """The type in this one that lacks the trait; nothing where none does."""
        if type.kind == "path" and type.name in self.own:
            kept = self.kept.get(type.name, self.own[type.name].derives)
            if kept is not None and trait not in kept and not self.is_by_hand(type.name, trait):
                return type
        is_long = type.kind == "tuple" and len(type.parts) > MOST_PARTS and trait not in OF_LONG_TUPLES
        if is_long or type.kind == "path" and type.name in LACKING[trait]:
            return type
        if type.name in HAVING.get(trait, ()) or type.name == "PhantomData" or type.kind == "reference":
            return None
        return next(filter(None, (self.lacking(part, trait) for part in type.parts)), None)

    def is_by_hand(self, name, trait):
        """Whether a file of the crate has the impl."""
        for file in glob.glob(f"{self.folder}/src/**/*.rt", recursive=True):
            with open(file) as opened:
                if re.search(rf"\b{trait} for {name}\b", opened.read()):
                    return True
        return False

    def of(self, item):
        """The item with the derives that compile."""
        derives = []
        for field in fields_of(item):
            self.array_vecs(item, field.type)
        for trait in item.derives:
            fields = fields_of(item) if isinstance(item, Enum) else all_fields(item)
            fields = [] if trait == "Default" and isinstance(item, Enum) else fields
            found = [(field, self.lacking(field.type, trait)) for field in fields if trait in LACKING]
            field, type = next(((field, type) for field, type in found if type), (None, None))
            if type is None:
                derives.append(trait)
            else:
                self.at(item, trait, field, type)
        if "Hash" in derives and "Eq" not in derives and not self.is_by_hand(item.name, "Eq"):
            instead = f"derive `PartialEq, Eq` for `{item.name}` too, or remove `Hash`"
            self.told.fault(item.line, f"`Hash` asks for `Eq` here: {instead}")
        if isinstance(item, Enum):
            item = self.default(item, derives)
        self.kept[item.name], self.off[item.name] = set(derives), set(item.derives) - set(derives)
        return item._replace(derives=derives)

    def array_vecs(self, item, type):
        """Refuses an `ArrayVec` whose elements have no default."""
        for part in type.parts:
            self.array_vecs(item, part)
        if type.kind == "path" and type.name == "ArrayVec" and type.name not in self.own:
            lacking = type.parts[0] if type.parts[0].name in item.types else self.lacking(type.parts[0], "Default")
            if lacking:
                why = f"the elements of an `ArrayVec` need `Default`, which `{of_text(lacking)}` does not have"
                self.told.fault(type.line, f"{why}: write `Vec<{of_text(type.parts[0])}>`")

    def at(self, item, trait, field, type):
        """What is said of a derive that does not compile at the type in a field."""
        text = of_text(type)
        if trait == "Default" or trait in self.off.get(type.name, ()):
            self.told.note(item.line, f"`derive({trait})` of `{item.name}` is taken off: `{text}` has no `{trait}` here"
                                      + (". Write a function that makes the value" if trait == "Default" else ""))
        elif type.name in self.own:
            instead = f"derive it for `{type.name}` too, or write its impl in another file first"
            self.told.fault(field.line, f"`{text}` has no `{trait}`: {instead}")
        else:
            self.told.fault(field.line, f"`{text}` has no `{trait}`: remove `{trait}` from the derive of `{item.name}`")

    def default(self, enum, derives):
        """The enum, whose variants are marked as the one that `default` gives only where it has that."""
        marked = [variant for variant in enum.variants if "#[default]" in variant.attributes]
        if "Default" in derives and not marked:
            why = f"no variant of `{enum.name}` is marked with `#[default]`"
            self.told.fault(enum.line, f"{why}: mark one, or remove `Default`")
        if "Default" not in derives and marked:
            self.told.note(marked[0].line, f"`#[default]` is taken off: `{enum.name}` does not derive `Default`")
            kept = [[text for text in variant.attributes if text != "#[default]"] for variant in enum.variants]
            pairs = zip(enum.variants, kept)
            return enum._replace(variants=[variant._replace(attributes=attributes) for variant, attributes in pairs])
        return enum
