"""What is refused of types for the second format, with the line and what to write instead."""

import re

import second_format_proofs
import second_format_text
from declarations import fields_of, with_fields
from derives import Derives
from known_types import Checker, Own, is_never
from names import CHOOSE
from second_format import Fields, is_key, rust
from second_format_std import OTHERS
from structs import QUOTED
from tokens import Refused, Told

# The names of types that the files of a group take from the library.
LIBRARYS = {
    name
    for groups in (
        second_format_text.OF_SPECS,
        second_format_text.OF_CODE,
        second_format_text.OF_LIBRARY,
        second_format_proofs.OF_ANSWERS,
        second_format_proofs.OF_LEMMAS,
    )
    for _, names in groups
    for name in names.split()
    if re.fullmatch(r"[A-Z]\w*", name)
}


class SecondChecker(Checker):
    """Whether the second format has the types of an item's fields. The group sees to what is recursive."""

    def __init__(self, item, own, told, lacking):
        super().__init__(item, own, told)
        # the type in a type that lacks a trait
        self.lacking = lacking

    def path(self, type):
        if type.name == self.item.name:
            self.own_type(type)
        else:
            super().path(type)

    def own_type(self, type):
        item = self.own[type.name].item
        if item and is_never(item):
            raise Refused(type.line, f"`{type.name}` has no values: remove it")
        super().own_type(type)

    def unknown(self, type):
        instead = OTHERS.get(type.name) or self.instead(type)
        self.told.fault(
            type.line,
            f"`{type.name}` is not supported in the second format yet: {instead or 'declare it in this file'}",
        )

    def key(self, type, types):
        if type.name == "BinaryHeap":
            lacking = self.lacking(types[0], "Ord")
            if lacking:
                why = f"the elements of a `BinaryHeap` need `Ord`, which `{rust(lacking)}` does not have"
                raise Refused(type.line, f"{why}: write `Vec<{rust(types[0])}>`")
            return
        if is_key(types[0]):
            return
        held = "its elements" if len(types) == 1 else "structs of a key and a value"
        raise Refused(
            type.line,
            f"`{rust(types[0])}` is no key in the second format, which has integers of a fixed width, `char`, `String`,"
            f" `ArrayString` and `Uuid`: write a `Vec` of {held}",
        )


def refuse_heads(items, told):
    """Refuses names and attributes that a type of the second format cannot have, and types without values."""
    for item in items:
        for name in {item.name} & {*LIBRARYS, *QUOTED}:
            told.fault(item.line, f"`{name}` is a name that the generated files use for something else: {CHOOSE}")
        if is_never(item):
            told.fault(item.line, f"`{item.name}` has no variants, so that no bytes encode a value: remove it")
        changing = [one for one in (fields_of(item) + getattr(item, "variants", [])) if one.change]
        if changing:
            told.fault(
                changing[0].line,
                f"`{item.name}` is written for the second format, which has no versions: remove `#[since(..)]` and"
                " `#[until(..)]`",
            )


def derived(items, own, told, folder):
    """The items with the derives that compile. One that a type lacks those that hold it lack, too."""
    while True:
        quiet = Told()
        derives = Derives(own, quiet, folder)
        found = [derives.of(item) for item in items]
        if found == items or quiet.faults:
            break
        told.notes += quiet.notes
        items = found
        own = {name: one._replace(derives=set(item.derives)) for (name, one), item in zip(own.items(), items)}
    told.faults += quiet.faults
    return items


def with_one_lifetime(items):
    """The items, each with the first one's lifetime in the place of its own."""
    first = next((item.lifetime for item in items if item.lifetime), None)

    def of_type(type, own):
        name = first if type.name == own and type.kind in ("lifetime", "reference") else type.name
        return type._replace(name=name, parts=[of_type(part, own) for part in type.parts])

    def of_item(item):
        if not item.lifetime or item.lifetime == first:
            return item
        changed = lambda fields: [field._replace(type=of_type(field.type, item.lifetime)) for field in fields]
        return with_fields(item, changed)._replace(lifetime=first)

    return list(map(of_item, items))


def checked(items, faulty, told, folder):
    """The items as a group has them, after all that is refused of them is told. Of types that are refused in other ways
    no more is told than of their fields."""
    own = {item.name: Own(item.name, item, 1, frozenset(), {*item.derives}) for item in items}
    refuse_heads(items, told)
    items = with_one_lifetime(derived(items, own, told, folder))
    own = {name: Own(name, None, 1, frozenset()) for name in faulty} | {
        item.name: one._replace(item=item) for item, one in zip(items, own.values())
    }
    plain = [item for item in items if not (item.types or item.consts)]
    group = Fields(plain)

    def is_told(type):
        """Whether it has a type of which a fault is told already."""
        is_refused = type.name in own and type.name not in (*group.named, *group.own)
        return is_refused or (type.line, type.name) in told.blamed or any(map(is_told, type.parts))

    lacking = Derives(own, Told(), folder).lacking
    for item in items:
        checker = SecondChecker(item, own, told, lacking)
        fields = [field for field in fields_of(item) if checker.check_parts([field.type]) and not is_told(field.type)]
        if item in plain:
            group.refuse(item, fields, told)
    return items
