"""Which types of a file are written for the second format: recursive ones, those with `#[second_format]`, and what
contains these or is inside them."""

import second_format_proofs
from known_types import names_in
from declarations import fields_of
from second_format import Group
from second_format_checks import checked
from second_format_text import code, specs

MARK = "#[second_format]"


def inside_of(items):
    """The names of the file's types that are inside each of them, however deep."""
    named = {item.name: item for item in items}
    direct = {
        item.name: {
            name
            for field in fields_of(item)
            for name in names_in(field.type)
            if name in named and name not in item.types
        }
        for item in items
    }
    found = {name: set(names) for name, names in direct.items()}
    while True:
        wider = {name: names.union(*(found[other] for other in names)) for name, names in found.items()}
        if wider == found:
            return found
        found = wider


def refuse_of_first(items, told):
    """Refuses what only types of the first format have."""
    for item in items:
        if item.types or item.consts:
            told.fault(
                item.line,
                (
                    f"`{item.name}` is written for the second format, which has no types with parameters: write one"
                    " without them"
                ),
            )
        if any(text.startswith("#[check") for text in item.attributes):
            told.fault(
                item.line,
                f"`{item.name}` is written for the second format, which asks no check: remove the `#[check(..)]`",
            )
        if getattr(item, "skipped", ()):
            told.fault(
                item.line,
                f"`{item.name}` is written for the second format, which skips no field: remove the field",
            )


def of_second(items, inside):
    """The names of the types that are written for the second format, and of those that are inside them."""
    second = {item.name for item in items if item.name in inside[item.name] or MARK in item.attributes}
    second |= {name for name, names in inside.items() if names & second}
    return second, set().union(*(inside[name] for name in second))


def parted_by_format(items, told):
    """The types for the first format, and the groups of those for the second one."""
    inside = inside_of(items)
    second, held = of_second(items, inside)
    refuse_of_first([item for item in items if item.name in second | held], told)
    for item in items:
        both = sorted(inside[item.name] & held) if item.name not in second | held else []
        if both:
            told.fault(
                item.line,
                (
                    f"`{both[0]}` is inside a type of the second format: move `{item.name}` and a copy of `{both[0]}`"
                    " to another file"
                ),
            )
    refuse_endless(items, told)
    chosen = [item for item in items if item.name in second | held]
    groups = []
    for item in chosen:
        near = {item.name} | inside[item.name]
        joined = [group for group in groups if near & {name for one in group for name in {one.name} | inside[one.name]}]
        groups = [group for group in groups if group not in joined]
        groups.append([*(one for group in joined for one in group), item])
    order = {item.name: place for place, item in enumerate(items)}
    return [item for item in items if item not in chosen], [
        sorted(group, key=lambda item: order[item.name]) for group in groups
    ]


def refuse_endless(items, told):
    """Refuses a type that contains itself with nothing between, so that no value would end."""
    named = {item.name: item for item in items}

    def bare(name, above):
        for field in fields_of(named[name]):
            inner = field.type.name if field.type.kind == "path" and not field.type.parts else None
            if inner in named[name].types:
                continue
            if inner == above[0]:
                told.fault(field.line, f"`{above[0]}` contains itself: write `Box<{above[0]}>`")
            elif inner in named and inner not in above:
                bare(inner, (*above, inner))

    for name in named:
        bare(name, (name,))


def of_group(items, faulty, told, folder):
    """The items of a group as they are written, after all that the second format does not have of them is told."""
    items = [item._replace(attributes=[text for text in item.attributes if text != MARK]) for item in items]
    return checked(items, faulty, told, folder)


def group_files(items, crate):
    """The files of a group by their paths in the crate's folder, and the names of its modules there."""
    group = Group(items, crate)
    texts = {f"src/{group.module}.rt": code(group), f"specs/{group.specs}.antt": specs(group)}
    texts |= {f"proofs/{name}": text for name, text in second_format_proofs.files(group).items()}
    return texts, group


def lines_of(groups):
    """What the files of the crate get for the groups."""
    return (
        "".join(f"pub mod {group.module};\n" for group in groups)
        + "-- specs/Lib.antt\n"
        + "".join(f"pub mod {group.specs}\n" for group in groups)
        + ("-- proofs/Lib.antt\n" if any(group.lemmas for group in groups) else "")
        + "".join(f"pub mod {group.lemmas}\n" for group in groups if group.lemmas)
    )


def libraries_of(crates, groups):
    """The crates that types of both formats need."""
    return {*crates}.union(*(group.libraries() for group in groups))
