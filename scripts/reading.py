"""Reads a file of declarations: what scripts/new_type and scripts/second_format do first."""

from declarations import Parser
from lengths import WrittenOut
from names import TAKEN, module_of, refuse_names, refuse_unused
from paths import Paths, imports_of, is_macro, sized
from skipped import set_aside


def read(text, told):
    """The types that the text declares, without names for types and lengths, what it imports, and the types with
    faults."""
    parser = Parser(text, told)
    parser.file()
    items = WrittenOut(parser.consts, parser.aliases, told).items(parser.items, parser.faulty)
    items = [set_aside(item, parser.faulty, told) for item in items]
    declared = {item.name: ("crate", module_of(item.name), item.name) for item in items}
    uses = [use for use in parser.uses if declared.get(use.name) != use.path and not is_macro(use, declared)]
    imports, named = imports_of(uses, parser.faulty, told)
    refuse_names(items, named, told)
    Paths(items, imports, named, TAKEN, told).all(items, parser.faulty)
    refuse_unused(items, parser.faulty, told)
    if not items and not told.faults:
        told.fault(1, "the file declares no struct or enum")
    return sized(items, imports, told), imports, parser.faulty
