"""Earlier versions of types: what scripts/new_type writes so that values are read that were sealed as such."""

import glob
import os
import re
from string import Template

from changes import is_there
from declarations import Struct, fields_of, with_fields
from defaults import default_of
from keys import with_names
from known_types import Checker, Own, names_in, of_text
from names import module_of
from private import is_private
from structs import ORDINALS, arguments, bounds, halved, parameter, places, quoted
from tokens import Refused
from variants import LETTERS

# The containers whose values are made from earlier ones, and the place of the type in them that may have changed.
CONTAINERS = {"Box": 0, "Option": 0, "Vec": 0, "HashMap": 1, "BTreeMap": 1}

ALIAS = """
/// `$name` as it was in version $version.
pub type $before$life = $tuple;
"""
EARLIER = """
impl$life Earlier<$version> for $name$life {
${ghost_use}    type Before = $before$life;

    ghost is_upgrade = { $relation };

    fn upgrade($alloc: Global, $pattern: $before$life) -> Result<Self, Error> {
        $body
    }
}
"""
OPENS = """
/// Opens version $version of `$name`.
pub struct ${name}Version$version {}

impl<$input> ReadsVersions<$input, $name$life> for ${name}Version$version {
    type Inside = ();

    ghost includes = { ⟦<Version<$version> as ReadsVersions<$input, $name$life>>⟧.includes };

    ghost opens = { ⟦<Version<$version> as ReadsVersions<$input, $name$life>>⟧.opens };

    ghost refuses = { ⟦<Version<$version> as ReadsVersions<$input, $name$life>>⟧.refuses };

    fn includes(version: u16) -> bool {
        version == $version
    }

    fn open_earlier(alloc: Global, expected: &Expected, bytes: &$input [u8]) -> Result<$name$life, OpenError> {
        open_version::<Version<$version>, $name$life>(alloc, expected, bytes)
    }
}
"""
VERSIONED = """
impl$life Versioned for $name$life {
    type Versions = $opening;

    type Numbers = $versions;
}
"""


def before_name(name, version):
    """The name of the type as it was in the version."""
    return f"{name}Of{version}"


def listed(versions):
    """The types in pairs, the first one outside."""
    first, *rest = versions
    return f"({first}, {listed(rest)})" if rest else first


def text_of(folder, path):
    """The file of an imported type, as far as it is there."""
    file = f"{folder}/src/{'/'.join(path[1:-1]) or 'lib'}.rt"
    if not os.path.exists(file):
        return ""
    with open(file) as opened:
        return opened.read()


def versions_in(folder, path):
    """The earlier versions that an imported type is read from, and what it was in each."""
    found = re.findall(
        rf"(?ms)^impl\S* Earlier<(\d+)> for {path[-1]}\b.*?^    type Before = (\w+)", text_of(folder, path)
    )
    return {int(version): name for version, name in found}


def before_path(folder, path, name):
    """Where an imported type is as it was, under that name."""
    is_alias = re.search(rf"\btype {name}\b", text_of(folder, path))
    return (*path[:-1], name) if is_alias else ("crate", module_of(name), name)


def parts_of(item):
    """The fields and the variants of the item, of which each may have changed."""
    return [*fields_of(item), *getattr(item, "variants", ())]


class Versions:
    """The types of a file that have earlier versions, in themselves or in what they hold."""

    def __init__(self, items, told, imports, folder):
        self.told, self.whole, self.folder = told, {item.name: item for item in items}, folder
        # The versions that types of other files are read from.
        self.others = {name: others for name, use in imports.items() if (others := versions_in(folder, use.path))}
        # The numbers of the versions in which each type changes.
        self.numbers = {}
        for item in items:
            self.numbers[item.name] = self.found(item.name, ())
        of_all = [number for numbers in self.numbers.values() for number in numbers]
        self.oldest = min(of_all) - 1 if of_all else 0
        self.refuse(items)

    def found(self, name, above):
        """The versions in which the type changes, or what it holds."""
        item = self.whole[name]
        changes = [part.change for part in parts_of(item) if part.change]
        numbers = {number for change in changes for number in (change.since, change.until) if number}
        inside = {other for field in fields_of(item) for other in names_in(field.type)}
        numbers |= {version + 1 for other in inside & set(self.others) for version in self.others[other]}
        return numbers.union(
            *(self.found(other, (*above, name)) for other in inside & set(self.whole) - {name, *above})
        )

    def refuse(self, items):
        """Refuses what has no earlier versions."""
        for item in items:
            if not self.numbers[item.name]:
                continue
            if item.types or item.consts:
                self.told.fault(
                    item.line, f"`{item.name}` has parameters, so it cannot have versions: write the types themselves"
                )
            if is_private(item):
                self.told.fault(
                    item.line,
                    f"`{item.name}` has private fields, so it cannot have versions: any caller could make it from an earlier one. Make them `pub`",
                )
            if isinstance(item, Struct) and len(item.fields) > 16:
                self.told.fault(
                    item.line,
                    f"`{item.name}` has versions, so it has at most 16 fields: move some of them to another struct",
                )
            for version in self.of(item.name):
                if self.before(item.name, version) in {*self.whole, *self.others}:
                    self.told.fault(
                        item.line,
                        f"`{self.before(item.name, version)}` is the name of `{item.name}` in version {version}: choose another name",
                    )
                if not isinstance(item, Struct) and not any(is_there(variant, version) for variant in item.variants):
                    self.told.fault(
                        item.line,
                        f"`{item.name}` has no variant in version {version}: remove `#[since({version + 1})]` of one",
                    )
            for variant in getattr(item, "variants", ()):
                if variant.change and (variant.change.until or variant.change.default):
                    self.told.fault(
                        variant.change.line,
                        f"`{variant.name}` can only be added, by `#[since({variant.change.since or 2})]`: keep the variant",
                    )
                if variant.number and variant.change:
                    self.told.fault(variant.line, "only an enum without numbers can gain variants: remove them")

    def of(self, name):
        """The earlier versions of the type that are read, the newest first."""
        if name in self.others:
            return list(range(max(self.others[name]), self.oldest - 1, -1))
        numbers = self.numbers.get(name)
        return list(range(max(numbers) - 1, self.oldest - 1, -1)) if numbers else []

    def before(self, name, version):
        """The name of the type as it was in the version: several versions may have had one form."""
        if name in self.others:
            return self.others[name][version]
        return before_name(name, min(number for number in self.numbers[name] if number > version) - 1)

    def is_changed(self, type, version):
        """Whether the type had another form in the version."""
        return any(version in self.of(name) for name in names_in(type))

    def newest(self, item):
        """The item without what is gone."""

        def kept(fields):
            fields = [field for field in fields if is_there(field, None)]
            is_tuple = all(field.name.isdigit() for field in fields)
            return [field._replace(name=str(i)) if is_tuple else field for i, field in enumerate(fields)]

        return with_fields(item, kept)

    def type_at(self, type, version):
        """The type as it was in the version."""
        if not self.is_changed(type, version):
            return type
        if type.kind == "path" and type.name in {*self.whole, *self.others}:
            if version not in self.others.get(type.name, {version}):
                raise Refused(
                    type.line,
                    f"`{type.name}` has no version {version}: give the file of its declaration too, by `--also FILE`",
                )
            return type._replace(name=self.before(type.name, version))
        place = CONTAINERS.get(type.name) if type.kind == "path" else None
        others = [part for i, part in enumerate(type.parts) if i != place]
        if place is None or any(self.is_changed(part, version) for part in others):
            held = next(name for name in names_in(type) if version in self.of(name))
            what = (
                "a key cannot change"
                if place is not None
                else "a changed type is held by fields, `Box`, `Option`, `Vec` and maps"
            )
            raise Refused(
                type.line, f"`{of_text(type)}` holds `{held}`, which has versions: {what}. Hold it in a struct"
            )
        return type._replace(
            parts=[self.type_at(part, version) if i == place else part for i, part in enumerate(type.parts)]
        )

    def at(self, item, version):
        """The item as it was in the version, under that version's name."""

        def kept(fields):
            return [
                field._replace(type=self.type_at(field.type, version), docs=[], attributes=[])
                for field in fields
                if is_there(field, version)
            ]

        name = self.before(item.name, version)
        last = name.removeprefix(f"{item.name}Of")
        item = item._replace(
            name=name, docs=[f"/// `{item.name}` as it was in version {last}."], derives=[], attributes=[]
        )
        if isinstance(item, Struct):
            return item._replace(fields=kept(item.fields))
        there = [variant for variant in item.variants if is_there(variant, version)]
        return item._replace(
            variants=[variant._replace(fields=kept(variant.fields), docs=[], attributes=[]) for variant in there]
        )

    def earlier_enums(self, name):
        """The enum as it was in each earlier version, which has a file of its own."""
        item = self.whole[name]
        return (
            []
            if isinstance(item, Struct)
            else list(
                {earlier.name: earlier for earlier in (self.at(item, version) for version in self.of(name))}.values()
            )
        )

    def refuse_holders(self, files):
        """Refuses to change types that files of the crate hold which are not written again."""
        for path in sorted(glob.glob(f"{self.folder}/src/*.rt")):
            module = os.path.basename(path)[:-3]
            with open(path) as file:
                text = file.read()
            if module in files or "scripts/new_type" not in text.split("\nuse ")[0]:
                continue
            for name, item in self.whole.items():
                held = re.search(
                    rf"(?m)^use crate::{module_of(name)}::(?:\w+|\{{[^}}]*\b){name}\b|^use crate::{module_of(name)}::{name};",
                    text,
                )
                if held and any(f"Earlier<{version}>" not in text for version in self.of(name)):
                    self.told.fault(
                        item.line,
                        f"`src/{module}.rt` holds `{name}`, which has versions: give the file of its declaration too, by `--also FILE`",
                    )

    def known_others(self, imports):
        """What is known of earlier types of other files."""
        for name, versions in self.others.items():
            path = imports[name].path
            for before in versions.values():
                yield before, Own("::".join(before_path(self.folder, path, before)), None, 1)

    def known(self, item):
        """What is known of the item's earlier types."""
        module = module_of(item.name)
        for name in {self.before(item.name, version) for version in self.of(item.name)}:
            yield name, Own(f"crate::{module if isinstance(item, Struct) else module_of(name)}::{name}", None, 1)

    def text(self, item, own, crate, lacking, file):
        """The file of the item, with what reads its earlier versions, and the crates that this needs."""
        versions, needed = self.of(item.name), set()
        if not versions:
            return file, needed
        writer = Earlier(self, self.whole[item.name], own, crate, lacking)
        texts = [writer.text(version) for version in versions]
        file += "".join(texts) + Template(VERSIONED).substitute(
            life=arguments(item),
            name=item.name,
            versions=listed([f"Version<{version}>" for version in versions]),
            opening=listed([f"{item.name}Version{version}" for version in versions]),
        )
        file = with_names(file, "Rattle.std.specs.Prelude", writer.names) if writer.names else file
        imports = {f"use {path};" for path in writer.imports - {"std::alloc::Global"}}
        return with_uses(file, imports), writer.crates


ENCODES = r"(?:WritesVariants|(?:Holds)?VariantColumns|HasEncoder|HasField|InFields)"
# What of the file of a type only its encoder needs.
BLOCKS = re.compile(
    rf"(?ms)^(?:///[^\n]*\n)?(?:#\[[^\n]*\n)*(?:pub struct \w+Columns\([^;]*;\n\n?|impl[^{{\n]*\b{ENCODES}\b[^{{\n]* for [^\n]*\{{.*?^\}}\n\n?)"
)
ALIASES = re.compile(r"(?m)^type (?:Columns|Fields)\w*[^;]*;\n\n?")


def without_encoder(file):
    """The file of a type without its encoder, since nothing writes an earlier version."""
    file = ALIASES.sub("", BLOCKS.sub("", file))
    rest = re.sub(r"(?m)^(ghost )?use .*$", "", file)

    def used(found):
        names = [
            name
            for name in found[3].split(", ")
            if re.search(rf"(?<!\w){re.escape(name.strip('◌'))}(?!\w)", rest) or "◌" in name
        ]
        return (
            f"{found[1]}{found[2]}.{{{', '.join(names)}}};"
            if "." in found[2]
            else f"{found[1]}{found[2]}::{{{', '.join(names)}}};"
        )

    return re.sub(
        r"(?m)^((?:ghost )?use )([\w:.]+?)(?:::|\.)\{([^}]*)\};",
        lambda found: used(found) if found[3] else found[0],
        file,
    )


def with_uses(file, imports):
    """The file with these `use` lines and those of what reads earlier versions."""
    first = re.search(r"(?m)^use ", file)
    start, end = first.start(), file.index("\n\n", first.start())
    lines = (
        set(file[start:end].split("\n"))
        | imports
        | {
            "use bitcode::sealed::{Earlier, Expected, OpenError, ReadsVersions, Version, Versioned, open_version};",
            "use std::alloc::Global;",
        }
    )
    whole = [line for line in sorted(lines) if not line.startswith("use bitcode::{")]
    names = {name.strip() for line in lines if line.startswith("use bitcode::{") for name in line[14:-2].split(",")} | {
        "Error"
    }
    return file[:start] + "\n".join(sorted([*whole, f"use bitcode::{{{', '.join(sorted(names))}}};"])) + file[end:]


class Earlier:
    """What reads the earlier versions of one type."""

    def __init__(self, versions, item, own, crate, lacking):
        self.versions, self.item, self.own, self.crate, self.lacking = versions, item, own, crate, lacking
        self.imports, self.crates, self.names, self.uses = set(), set(), {"◌≡◌"}, set()

    def text(self, version):
        """What reads the version."""
        item, life = self.item, arguments(self.item)
        before = self.versions.at(item, version)
        checker = Checker(before, self.own, self.versions.told)
        checker.check_all()
        self.imports |= checker.imports
        self.crates |= checker.crates
        self.uses, self.needs_alloc = set(), False
        row = self.of_struct(before, version) if isinstance(item, Struct) else self.of_enum(before, version)
        alias = ""
        if isinstance(item, Struct) and before.name == before_name(item.name, version):
            types = [of_text(field.type) for field in before.fields]
            alias = Template(ALIAS).substitute(
                name=item.name,
                version=version,
                before=before.name,
                life=bounds(item, ""),
                tuple=halved(types) if types else "()",
            )
        elif not isinstance(item, Struct):
            self.imports.add(f"crate::{module_of(before.name)}::{before.name}")
        ghost_use = "".join(f"    ghost use {path};\n" for path in sorted(self.uses))
        return (
            alias
            + Template(EARLIER).substitute(
                row,
                life=life,
                name=item.name,
                version=version,
                before=before.name,
                alloc="alloc" if self.needs_alloc else "_alloc",
                ghost_use=ghost_use + "\n" * bool(ghost_use),
            )
            + Template(OPENS).substitute(name=item.name, version=version, life=life, input=item.lifetime or "'a")
        )

    def of_field(self, field, version, taken, place):
        """The expression of a field, and what is said of its value: nothing, where it is the value at the place."""
        if not is_there(field, version):
            with self.versions.told.going_on():
                value = default_of(field, self.own, self.lacking, self.crate, module_of)
                self.names |= value.names
                self.uses |= value.uses
                self.needs_alloc |= "alloc" in value.text
                return value.text, value.said
            # The field is refused, and no file is written.
            return taken, None
        if not self.versions.is_changed(field.type, version):
            return taken, None
        self.needs_alloc = True
        earlier = f"<{of_text(field.type)} as Earlier<{version}>>"
        return f"{earlier}::upgrade(alloc, {taken})?", f"⟦{earlier}⟧.is_upgrade {place} {{}}"

    def moved(self, fields, version, names, at):
        """The expression and what is said of each field that is not gone, of those of a struct or a variant."""
        place_of = {
            id(field): (name, place)
            for field, name, place in zip([field for field in fields if is_there(field, version)], names, at)
        }
        found = []
        for field in fields:
            if is_there(field, None):
                taken, place = place_of.get(id(field), ("", ""))
                found.append((field, *self.of_field(field, version, taken, place), place))
        return found

    def taken_names(self, fields, kind, version):
        """The names under which the fields of the earlier type are taken apart."""
        there = [field for field in fields if is_there(field, version)]
        names = [parameter(field.name) if kind == "named" else ORDINALS[i] for i, field in enumerate(there)]
        return [name if is_there(field, None) else f"_{name}" for field, name in zip(there, names)]

    def built(self, head, found, kind):
        """The new value, of the expressions of its fields."""
        if kind == "unit":
            return head
        if kind == "tuple":
            return f"{head}({', '.join(text for _, text, _, _ in found)})"
        return f"{head} {{ {', '.join(field.name if text == field.name else f'{field.name}: {text}' for field, text, _, _ in found)} }}"

    def of_struct(self, before, version):
        """What makes a struct from the tuple of the fields that it had."""
        item, there = self.item, before.fields
        names = self.taken_names(item.fields, item.kind, version)
        found = self.moved(item.fields, version, names, places(len(there), "b"))
        said = []
        for i, (field, _, relation, place) in enumerate(found):
            name = field.name if item.kind == "named" else str(i)
            said.append(f"({relation.format(f't.{name}') if relation else f't.{name} ≡ {place}'})")
        return {
            "relation": "λ b t. " + (" × ".join(said) if said else "Unit {0}"),
            "pattern": halved(names) if names else "_nothing",
            "body": f"Ok({self.built(item.name, found, item.kind)})",
        }

    def of_variant(self, variant, before, version):
        """An arm of what is said, and one of the match."""
        name, old, letters = quoted(self.item.name), quoted(before.name), list(LETTERS)
        there = [field for field in variant.fields if is_there(field, version)]
        # A field of the variant that is there has a letter in both arms; what is not the very value has a name of its
        # own.
        found = self.moved(variant.fields, version, letters, letters)
        new = [f"{place or 'new'}{i}" if relation else place for i, (_, _, relation, place) in enumerate(found)]
        said = " × ".join(
            [f"({relation.format(value)})" for (_, _, relation, _), value in zip(found, new) if relation]
            + [f"(t ≡ {' '.join([f'{name}.{variant.name}', *new])})"]
        )
        for (_, _, relation, _), value in reversed([*zip(found, new)]):
            said = f"({value} : _) × ({said})" if relation else said
        exec_names = [letter if is_there(field, None) else f"_{letter}" for field, letter in zip(there, letters)]
        inner = {
            "named": f" {{ {', '.join(f'{field.name}: {letter}' for field, letter in zip(there, exec_names))} }}",
            "tuple": f"({', '.join(exec_names)})",
            "unit": "",
        }[variant.kind]
        arm = f"{before.name}::{variant.name}{inner} => Ok({self.built(f'{self.item.name}::{variant.name}', found, variant.kind)}),"
        return f"{' '.join([f'{old}.{variant.name}', *letters[: len(there)]])} ↦ λ t. {said}", arm

    def of_enum(self, before, version):
        """What makes an enum from one with the variants that it had."""
        there = [variant for variant in self.item.variants if is_there(variant, version)]
        arms = [self.of_variant(variant, before, version) for variant in there]
        self.uses |= {
            f"Rattle.{self.crate}.specs.declared.{module_of(name)}.{quoted(name)}.{{{quoted(name)}}}"
            for name in (self.item.name, before.name)
        }
        return {
            "relation": f"elim [ {' | '.join(said for said, _ in arms)} ]",
            "pattern": "before",
            "body": "match before {" + "".join(f"\n            {arm}" for _, arm in arms) + "\n        }",
        }
