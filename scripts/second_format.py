"""The files of recursive types in the second format: what scripts/second_format writes.

A group is a type, or several that contain each other. Its module has the declarations, the impls of `HasShape`, `SerializeAs`
and `DeserializeAs`, and the functions that read values of the group. Since the toolchain finds no measure for a cycle
through a trait's method without `self`, these functions call each other directly: one for each type, one for each
variant with several fields, and one for the lists of a type.
"""

import re

from declarations import Parser, Struct, Type, fields_of
from known_types import MOST_FIELDS, TYPES
from lengths import NUMBER, Sum
from names import module_of
from second_format_std import ADDRESSES, LISTS, NONZERO, NOTED, RANGES, TEXTS, instead_of
from structs import QUOTED
from tokens import Refused, Told

LIBRARY = (
    "bitcode_memory bitcode_columns bitcode_int_columns bitcode_float_columns bitcode_shapes bitcode_coder "
    "bitcode_ints bitcode_floats bitcode_untyped bitcode_serde bitcode_serde_types"
)

# ---- types

UNSIGNED = {"u8": 1, "u16": 2, "u32": 4, "u64": 8, "u128": 16, "usize": 8}
SIGNED = {"i8": 1, "i16": 2, "i32": 4, "i64": 8, "i128": 16, "isize": 8}
LEAVES = {
    "bool": ("bool_tree", "truth"),
    "char": ("char_tree", "natural"),
    "String": ("text_tree", "(λ s. text (string_bytes s))"),
    "f32": ("(float_tree binary32)", "(λ x. number (float_number binary32 x))"),
    "f64": ("(float_tree binary64)", "(λ x. number (float_number binary64 x))"),
    "Ordering": ("ordering_tree", "ordering_datum"),
    "Duration": ("duration_tree", "duration_datum"),
    "Uuid": ("uuid_tree", "uuid_datum"),
}
LEAVES |= {name: ("text_tree", f"(λ s. text ({word} s))") for name, word in TEXTS.items() if name != "CowStr"}
LEAVES |= {name: (f"(natural_tree {width})", "natural") for name, width in UNSIGNED.items()}
LEAVES |= {name: (f"(integer_tree {width})", "number") for name, width in SIGNED.items()}
LEAVES |= {
    f"NonZero{name.capitalize()}": (f"(nonzero_{tree} {width})", f"(λ n. {datum} ({NONZERO[f'NonZero{name.capitalize()}']} n))")
    for names, tree, datum in ((UNSIGNED, "natural_tree", "natural"), (SIGNED, "integer_tree", "number"))
    for name, width in names.items()
}
SOUND = {"bool": "tt", "char": "width_4", "String": "tt", "f32": "tt", "f64": "tt", "Ordering": "(tt, (tt, (tt, tt)))"}
SOUND |= {"Duration": "(width_8, (width_4, tt))", "Uuid": "(width_1, refl)"}
SOUND |= {name: "tt" for name in TEXTS}
SOUND |= {name: f"width_{width}" for name, width in (UNSIGNED | SIGNED).items()}
SOUND |= {f"NonZero{name.capitalize()}": f"width_{width}" for name, width in (UNSIGNED | SIGNED).items()}


# the maps, with the functions that make them of pairs, and the keys that they may have
MAPS = {"BTreeMap": "ordered_map", "HashMap": "hashed_map"}
KEYS = {*UNSIGNED, *SIGNED, "char", "String", "Uuid"} - {"usize", "isize"}

# the types that stand for another one, with that one as a term of their value
HOLDERS = {"Box": "b.value", "Rc": "(rc_value b)", "Arc": "(arc_value b)", "Wrapping": "b.0", "Saturating": "b.0"}


def rust(type_):
    """The type as Rust writes it."""
    if type_.kind == "own":
        return type_.text
    if type_.kind == "reference":
        return f"&{type_.name or chr(39) + '_'} {rust(type_.parts[0])}"
    if type_.kind == "tuple":
        return "(" + ", ".join(map(rust, type_.parts)) + ("," if len(type_.parts) == 1 else "") + ")"
    if type_.kind in ("lifetime", "number"):
        return type_.name
    if type_.kind == "array":
        return f"[{rust(type_.parts[0])}; {type_.name}]"
    if type_.kind == "slice":
        return f"[{rust(type_.parts[0])}]"
    return type_.name + (f"<{', '.join(map(rust, type_.parts))}>" if type_.parts else "")


# Names of types for which the library has words as those that are made of a type's name, such as `text_tree`.
LIBRARYS = set(
    "array at bool char choice field float integer map natural never no option ordering repeated result seq set text "
    "tuple unit".split()
)


def word_of(name):
    """The word for a type, of which the names of its definitions and functions are made."""
    word = module_of(name)
    return f"own_{word}" if word in LIBRARYS else word


class Own:
    """A type of the file that does not contain the one that has it. Its shape and its content have names."""

    kind, parts = "own", ()

    def __init__(self, type_, columns):
        self.text, self.name, self.line = rust(type_), type_.name, type_.line
        self.word, self.columns = word_of(type_.name), columns


def own_in(type_, own):
    """The type, with those of the file in it that are written before it. `own` says by names which have columns."""
    if type_.kind == "path" and type_.name in own:
        return Own(type_, own[type_.name])
    if not any(isinstance(part, Type) for part in type_.parts):
        return type_
    return type_._replace(
        parts=tuple(own_in(part, own) if isinstance(part, Type) else part for part in type_.parts)
    )


# In the logic, a tuple of more fields is a nest of pairs.
MOST_FLAT = 12
# Of more fields, some of which borrow, the checker did not prove that references to them live long enough.
MOST_BORROWING = 9


def field_in(value, place, count):
    """A field of a tuple of so many, as a term."""
    return f"{value}.{place}" if count <= MOST_FLAT else f"{value}{'.1' * place}.0"


def is_text(type_):
    return type_.kind == "reference" and type_.parts[0].kind == "path" and type_.parts[0].name == "str"


def inner_of(type_, name):
    """Whether it is this type of another one."""
    return type_.kind == "path" and type_.name == name and len(type_.parts) == 1


def is_key(type_):
    """Whether it is a type that may be a key."""
    return is_short_text(type_) or type_.kind == "path" and not type_.parts and type_.name in KEYS


def is_map(type_):
    """Whether it is a map with keys that may be such."""
    return type_.kind == "path" and type_.name in MAPS and len(type_.parts) == 2 and is_key(type_.parts[0])


def is_set(type_):
    """Whether it is a set of elements that may be keys."""
    return type_.kind == "path" and type_.name in ("BTreeSet", "HashSet") and len(type_.parts) == 1 and is_key(type_.parts[0])


def is_result(type_):
    return type_.kind == "path" and type_.name == "Result" and len(type_.parts) == 2


def is_cow(type_):
    """Whether it is a text that may borrow from the input."""
    return inner_of(type_, "CowStr") and type_.parts[0].kind == "lifetime"


def is_list(type_):
    """Whether it is a list, other than a `Vec`."""
    return any(inner_of(type_, name) for name in LISTS)


def is_short_text(type_):
    """Whether it is a text of limited length."""
    return inner_of(type_, "ArrayString") and type_.parts[0].kind == "number"


def is_noted(type_):
    """Whether it is a list that says more of its elements."""
    return type_.kind == "path" and type_.name in NOTED and bool(type_.parts)


def is_range(type_):
    return any(inner_of(type_, name) for name in RANGES)


def is_address(type_):
    return type_.kind == "path" and not type_.parts and type_.name in ADDRESSES


def written_as(type_):
    """The type that an address is written as."""
    return Parser(ADDRESSES[type_.name][0], Told()).type()


def key_word(type_):
    """The word for a type of keys."""
    return "".join([type_.name.lower(), *(str(length_of(part)) for part in type_.parts)])


def length_of(type_):
    """The length of an array, or one that a type has as a parameter."""
    if not NUMBER.fullmatch(type_.name):
        raise Refused(type_.line, f"write the length `{type_.name}` as a number")
    return Sum([type_.name], {}).value()


class Part:
    """A field's type: a type of the group, a box, a list or a map of such, a box of one in an option, or any other."""

    def __init__(self, type_, group):
        type_ = own_in(type_, group.own)
        self.type, self.rust, self.kind, self.of = type_, rust(type_), "other", None
        # whether its elements are read by the function that reads it among other fields
        self.is_inside = False
        # the fields that are read at once, with this one among them
        self.run = None
        inner = (
            type_.parts[0] if type_.kind == "path" and len(type_.parts) == 1 and type_.name in ("Box", "Vec") else None
        )
        if type_.kind == "path" and type_.name in group.named:
            self.kind, self.of = "itself", group.named[type_.name]
        elif inner and inner.kind == "path" and inner.name in group.named:
            self.kind, self.of = {"Box": "box", "Vec": "list"}[type_.name], group.named[inner.name]
        elif (
            inner_of(type_, "Option")
            and inner_of(type_.parts[0], "Box")
            and type_.parts[0].parts[0].name in group.named
            and len(group.named) == 1
        ):
            self.kind, self.of = "option", group.named[type_.parts[0].parts[0].name]
        elif is_map(type_) and type_.parts[1].kind == "path" and type_.parts[1].name in group.named:
            self.kind, self.of = "map", group.named[type_.parts[1].name]
        elif group.mentions(type_):
            raise Refused(
                type_.line, f"`{self.rust}` is not supported in a recursive type: {group.instead_of(type_)}"
            )

    def tree(self, left):
        """Its shape."""
        if self.kind == "other":
            return tree_of(self.type, left)
        tree = f"({self.of.word}_tree {left})"
        if self.kind == "map":
            return f"(map_tree {tree_of(self.type.parts[0], left)} {tree})"
        return {"list": f"(seq_tree {tree})", "option": f"(option_tree {tree})"}.get(self.kind, tree)

    def datum(self):
        """Its content, as a function of the value."""
        if self.kind == "other":
            return datum_of(self.type)
        datum = f"{self.of.word}_datum"
        if self.kind == "map":
            return f"(λ m. map_datum {self.key()} {datum} m.entries)"
        return {
            "itself": datum,
            "box": f"(λ b. {datum} b.value)",
            "list": f"(λ v. list (data_of (map {datum} v.items)))",
            "option": f"(option_datum (λ b. {datum} b.value))",
        }[self.kind]

    def key(self):
        """The content of a key, as a function of it."""
        return datum_of(self.type.parts[0])

    def function(self):
        """The function that reads it."""
        if self.kind == "map":
            by = "by" if self.type.name == "BTreeMap" else "hashed_by"
            return f"read_{self.of.inner(f'{by}_{key_word(self.type.parts[0])}')}"
        return f"read_{self.of.inner(self.kind) if self.kind in ('list', 'option') else self.of.word}"

    def in_step(self, value):
        """Its content where the content of each value of the group stands in its place."""
        if self.kind == "other":
            return applied(datum_of(self.type), value)
        if self.kind == "map":
            return f"(map_datum {self.key()} (λ d. d) {value}.entries)"
        return {
            "itself": value,
            "box": f"{value}.value",
            "list": f"(list (data_of {value}.items))",
            "option": f"(option_datum (λ b. b.value) {value})",
        }[self.kind]

    def mapped(self, value):
        """A map's content where its values were replaced by theirs."""
        return f"(map_datum {self.key()} (λ d. d) (map (λ e. (e.0, {self.of.word}_datum e.1)) {value}.entries))"

    def sound(self, left):
        if self.kind == "other":
            return sound_of(self.type, left)
        sound = f"({self.of.word}_sound {left})"
        if self.kind == "map":
            return f"({sound_of(self.type.parts[0], left)}, {sound})"
        return f"(tt, ({sound}, tt))" if self.kind == "option" else sound

    def has_columns(self, n):
        """The proof that it has columns, where that needs no more than its form; or of a type of the group."""
        if self.kind == "other":
            return "refl" if has_columns(self.type) else None
        return "refl" if self.kind in ("list", "option", "map") else f"{self.of.word}_columns ({n})"


# what the body of `write` names, and the equation of a variant in its proofs
WRITE = {"below", "err", "is", "left", "place", "self", "write_tuple", "write_variant", "writer", *QUOTED}
# what each function that reads fields calls other things, and words of antt's
TAKEN = QUOTED | set(
    "fields alloc reader budget left place abbrev absurd cc data elim grind hlevel infix infixl infixr module omega "
    "open opaque postfix prefix prim record rules ruleset rw search simp subst suffices syntax tt unfold unfoldable "
    "unfolding variant then at with do case of end by is not was now old new result self".split()
)
# the same, with what the functions that read types which contain themselves call so, and the functions that they call
TAKEN_IN_CYCLES = TAKEN | set(
    "below found item made pairs key keys value values items find_field follow enter_list enter_map enter_variant "
    "ordered_map hashed_map".split()
)


def local_names(fields, taken):
    """Names for what is read of the fields: their own, but for those that may mean something else."""
    return [
        field.name
        if re.fullmatch(r"[a-z][a-z0-9]*(_[a-z0-9]+)*", field.name)
        and field.name not in taken
        and not re.fullmatch(r"(place|found|value|field|some|k)\d+|read_.*", field.name)
        else f"field{n}"
        for n, field in enumerate(fields)
    ]


def bound_names(variant):
    """Names for the fields of a variant that is written: their own, unless the body of `write` has one of them."""
    if variant.kind != "named":
        return [f"x{n}" for n in range(len(variant.fields))]
    return [
        f"x{n}" if field.name in WRITE or re.fullmatch(r"x\d+", field.name) else field.name
        for n, field in enumerate(variant.fields)
    ]


def bound(variant):
    """The pattern of a variant that is written, without its name."""
    names = bound_names(variant)
    if not names:
        return {"unit": "", "tuple": "()", "named": " {}"}[variant.kind]
    if variant.kind != "named":
        return f"({', '.join(names)})"
    fields = [name if name == field.name else f"{field.name}: {name}" for field, name in zip(variant.fields, names)]
    return f" {{ {', '.join(fields)} }}"


class Run:
    """Fields next to each other that are of no type of the group, and are read at once. `first` is the number of the first."""

    def __init__(self, first, parts):
        self.first, self.parts, self.name = first, parts, f"some{first}"

    def value(self, part):
        """One of the fields, as a term."""
        return f"c.in_ok-{self.name}.{self.name}{'.1' * self.parts.index(part)}.0"


# Of more fields at once, the checker stops at its step limit.
MOST_AT_ONCE = 8


def with_runs(parts):
    """The fields, where each knows those that are read with it."""
    first = 0
    while first < len(parts):
        end = first
        while end < min(len(parts), first + MOST_AT_ONCE) and parts[end].kind == "other":
            end += 1
        if end - first > 1:
            run = Run(first, parts[first:end])
            for part in run.parts:
                part.run = run
        first = max(end, first + 1)
    return parts


def steps_of(parts):
    """What is read one after another: the number of its first field, its fields, and whether they are read at once."""
    return [
        (n, part.run.parts if part.run else [part], part.run)
        for n, part in enumerate(parts)
        if not part.run or part.run.first == n
    ]


def with_list_inside(parts, flats):
    """The fields, where a list that is the only one of the group among them is read in their midst. Beside an enum of
    the file it has a function of its own: the checker takes the enum for another one after the loop."""
    inner = [part for part in parts if part.kind != "other"]
    has_enum = any(part.type.name in flats and not flats[part.type.name].is_struct for part in parts)
    if len(inner) == 1 and inner[0].kind == "list" and not has_enum:
        inner[0].is_inside = True
    return parts


def applied(function, value):
    """A function of a value, as a term."""
    found = re.fullmatch(r"\(λ (\w+)\. (.*)\)", function)
    if function.startswith("(array_datum "):
        return f"({function[1:-1]} {value})"
    return f"({replaced(found[1], value, found[2])})" if found else f"({function} {value})"


def replaced(name, value, text):
    """The text with the value in the place of the name, but for functions in it that have a parameter of that name."""
    at = text.find(f"(λ {name}.")
    if at < 0:
        return re.sub(rf"(?<![\w.]){name}(?!\w)", value, text)
    end, depth = at, 0
    while depth or end == at:
        depth += {"(": 1, ")": -1}.get(text[end], 0)
        end += 1
    return replaced(name, value, text[:at]) + text[at:end] + replaced(name, value, text[end:])


def tree_of(type_, left):
    if type_.kind == "own":
        return f"({type_.word}_tree {left})"
    if is_text(type_):
        return "text_tree"
    if type_.kind == "tuple" and len(type_.parts) > MOST_FIELDS:
        raise Refused(type_.line, "a tuple has at most 16 fields: write a tuple of tuples")
    if type_.kind == "tuple":
        trees = "no_trees"
        for part in reversed(type_.parts):
            trees = f"(tree_and {tree_of(part, left)} {trees})"
        return f"(tuple_tree {trees})" if type_.parts else "unit_tree"
    if type_.kind == "path" and not type_.parts and type_.name in LEAVES:
        return LEAVES[type_.name][0]
    if is_cow(type_):
        return "text_tree"
    if inner_of(type_, "PhantomData"):
        # it names a type that is there
        tree_of(type_.parts[0], left)
        return "unit_tree"
    if type_.kind == "array":
        return f"(array_tree {length_of(type_)} {tree_of(type_.parts[0], left)})"
    if is_list(type_):
        return f"(seq_tree {tree_of(type_.parts[0], left)})"
    if is_short_text(type_):
        return f"(array_string_tree {length_of(type_.parts[0])})"
    if is_noted(type_):
        head = f"array_vec_tree {length_of(type_.parts[1])}" if type_.name == "ArrayVec" else "heap_tree"
        return f"({head} {tree_of(type_.parts[0], left)})"
    if is_address(type_):
        return tree_of(written_as(type_), left)
    if is_range(type_):
        return f"(tuple_tree {trees_and([tree_of(type_.parts[0], left)] * 2)})"
    if type_.kind == "path" and len(type_.parts) == 1 and type_.name in ("Vec", "Option", *HOLDERS):
        if type_.name in ("Rc", "Arc") and type_.parts[0].name in HOLDERS:
            raise Refused(
                type_.line,
                f"`{rust(type_)}` is not supported in the second format yet: "
                f"write `{type_.name}<{rust(type_.parts[0].parts[0])}>`",
            )
        inner = tree_of(type_.parts[0], left)
        return {"Vec": f"(seq_tree {inner})", "Option": f"(option_tree {inner})"}.get(type_.name, inner)
    if is_map(type_):
        key, value = (tree_of(part, left) for part in type_.parts)
        return f"(map_tree {key} {value})"
    if is_set(type_):
        return f"(map_tree {tree_of(type_.parts[0], left)} unit_tree)"
    if is_result(type_):
        ok, err = (tree_of(part, left) for part in type_.parts)
        return f"(result_tree {ok} {err})"
    instead = instead_of(type_)
    raise Refused(
        type_.line,
        f"`{rust(type_)}` is not supported in the second format yet" + (f": {instead}" if instead else ""),
    )


def datum_of(type_):
    if type_.kind == "own":
        return f"{type_.word}_datum"
    if is_text(type_):
        return "(λ s. text s.now)"
    if type_.kind == "tuple":
        data = "no_data"
        for place, part in reversed(list(enumerate(type_.parts))):
            data = f"(datum_and {applied(datum_of(part), field_in('t', place, len(type_.parts)))} {data})"
        return f"(λ t. tuple {data})" if type_.parts else "(λ u. unit)"
    if is_address(type_):
        inner, terms = written_as(type_), ADDRESSES[type_.name][1]
        if inner.kind != "tuple":
            return f"(λ a. {datum_of(inner)[1:-1]} {terms[0]})"
        return f"(λ a. tuple {data_of([applied(datum_of(part), term) for part, term in zip(inner.parts, terms)])})"
    if not type_.parts:
        return LEAVES[type_.name][1]
    if is_cow(type_):
        return f"(λ s. text ({TEXTS['CowStr']} s))"
    if inner_of(type_, "PhantomData"):
        return "(λ m. unit)"
    if type_.kind == "array":
        return f"(array_datum {datum_of(type_.parts[0])})"
    if is_range(type_):
        inner = datum_of(type_.parts[0])
        return f"(λ r. tuple {data_of([applied(inner, end) for end in RANGES[type_.name]])})"
    if is_list(type_):
        return f"(λ l. list (data_of (map {datum_of(type_.parts[0])} {LISTS[type_.name]})))"
    if is_short_text(type_):
        return "array_string_datum"
    if is_noted(type_):
        return f"(λ v. list (data_of (map {datum_of(type_.parts[0])} {NOTED[type_.name]})))"
    if is_map(type_):
        key, value = map(datum_of, type_.parts)
        return f"(λ m. map_datum {key} {value} m.entries)"
    if is_set(type_):
        return f"(λ c. set_datum {datum_of(type_.parts[0])} c.keys)"
    if is_result(type_):
        ok, err = map(datum_of, type_.parts)
        return f"(result_datum {ok} {err})"
    inner = datum_of(type_.parts[0])
    if type_.name in HOLDERS:
        return f"(λ b. {applied(inner, HOLDERS[type_.name])})"
    return {"Vec": f"(λ v. list (data_of (map {inner} v.items)))", "Option": f"(option_datum {inner})"}[type_.name]


def sound_of(type_, left):
    if type_.kind == "own":
        return f"({type_.word}_sound {left})"
    if is_text(type_) or type_.kind == "tuple" and not type_.parts:
        return "tt"
    if type_.kind == "tuple":
        return sounds([sound_of(part, left) for part in type_.parts])
    if is_address(type_):
        return sound_of(written_as(type_), left)
    if is_cow(type_) or inner_of(type_, "PhantomData"):
        return "tt"
    if type_.kind == "array":
        inner = type_.parts[0]
        return f"(repeated_sound {length_of(type_)} {tree_of(inner, left)} {sound_of(inner, left)})"
    if not type_.parts:
        return SOUND[type_.name]
    if is_short_text(type_):
        return "(tt, refl)"
    if is_noted(type_):
        return f"({sound_of(type_.parts[0], left)}, refl)"
    if is_map(type_):
        key, value = (sound_of(part, left) for part in type_.parts)
        return f"({key}, {value})"
    if is_set(type_):
        return f"({sound_of(type_.parts[0], left)}, tt)"
    if is_result(type_):
        return sounds([sound_of(part, left) for part in type_.parts])
    inner = sound_of(type_.parts[0], left)
    if is_range(type_):
        return sounds([inner] * 2)
    return f"(tt, ({inner}, tt))" if type_.name == "Option" else inner


def sounds(each):
    found = "tt"
    for one in reversed(each):
        found = f"({one}, {found})"
    return found


def has_columns(type_):
    """Whether its form alone proves that it has columns; a tuple's first field does."""
    if type_.kind == "own":
        return type_.columns
    if type_.kind == "tuple":
        return bool(type_.parts) and has_columns(type_.parts[0])
    if type_.kind == "array":
        return length_of(type_) > 0 and has_columns(type_.parts[0])
    if inner_of(type_, "PhantomData"):
        return False
    return type_.name not in (*HOLDERS, *RANGES) or has_columns(type_.parts[0])


def trees_of(parts, left):
    return trees_and([part.tree(left) for part in parts])


def trees_and(each):
    trees = "no_trees"
    for tree in reversed(each):
        trees = f"(tree_and {tree} {trees})"
    return trees


def data_of(terms):
    data = "no_data"
    for term in reversed(terms):
        data = f"(datum_and {term} {data})"
    return data


# ---- the group

IN_A_STRUCT = "an option of the type itself is supported in a struct only: add a variant without it"


def refuse_large(item):
    """Refuses a struct with too many fields, or an enum with too many variants, or one of them with too many fields."""
    if isinstance(item, Struct):
        # the checker is to prove that nested references live long enough: of fewer fields, where some borrow
        most, what = (MOST_BORROWING, "a struct that borrows") if item.lifetime else (MOST_FIELDS, "a struct")
        if len(item.fields) > most:
            why = f"{what} has at most {most} fields in the second format: write structs for some of them"
            raise Refused(item.line, why)
        return
    if len(item.variants) > 256:
        raise Refused(item.line, "an enum has at most 256 variants")
    for variant in item.variants:
        if len(variant.fields) > MOST_FIELDS:
            raise Refused(variant.line, "a variant has at most 16 fields: write a struct for some of them")


class Flat:
    """A type that does not contain itself."""

    def __init__(self, item, own):
        self.item, self.name, self.word = item, item.name, word_of(item.name)
        self.of = f"{item.name}<{item.lifetime}>" if item.lifetime else item.name
        self.parameter = f"<{item.lifetime}>" if item.lifetime else ""
        self.is_struct = isinstance(item, Struct)
        # the types of a struct's fields, or those of each variant's
        self.held = [own_in(field.type, own) for field in item.fields] if self.is_struct else None
        self.variants = (
            []
            if self.is_struct
            else [(one, [own_in(field.type, own) for field in one.fields]) for one in item.variants]
        )

    def has_columns(self):
        return not self.is_struct or any(map(has_columns, self.held))


class Shaped:
    """A type that contains itself, or one between two such types. `words` has the words for all types of the file."""

    def __init__(self, item, words):
        self.words, self.fields_words = words, {}
        self.item, self.name, self.word = item, item.name, word_of(item.name)
        self.of = f"{item.name}<{item.lifetime}>" if item.lifetime else item.name
        self.parameter = f"<{item.lifetime}>" if item.lifetime else ""
        self.is_struct = isinstance(item, Struct)

    def fill(self, group):
        if self.is_struct:
            parts = [Part(field.type, group) for field in self.item.fields]
            self.parts = with_runs(with_list_inside(parts, group.flats))
            for part, name in zip(self.parts, local_names(self.item.fields, TAKEN_IN_CYCLES)):
                part.local = name
            self.options = [field.name for field, part in zip(self.item.fields, self.parts) if part.kind == "option"]
            return
        self.variants = [
            (variant, [Part(field.type, group) for field in variant.fields]) for variant in self.item.variants
        ]
        self.options = []
        for _, parts in self.variants:
            if len(parts) > 1:
                with_runs(with_list_inside(parts, group.flats))
            for n, part in enumerate(parts):
                part.local = f"field{n}"

    def trees(self, left):
        """The shapes of its fields, or of what its variants hold."""
        if self.is_struct:
            return trees_of(self.parts, left)
        trees = "no_trees"
        for _, parts in reversed(self.variants):
            trees = f"(tree_and {payload_tree(parts, left)} {trees})"
        return trees

    def tree_word(self):
        return "tuple_tree" if self.is_struct else "choice_tree"

    def inner(self, kind):
        """The word for lists or the like of it. `ExprList` may be a type of the file, too."""
        word = f"{self.word}_{kind}"
        return f"{kind}_of_{self.word}" if word in self.words else word

    def fields_word(self, variant):
        """The word for the fields of a variant."""
        return self.fields_words[variant.name]


def payload_tree(parts, left):
    if not parts:
        return "unit_tree"
    return parts[0].tree(left) if len(parts) == 1 else f"(tuple_tree {trees_of(parts, left)})"


def pointed(type_):
    """The type behind pointers."""
    while any(inner_of(type_, name) for name in HOLDERS):
        type_ = type_.parts[0]
    return type_


def held_by_struct(type_):
    """What to write where a type is not supported that would be one by one."""
    what = "fields for its parts" if type_.kind == "tuple" else f"a field of the type `{rust(type_)}`"
    return f"write a struct of your own with {what} in the place of `{rust(type_)}`"


def names_in(type_, named):
    """The names of the file's types in the type."""
    found = {type_.name} & named if type_.kind == "path" else set()
    return found.union(*(names_in(part, named) for part in type_.parts if isinstance(part, Type)))


def inside_of(items):
    """The names of the file's types that are inside each of them, however deep."""
    named = {item.name for item in items}
    found = {item.name: set().union(*(names_in(field.type, named) for field in fields_of(item))) for item in items}
    while True:
        wider = {name: names.union(*(found[other] for other in names)) for name, names in found.items()}
        if wider == found:
            return found
        found = wider


def parts_of(items):
    """Of the names of a file's types: what is inside each, those above recursive ones, and those that a cycle holds."""
    inside = inside_of(items)
    recursive = {name for name in inside if name in inside[name]}
    above = {name for name in inside if inside[name] & recursive}
    return inside, above, recursive | {name for name in above if any(name in inside[other] for other in recursive)}


class Fields:
    """What fields may have, for a group of which no more is known."""

    def __init__(self, items):
        block, words = parts_of(items)[2], {word_of(item.name) for item in items}
        self.named = {item.name: Shaped(item, words) for item in items if item.name in block}
        self.own = {item.name: True for item in items if item.name not in block}

    def refuse(self, item, fields, told):
        """Says what the second format does not have of an item, and of all these fields of it."""
        with told.going_on():
            refuse_large(item)
        kinds = {}
        for field in fields:
            with told.going_on():
                if item.name not in self.named:
                    tree_of(own_in(field.type, self.own | dict.fromkeys(self.named, True)), "left")
                    continue
                part = Part(field.type, self)
                part.tree("left")
                kinds.setdefault(part.kind, field)
                if part.kind == "option" and not isinstance(item, Struct):
                    raise Refused(field.line, IN_A_STRUCT)
        if item.name in self.named and not isinstance(item, Struct):
            self.refuse_signed(item, told)
        if isinstance(item, Struct) and {"option", "map"} <= {*kinds}:
            told.fault(
                kinds["map"].type.line,
                "a struct with an option and a map of itself is not supported: for the option, write an enum of your"
                f" own with the variants `None` and `Some(Box<{self.named[item.name].of}>)`",
            )

    def refuse_signed(self, item, told):
        """Refuses signed numbers in variants beside values of the group: the checker does not prove what reads them."""
        for variant in item.variants:
            numbers = [field.type for field in variant.fields if rust(field.type) in SIGNED]
            if numbers and any(self.mentions(field.type) for field in variant.fields):
                told.fault(
                    numbers[0].line,
                    f"`{numbers[0].name}` beside a type that contains itself is not supported in a variant: put it into"
                    " a struct of its own",
                )

    def mentions(self, type_):
        return type_.name in self.named and type_.kind == "path" or any(map(self.mentions, type_.parts))

    def instead_of(self, type_):
        """What to write where such a type is inside a recursive one."""
        if inner_of(type_, "PhantomData"):
            return "remove the marker"
        inner = pointed(type_)
        if inner is not type_:
            return f"write `Box<{rust(inner)}>`" if inner.name in self.named else f"write `{rust(inner)}`"
        is_vec = inner_of(type_, "Vec")
        if is_vec or type_.kind == "array" or is_list(type_) or is_noted(type_):
            inner = pointed(type_.parts[0])
            if inner.name in self.named:
                return f"write `Vec<{rust(inner)}>`"
            instead = self.instead_of(inner) if inner.name in ("Option", "Result") else held_by_struct(inner)
            return instead + ("" if is_vec else ", in a `Vec`")
        if is_map(type_):
            key, inner = type_.parts[0], pointed(type_.parts[1])
            if inner.name in self.named:
                return f"write `{type_.name}<{rust(key)}, {rust(inner)}>`"
            return self.instead_of(inner) if inner.name in ("Option", "Result") else held_by_struct(inner)
        if inner_of(type_, "Option"):
            inner = pointed(type_.parts[0])
            held = f"Box<{rust(inner)}>" if inner.name in self.named else rust(inner)
            return f"write an enum of your own with the variants `None` and `Some({held})`"
        if is_result(type_):
            return "write an enum of your own with the variants `Ok` and `Err`"
        return held_by_struct(type_)


class Group(Fields):
    """The types of a file: those that contain themselves or each other, and the flat ones."""

    def __init__(self, items, crate):
        inside, above, block = parts_of(items)
        words = {word_of(item.name) for item in items}
        self.crate, self.types = crate, [Shaped(item, words) for item in items if item.name in block]
        self.named = {shaped.name: shaped for shaped in self.types}
        self.lifetime = next((item.lifetime for item in items if item.lifetime), None)
        self.module = module_of(items[0].name)
        self.specs = f"{items[0].name}Shape"
        # those that are inside others come first, and `own` says which have columns
        self.own, self.flats = {}, {}
        flat = sorted((item for item in items if item.name not in block), key=lambda item: len(inside[item.name]))
        for item in flat:
            if item.name not in above:
                self.flats[item.name] = Flat(item, self.own)
                self.own[item.name] = self.flats[item.name].has_columns()
        self.below = list(self.flats.values())
        for shaped in self.types:
            shaped.fill(self)
        own = self.own | {name: True for name in block}
        for item in flat:
            if item.name in above:
                self.flats[item.name] = Flat(item, own)
                own[item.name] = self.flats[item.name].has_columns()
        self.above = [one for one in self.flats.values() if one not in self.below]
        self.all = [self.named.get(item.name) or self.flats[item.name] for item in items]
        # in the toolchain's order, in which the first has the modules of the group
        self.ordered = self.types[::-1]
        self.lists = [
            shaped
            for shaped in self.types
            if any(part.kind == "list" and not part.is_inside and part.of is shaped for part in self.all_parts())
        ]
        self.listed = [
            shaped
            for shaped in self.types
            if any(part.kind == "list" and part.of is shaped for part in self.all_parts())
        ]
        self.options = [shaped for shaped in self.types if shaped.options]
        self.lemmas = f"{items[0].name}Lemmas" if self.options else None
        self.maps = list({part.function(): part for part in self.all_parts() if part.kind == "map"}.values())
        self.payloads = [
            (shaped, variant, parts)
            for shaped in self.types
            if not shaped.is_struct
            for variant, parts in shaped.variants
            if len(parts) > 1 and any(part.kind != "other" for part in parts)
        ]
        self.name_fields()

    def name_fields(self):
        """Gives the fields of each variant a word that means nothing else. `ExprCall` may be a type of the file."""
        taken = {one.word for one in self.all}
        taken |= {shaped.inner(kind) for shaped in self.types for kind in ("list", "option")}
        taken |= {part.function().removeprefix("read_") for part in self.maps}
        for shaped, variant, _ in self.payloads:
            word = f"{shaped.word}_{module_of(variant.name)}"
            while word in taken:
                word = f"fields_of_{word}"
            shaped.fields_words[variant.name] = word
            taken.add(word)

    def all_parts(self):
        for shaped in self.types:
            yield from shaped.parts if shaped.is_struct else [part for _, parts in shaped.variants for part in parts]

    def named_in_fields(self):
        """The names of types in the fields that are not those of the file."""
        own = {one.name for one in self.all}
        found, left = set(), [field.type for one in self.all for field in fields_of(one.item)]
        while left:
            type_ = left.pop()
            found |= {type_.name} - own if type_.kind == "path" else set()
            left += type_.parts
        return found

    def libraries(self):
        """The crates that its files need."""
        known = [TYPES[name].path for name in self.named_in_fields() if name in TYPES]
        return [*LIBRARY.split(), *sorted({path.split("::")[0] for path in known if path} - {"std"})]

    def fold(self, shaped):
        """The fold of a type, with the steps of the group."""
        data = " ".join("Datum" for _ in self.ordered)
        return f"{data} {' '.join(f'{other.word}_step' for other in self.ordered)}"
