"""The types of the standard library that scripts/second_format knows: what each is in the second format, and the words
of specs that say so."""

from known_types import INSTEAD, INTEGERS, TYPES

# the texts, with the words for their bytes
TEXTS = {
    "BoxedStr": "boxed_str_bytes",
    "RcStr": "rc_str_bytes",
    "ArcStr": "arc_str_bytes",
    "CowStr": "cow_str_bytes",
}

# the lists besides `Vec`, with the elements of one as a term
LISTS = {
    "VecDeque": "(deque_items l)",
    "LinkedList": "l",
    "BoxedSlice": "(boxed_slice_items l)",
    "RcSlice": "(rc_slice_items l)",
    "ArcSlice": "(arc_slice_items l)",
}

# the lists that say more of their elements than that they are there, with the elements of one as a term
NOTED = {"ArrayVec": "v.items", "BinaryHeap": "(heap_items v)"}

# the integers that are not 0, with the words for them as integers
NONZERO = {f"NonZero{name.capitalize()}": f"non_zero_{name}_get" for name in INTEGERS}

# the ranges, with their ends as terms
RANGES = {"Range": ["r.start", "r.end"], "RangeInclusive": ["(range_inclusive_start r)", "(range_inclusive_end r)"]}

# the addresses, with the types that they are written as, and the value of such a type or its fields as terms
ADDRESSES = {
    "Ipv4Addr": ("[u8; 4]", ["(ipv4_octets a)"]),
    "Ipv6Addr": ("[u8; 16]", ["(ipv6_octets a)"]),
    "IpAddr": ("Result<Ipv4Addr, Ipv6Addr>", ["(ip_family a)"]),
    "SocketAddrV4": ("(Ipv4Addr, u16)", ["(v4_ip a)", "(v4_port a)"]),
    "SocketAddrV6": ("(Ipv6Addr, u16)", ["(v6_ip a)", "(v6_port a)"]),
    "SocketAddr": ("Result<SocketAddrV4, SocketAddrV6>", ["(socket_family a)"]),
}

# the words of these types, by their modules
WORDS_OF_STD = [
    ("std.specs.Arc", "arc_value arc_slice_items arc_str_bytes"),
    ("std.specs.BinaryHeap", "heap_items"),
    ("std.specs.Box", "boxed_slice_items boxed_str_bytes"),
    ("std.specs.Cow", "cow_str_bytes"),
    ("std.specs.Int.NonZero", " ".join(NONZERO.values())),
    ("std.specs.Net.Addr", "ipv4_octets ipv6_octets"),
    ("std.specs.Net.Socket", "v4_ip v4_port v6_ip v6_port"),
    ("std.specs.Range", "range_inclusive_start range_inclusive_end"),
    ("std.specs.Rc", "rc_value rc_slice_items rc_str_bytes"),
    ("std.specs.VecDeque", "deque_items"),
    ("bitcode_shapes.specs.Addresses", "ip_family socket_family"),
    ("bitcode_serde_types.specs.Arrays", "array_tree array_datum repeated_sound repeated_plain"),
    ("bitcode_serde_types.specs.Checked", "nonzero_natural_tree nonzero_integer_tree"),
    ("bitcode_serde_types.specs.Durations", "duration_tree duration_datum"),
    ("bitcode_serde_types.specs.Heaps", "heap_tree"),
    ("bitcode_serde_types.specs.Limited", "array_string_tree array_string_datum array_vec_tree"),
    ("bitcode_serde_types.specs.Orderings", "ordering_tree ordering_datum"),
    ("bitcode_serde_types.specs.Uuids", "uuid_tree uuid_datum"),
]

# where code gets the types from
TYPES_OF_STD = [
    ("arrayvec", "ArrayString ArrayVec"),
    ("std::borrow", "CowStr"),
    ("std::boxed", "BoxedSlice BoxedStr"),
    ("std::cmp", "Ordering"),
    ("std::collections", "BTreeMap BinaryHeap HashMap BTreeSet HashSet LinkedList VecDeque"),
    ("std::marker", "PhantomData"),
    ("std::net", "IpAddr Ipv4Addr Ipv6Addr SocketAddr SocketAddrV4 SocketAddrV6"),
    ("std::num", " ".join([*NONZERO, "Saturating Wrapping"])),
    ("std::ops", "Range RangeInclusive"),
    ("std::rc", "Rc RcSlice RcStr"),
    ("std::sync", "Arc ArcSlice ArcStr"),
    ("std::time", "Duration"),
    ("uuid", "Uuid"),
]

# what to write in the place of types that have no impls
OTHERS = {
    "BTreeMap": "write `Vec<(K, V)>`",
    "BTreeSet": "write `Vec<T>`",
    "CowStr": "write `CowStr<'a>`",
    "HashMap": "write `Vec<(K, V)>`",
    "HashSet": "write `Vec<T>`",
}


def instead_of(type_):
    """What to write in the place of the type, if that is known."""
    if type_.kind == "slice":
        return "write a `Vec` or a `BoxedSlice`"
    if type_.kind == "reference":
        return "write the value itself, or `&'a str`"
    instead = OTHERS.get(type_.name) or INSTEAD.get(type_.name)
    if not instead and type_.kind == "path" and type_.name not in TYPES:
        return "declare it in this file"
    return instead
