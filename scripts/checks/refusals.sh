#!/usr/bin/env bash
# The bytes of each stored row that a call accepts, spoiled in every way: each proper front of them is `EOF`, they and a
# 0 are `Expected EOF`, and with each byte set to each of the 256 values they are a value, or refused for a reason that
# the call may give. (Row 57 is not read.) These are many inputs, so they are run and not proved.
cd "$(dirname "$0")/../.." || exit 2
work=$(mktemp -d)
trap 'rm -rf "$work"' EXIT

# A repository of its own, that has the libraries of this one, and in the place of the program with the stored rows one
# with these inputs.
. scripts/libraries.sh
copy_libraries "$work" || exit 2
program=$work/crates/bitcode_vectors
rm -r "$program"/src/* && cp scripts/vectors/serde/texts.rt.txt "$program/src/texts.rt" || exit 2

python3 - "$work/count" >"$program/src/main.rt" <<'PYTHON' || exit 2
import sys

EIGHT = [255] * 8

# ROW, TYPE, BYTES: what `decode` accepts.
DECODED = [
    (1, "()", []),
    (2, "bool", [0]), (2, "bool", [1]), (2, "bool", [2]), (2, "bool", [255]),
    (3, "(u32, &str)", [4, 10, 3, 97, 98, 99]), (3, "Foo<'_>", [4, 10, 3, 97, 98, 99]),
    (4, "[u8; 3]", [8, 21]), (4, "(usize, isize)", [6, 0, 6, 1]),
    (5, "Vec<i16>", [7, 1, 255, 255, 10, 85]), (5, "Vec<i16>", [5, 0, 0, 0, 255, 255, 0, 0, 255, 255, 0, 0]),
    (9, "[&str; 2]", [3, 3, 226, 152, 186, 226, 152, 186]),
    (12, "ArrayVec<u8, 2>", [2, 0, 1]), (12, "Vec<u8>", [255, 6, 2, 0, 1]),
    (12, "ArrayVec<u8, 500>", [255, 6, 2, 0, 1]),
    (13, "BTreeMap<u8, u8>", [2, 1, 1, 5, 6]), (13, "BTreeMap<u8, u8>", [1, 1, 6]),
    (17, "Duration", [0] + EIGHT + [0, 255, 201, 154, 59]),
    (18, "Vec<bool>", [255, 6, 255] + [255] * 31 + [127]),
    (19, "Uuid", [0, 161, 162, 163, 164, 177, 178, 193, 194, 209, 210, 211, 212, 213, 214, 215, 216]),
    (20, "Vec<u8>", [3, 6, 57]), (20, "Vec<u8>", [0]),
    (21, "(bool, u16)", [1, 7, 0]),
    (22, "u32", [4, 255]), (22, "u32", [2, 255, 255]), (22, "u32", [0, 0, 0, 1, 0]),
    (22, "i32", [0, 255, 255, 255, 255]),
    (23, "u32", [3, 1, 0, 0, 0, 254]), (23, "u32", [3, 255, 255, 255, 255, 2]),
    (24, "Vec<Option<i16>>", [3, 2, 1, 0]), (24, "Vec<(Option<u8>, u8)>", [2, 2, 4, 3, 5]),
    (25, "Vec<Two>", [3, 2, 1, 2, 255]), (25, "Vec<Two>", [3, 6, 1, 255, 254]),
    (26, "ArrayVec<u8, 500>", [255, 4, 244, 1, 0] + [i % 256 for i in range(500)]),
    (27, "Vec<()>", [3]),
    (28, "NonZeroU32", [4, 1]), (28, "char", [4, 97]),
    (29, "Option<bool>", [2]),
    (33, "Vec<Result<bool, u32>>", [2, 1, 0, 4, 1]), (33, "IpAddr", [1, 8, 1]),
    (33, "SocketAddr", [0, 0, 1, 0, 0, 127, 80, 0]), (33, "Ordering", [2]),
    (34, "f32", [0, 0, 128, 63]), (34, "f64", [0, 0, 0, 0, 0, 0, 0, 240, 63]),
    (34, "Vec<f32>", [5, 0, 0, 128, 0, 0, 0, 0, 0, 0, 0, 0, 96, 205, 204, 204, 63, 192, 63, 64, 61]),
    (35, "Vec<u16>", [17, 1, 43, 1, 10, 255, 255, 0]),
    (36, "Vec<Vec<u8>>", [2, 0, 3, 6, 57]),
    (37, "Vec<&str>", [2, 3, 3, 226, 152, 186, 226, 152, 186]),
    (38, "Vec<&str>", [3, 10, 5, 97, 98]), (38, "&str", [255, 6, 255] + [97] * 255),
    (39, "One", [7]), (39, "Vec<Never>", [0]),
    (41, "[i8; 7]", [9, 255, 85]), (41, "Vec<[u8; 0]>", [100]), (41, f"({'u8, ' * 16})", list(range(16))),
    (41, "Box<u8>", [123]), (41, "Wrapping<u8>", [123]), (41, "Arc<u8>", [123]), (41, "Range<u8>", [3, 9]),
    (41, "RcStr", [3, 98, 111, 120]), (41, "PhantomData<u8>", []),
    (43, "BTreeSet<u8>", [3, 0, 2, 1, 2]), (43, "BTreeSet<u8>", [2, 1, 2]), (43, "BinaryHeap<u8>", [3, 0, 2, 1, 2]),
    (43, "HashMap<u8, u8>", [1, 1, 6]),
    (44, "ArrayString<2>", [2, 48, 49]), (44, "ArrayString<3>", [2, 48, 49]), (44, "ArrayVec<u8, 0>", [0]),
    (45, "Vec<u8>", [1, 9]),
    (54, "&str", [129] + [97] * 127 + [195, 169]),
    (55, "Vec<Vec<u8>>", [65, 10] + EIGHT + [1, 10] + EIGHT + [1]),
    (56, "Vec<Vec<u8>>", [2, 1, 9, 10, 255, 3]), (56, "Vec<Vec<u8>>", [2, 1, 65, 10] + EIGHT + [3]),
    (56, "Vec<Vec<u8>>", [2, 0, 255, 6, 255, 10] + [255] * 31 + [127]),
    (56, "Vec<Vec<u8>>", [2, 0, 255, 4, 0, 1, 10] + [255] * 32),
]

# ROW, SHAPE, BYTES: what `deserialize` accepts.
DESERIALIZED = [
    (14, "Seq(Tuple(Seq(Bool), U8))", [2, 0, 1, 0, 1, 1]),
    (15, "[Seq(Ref 0)] root 0", [2, 0, 1, 0]), (15, "[Option(Ref 0)] root 0", [1] * 128 + [0]),
    (16, "Seq(Unit)", [255, 2, 0, 0, 1, 0]), (16, f"Enum({', '.join(['Unit'] * 256)})", [255]),
    (19, "Seq(I8)", [7, 9, 255, 85]),
    (24, "Seq(Tuple(Option(U8), U8))", [2, 0, 1, 3, 5, 4]),
    (29, "Option(Bool)", [1, 1]),
    (33, "Seq(Enum(Bool, U32))", [2, 1, 0, 4, 1, 0]),
    (34, "Seq(Tuple(F32, F64))", [1, 0, 0, 128, 63, 0, 0, 0, 0, 0, 0, 0, 240, 63]),
    (46, "Seq(Seq(U8))", [2, 1, 2, 6, 57]),
    (47, "Map(U8, Str)", [1, 1, 1, 97]), (47, "Tuple(Bool)", [1]), (47, "Seq(Enum())", [0]),
    (48, "[Seq(Ref 1), Option(Ref 0)] root 0", [2, 1, 0, 0]),
    (49, "[Enum(Unit, Tuple(U8, Ref 0))] root 0", [1, 5, 1, 6, 0]),
]

HEAD = """
#![tactic(auto)]

use arrayvec::{ArrayString, ArrayVec};
use bitcode::{Error, Reason, Shape, decode, deserialize};
use bitcode_test_support::by_hand::foo::Foo;
use bitcode_test_support::by_hand::never::Never;
use bitcode_test_support::by_hand::one::One;
use bitcode_test_support::by_hand::two::Two;
use std::alloc::Global;
use std::cmp::Ordering;
use std::collections::{BTreeMap, BTreeSet, BinaryHeap, HashMap};
use std::io;
use std::marker::PhantomData;
use std::net::{IpAddr, SocketAddr};
use std::num::{NonZeroU32, Wrapping};
use std::ops::Range;
use std::process::ExitCode;
use std::rc::RcStr;
use std::sync::Arc;
use std::time::Duration;
use texts::Text;
use uuid::Uuid;

mod texts;

/// The reasons that `decode` may give, but for want of memory.
const DECODING: &[Reason] = &[
    Reason::Eof, Reason::ExpectedEof, Reason::InvalidPacking, Reason::LengthOverflow, Reason::HugeLength,
    Reason::InvalidUtf8, Reason::InvalidBitPattern, Reason::InvalidArrayVec, Reason::InvalidArrayString,
    Reason::InvalidEnumVariant,
];

/// Those that `deserialize` may give.
const DESERIALIZING: &[Reason] = &[
    Reason::Eof, Reason::ExpectedEof, Reason::InvalidPacking, Reason::LengthOverflow, Reason::HugeLength,
    Reason::InvalidUtf8, Reason::InvalidEnumVariant, Reason::InvalidOption, Reason::InvalidChar,
    Reason::TooManyZeroSizedTypes, Reason::NestedTooDeep,
];

/// Which reasons may come, how many inputs were run, and the inputs with another answer.
#[derive(Drop)]
struct Check {
    may_come: &'static [Reason],
    count: usize,
    wrong: Vec<Wrong>,
}

/// An input of a row with another answer: how it was spoiled, at which place, and what came.
#[derive(Drop)]
struct Wrong {
    row: usize,
    spoiled: &'static str,
    place: usize,
    refused: Option<Reason>,
}

/// Why the call refused, if it did.
fn refusal<T: Drop>(answer: Result<T, Error>) -> Option<Reason> {
    match answer {
        Ok(_) => None,
        Err(error) => Some(error.reason),
    }
}

impl Check {
    fn is(
        &mut self, well: bool, row: usize, spoiled: &'static str, place: usize, refused: Option<Reason>,
    ) -> Result<(), Error> {
        self.count += 1;
        if !well {
            self.wrong.push(Wrong { row, spoiled, place, refused })?;
        }
        Ok(())
    }

    fn whole(&mut self, row: usize, refused: Option<Reason>) -> Result<(), Error> {
        self.is(refused.is_none(), row, "as it is", 0, refused)
    }

    fn front(&mut self, row: usize, length: usize, refused: Option<Reason>) -> Result<(), Error> {
        self.is(refused == Some(Reason::Eof), row, "cut", length, refused)
    }

    fn longer(&mut self, row: usize, refused: Option<Reason>) -> Result<(), Error> {
        self.is(refused == Some(Reason::ExpectedEof), row, "with a 0 behind", 0, refused)
    }

    fn changed(&mut self, row: usize, place: usize, refused: Option<Reason>) -> Result<(), Error> {
        let well = match refused {
            Some(reason) => self.may_come.iter().any(|known| *known == reason),
            None => true,
        };
        self.is(well, row, "with a byte changed", place, refused)
    }
}

fn shape_of(alloc: Global, text: &str) -> Result<Shape, Error> {
    match Text::new(alloc, text).whole_shape() {
        Ok(shape) => Ok(shape),
        Err(_) => Err(Error { reason: Reason::BadShape }),
    }
}
"""

ROW = """
/// Row %(row)d: %(title)s.
fn %(name)s(alloc: Global, check: &mut Check) -> Result<(), Error> {
%(before)s    let bytes: &[u8] = &%(bytes)s;
    let mut input = Vec::from_slice(alloc, bytes)?;
    check.whole(%(row)d, refusal(%(call)s(%(words)s, &input)))?;
    for length in 0..bytes.len() {
        check.front(%(row)d, length, refusal(%(call)s(%(words)s, &bytes[..length])))?;
    }
    input.push(0)?;
    check.longer(%(row)d, refusal(%(call)s(%(words)s, &input)))?;
    input.truncate(bytes.len());
    for place in 0..bytes.len() {
        for value in 0..256usize {
            input[place] = value as u8;
            check.changed(%(row)d, place, refusal(%(call)s(%(words)s, &input)))?;
        }
        input[place] = bytes[place];
    }
    Ok(())
}
"""

END = """
fn run(rt: &HostRuntime, alloc: Global) -> io::Result<bool> {
    let mut check = Check { may_come: DECODING, count: 0, wrong: Vec::new(alloc) };
    let ended = all_rows(alloc, &mut check);
    for wrong in &check.wrong {
        let place = wrong.place;
        println!(rt; "wrong: row {}, {} at {place}: {:?}", wrong.row, wrong.spoiled, wrong.refused)?;
    }
    let count = check.count;
    println!(rt; "{count} inputs")?;
    Ok(ended.is_ok() && check.wrong.is_empty())
}

fn main(rt: HostRuntime) -> ExitCode {
    match run(&rt, rt.alloc()) {
        Ok(true) => ExitCode::SUCCESS,
        _ => ExitCode::FAILURE,
    }
}
"""

if not DECODED or not DESERIALIZED:
    sys.exit("refusals: a table has no rows")
with open(sys.argv[1], "w") as file:
    # each input whole, longer, each front of it, and each byte of it changed
    print(sum(2 + len(text) + 256 * len(text) for _, _, text in DECODED + DESERIALIZED), "inputs", file=file)
print(HEAD)
names = []
for row, kind, text in DECODED:
    names.append(f"decoded_{len(names)}")
    call = {"call": f"decode::<{kind}>", "words": "alloc"}
    print(ROW % {"row": row, "title": f"`{kind}`", "name": names[-1], "before": "", "bytes": text, **call})
changed = len(names)
for row, shape, text in DESERIALIZED:
    names.append(f"deserialized_{len(names)}")
    before = f'    let shape = shape_of(alloc, "{shape}")?;\n'
    call = {"call": "deserialize", "words": "alloc, &shape"}
    print(ROW % {"row": row, "title": "a shape", "name": names[-1], "before": before, "bytes": text, **call})
print("fn all_rows(alloc: Global, check: &mut Check) -> Result<(), Error> {")
for index, name in enumerate(names):
    if index == changed:
        print("    check.may_come = DESERIALIZING;")
    print(f"    {name}(alloc, check)?;")
print("    Ok(())\n}")
print(END)
PYTHON

# The interpreter would not get through the inputs, so it is stopped early: they are run as a compiled program.
(cd "$program" && "$try" --optimized --steps 1000 --seconds 7200 >"$work/log" 2>&1)
grep -q 'run=ended status=0' "$work/log" && grep -qxF "$(cat "$work/count")" "$work/log" && exit 0
grep -m 20 -E '^wrong|error|status=|inputs$' "$work/log" | sed 's/^/refusals: /'
exit 1
