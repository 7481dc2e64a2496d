#!/usr/bin/env python3
"""Writes what lies between the library and the driver of scripts/speed/beside.sh, from workloads.tsv.

    exports.py rattle program|library    the functions that the driver calls, in Rattle
    exports.py rust [before]             their declarations, and the table of workloads, for driver.rs; with `before`,
                                         also those of an earlier library, whose names begin with before_
    exports.py names                     the names of these functions

The environment's WORKLOADS names another table than workloads.tsv.
"""
import json
import os
import sys

HEAD = """//! What scripts/speed/beside.sh calls. Written by scripts/speed/comparison/exports.py.
#![tactic(auto)]

pub mod comment;
pub mod level;
pub mod note;
pub mod pair;
pub mod record_;

use bitcode::serde::{DeserializeAs, deserialize_as, serialize_as};
use bitcode::sealed::{Expected, Label, OpenError, crc_32, open, seal};
use bitcode::{Buffer, Decode, Encode, Error, Shape, ShapeNode, Value, decode, deserialize, encode, serialize};
use crate::comment::Comment;
use crate::level::Level;
use crate::note::Note;
use crate::pair::Pair;
use crate::record_::Record;
use std::alloc::Global;
use std::collections::BTreeMap;

const LABEL: Label = Label { kind: 0x5245_4353, version: 2 };

const EXPECTED: Expected = Expected { label: LABEL, most_bytes: 1 << 20 };

/// What a call answers that failed.
const FAILED: u64 = 1_000_000_007;

// The value of these bytes, encoded so many times: how many bytes that were.
fn encodes<'a, T: Encode + Decode<'a>>(alloc: Global, bytes: &'a [u8], times: u64) -> Result<u64, Error> {
    let value: T = decode(alloc, bytes)?;
    let mut written = 0u64;
    for _ in 0..times {
        let out = encode(alloc, &value)?;
        written = written.wrapping_add(out.len() as u64);
    }
    Ok(written)
}

// The same by one `Buffer`.
fn buffers<'a, T: Encode + Decode<'a>>(alloc: Global, bytes: &'a [u8], times: u64) -> Result<u64, Error> {
    let value: T = decode(alloc, bytes)?;
    let mut buffer: Buffer<T> = Buffer::new(alloc);
    let mut written = 0u64;
    for _ in 0..times {
        let out = buffer.encode(&value)?;
        written = written.wrapping_add(out.len() as u64);
    }
    Ok(written)
}

// The bytes, decoded so many times: how many times that was.
fn decodes<'a, T: Encode + Decode<'a>>(alloc: Global, bytes: &'a [u8], times: u64) -> Result<u64, Error> {
    let mut read = 0u64;
    for _ in 0..times {
        let _value: T = decode(alloc, bytes)?;
        read = read.wrapping_add(1);
    }
    Ok(read)
}

// Whether the value of these bytes has these very bytes: then 1.
fn agrees<'a, T: Encode + Decode<'a>>(alloc: Global, bytes: &'a [u8], _times: u64) -> Result<u64, Error> {
    let value: T = decode(alloc, bytes)?;
    let out = encode(alloc, &value)?;
    Ok((out.as_slice() == bytes) as u64)
}

fn serializes(alloc: Global, bytes: &[u8], times: u64, shape: Result<Shape, Error>) -> Result<u64, Error> {
    let shape = shape?;
    let value = deserialize(alloc, &shape, bytes)?;
    let mut written = 0u64;
    for _ in 0..times {
        let out = serialize(alloc, &shape, &value)?;
        written = written.wrapping_add(out.len() as u64);
    }
    Ok(written)
}

fn deserializes(alloc: Global, bytes: &[u8], times: u64, shape: Result<Shape, Error>) -> Result<u64, Error> {
    let shape = shape?;
    let mut read = 0u64;
    for _ in 0..times {
        let _value: Value = deserialize(alloc, &shape, bytes)?;
        read = read.wrapping_add(1);
    }
    Ok(read)
}

fn serde_agrees(alloc: Global, bytes: &[u8], _times: u64, shape: Result<Shape, Error>) -> Result<u64, Error> {
    let shape = shape?;
    let value = deserialize(alloc, &shape, bytes)?;
    let out = serialize(alloc, &shape, &value)?;
    Ok((out.as_slice() == bytes) as u64)
}

fn serializes_as<'a, T: DeserializeAs<'a>>(alloc: Global, bytes: &'a [u8], times: u64) -> Result<u64, Error> {
    let value: T = deserialize_as(alloc, bytes)?;
    let mut written = 0u64;
    for _ in 0..times {
        let out = serialize_as(alloc, &value)?;
        written = written.wrapping_add(out.len() as u64);
    }
    Ok(written)
}

fn deserializes_as<'a, T: DeserializeAs<'a>>(alloc: Global, bytes: &'a [u8], times: u64) -> Result<u64, Error> {
    let mut read = 0u64;
    for _ in 0..times {
        let _value: T = deserialize_as(alloc, bytes)?;
        read = read.wrapping_add(1);
    }
    Ok(read)
}

fn typed_agrees<'a, T: DeserializeAs<'a>>(alloc: Global, bytes: &'a [u8], _times: u64) -> Result<u64, Error> {
    let value: T = deserialize_as(alloc, bytes)?;
    let out = serialize_as(alloc, &value)?;
    Ok((out.as_slice() == bytes) as u64)
}

fn seals(alloc: Global, bytes: &[u8], times: u64) -> Result<u64, Error> {
    let value: Record = decode(alloc, bytes)?;
    let mut written = 0u64;
    for _ in 0..times {
        let out = seal(alloc, LABEL, &value)?;
        written = written.wrapping_add(out.len() as u64);
    }
    Ok(written)
}

fn opens_sealed(alloc: Global, sealed: &[u8], times: u64) -> Result<u64, OpenError> {
    let mut read = 0u64;
    for _ in 0..times {
        let _value: Record = open(alloc, &EXPECTED, sealed)?;
        read = read.wrapping_add(1);
    }
    Ok(read)
}

fn opens(alloc: Global, bytes: &[u8], times: u64) -> Result<u64, Error> {
    let value: Record = decode(alloc, bytes)?;
    let sealed = seal(alloc, LABEL, &value)?;
    Ok(opens_sealed(alloc, sealed.as_slice(), times).unwrap_or(FAILED))
}

fn sums(_alloc: Global, bytes: &[u8], times: u64) -> Result<u64, Error> {
    let mut sum = 0u64;
    for _ in 0..times {
        sum = sum.wrapping_add(u64::from(crc_32(bytes)));
    }
    Ok(sum)
}

fn seq(alloc: Global, node: ShapeNode) -> Result<ShapeNode, Error> {
    Ok(ShapeNode::Seq(Box::new(alloc, node)?))
}

fn record(alloc: Global) -> Result<ShapeNode, Error> {
    let score = ShapeNode::Option(Box::new(alloc, ShapeNode::U32)?);
    let data = seq(alloc, ShapeNode::U8)?;
    let fields = vec![in alloc; ShapeNode::U64, ShapeNode::Str, ShapeNode::Bool, score, data]?;
    Ok(ShapeNode::Tuple(fields))
}

fn comments(alloc: Global) -> Result<ShapeNode, Error> {
    let replies = seq(alloc, ShapeNode::Ref(0))?;
    Ok(ShapeNode::Tuple(vec![in alloc; ShapeNode::U64, ShapeNode::Str, replies]?))
}

fn map(alloc: Global) -> Result<ShapeNode, Error> {
    let key = Box::new(alloc, ShapeNode::U32)?;
    Ok(ShapeNode::Map(key, Box::new(alloc, ShapeNode::Str)?))
}
"""
# The modules of each data set's types, the last of which has its list.
SETS = {
    "Logs": "address log logs",
    "BorrowedLogs<'a>": "origin borrowed_log borrowed_logs",
    "Mesh": "vector3 triangle mesh",
    "Players": "abilities entity game_type item recipe_book player players",
    "BorrowedPlayers<'a>": "abilities game_type borrowed_entity borrowed_item borrowed_recipe_book borrowed_player "
    "borrowed_players",
    "Updates": "contact entity_type guidance terrain_update transform update updates",
}
# The calls of a workload: the letter in the names of the functions, and what each does in the first format, in the second
# format with a `Value`, and in the second format with a Rust type.
CALLS = {
    "e": ("encodes", "serializes", "serializes_as"), "b": ("buffers", None, None),
    "d": ("decodes", "deserializes", "deserializes_as"), "s": ("agrees", "serde_agrees", "typed_agrees"),
}


def workloads():
    """The rows, each behind the number of its calls, which is that of the first row of its type."""
    here = os.path.dirname(os.path.abspath(__file__))
    with open(os.environ.get("WORKLOADS") or os.path.join(here, "workloads.tsv")) as file:
        rows = [line.rstrip("\n").split("\t") for line in file if not line.startswith("#")]
    rows = [[*row, *[""] * (5 - len(row))] for row in rows]
    types = [row[4] or row[2] for row in rows]
    return [(types.index(type_), *row) for type_, row in zip(types, rows)]


def export(name, body, life=""):
    """A function that the driver calls; `life` is "'a " where the value borrows from the bytes."""
    generic = f"<{life.strip()}>" if life else ""
    return (f'#[unsafe(no_mangle)]\npub extern "C" fn {name}{generic}(alloc: Global, bytes: &{life}[u8], times: u64) -> u64 {{\n'
            f"    {body}.unwrap_or(FAILED)\n}}\n")


def rattle(is_program):
    sets = {ours: SETS[ours].split() for _number, form, _name, _type, _value, ours in workloads() if form == "set"}
    head, uses, rest = HEAD.partition("use ")
    modules = "".join(f"pub mod {module};\n" for module in sorted({one for every in sets.values() for one in every}))
    lists = "".join(f"use crate::{every[-1]}::{ours.partition('<')[0]};\n" for ours, every in sets.items())
    print(head.rstrip("\n") + "\n" + modules + "\n" + lists + uses + rest)
    exports = {"call_seal": export("call_seal", "seals(alloc, bytes, times)"), "call_open": export("call_open", "opens(alloc, bytes, times)"),
               "call_crc": export("call_crc", "sums(alloc, bytes, times)")}
    for number, form, _name, rust, _value, ours in workloads():
        typed = ours[5:] if ours.startswith("type ") else None
        if form == "second" and not typed and f"call_e{number}" not in exports:
            print(f"fn shape_{number}(alloc: Global) -> Result<Shape, Error> {{\n    let node = {ours};\n    Shape::new(vec![in alloc; node]?, 0)\n}}\n")
        for letter, (first, second, third) in CALLS.items():
            name = f"call_{letter}{number}"
            if typed and third:
                exports[name] = export(name, f"{third}::<{typed}>(alloc, bytes, times)")
            elif typed:
                continue
            elif form != "second":
                exports[name] = export(name, f"{first}::<{ours or rust}>(alloc, bytes, times)", "'a " if "'a" in ours else "")
            elif second:
                exports[name] = export(name, f"{second}(alloc, bytes, times, shape_{number}(alloc))")
    print("\n".join(exports.values()))
    if is_program:
        print("fn main(rt: HostRuntime) {\n    let alloc = rt.alloc();\n    let given: &[u8] = &[];\n    let mut sum = 0u64;")
        print("".join(f"    sum = sum.wrapping_add({name}(alloc, given, 0));\n" for name in exports) + "    let _sum = sum;\n}")


def names():
    """The names of the functions, but for what stands in front of each."""
    calls_of = [(number, letter) for number, form, *_ in workloads() for letter, calls in CALLS.items()
                if calls[form == "second"]]
    return list(dict.fromkeys([*(f"{letter}{number}" for number, letter in calls_of), "seal", "open", "crc"]))


def rust(libraries):
    print('extern "C" {')
    for library in libraries:
        for name in names():
            print(f"    fn {library}_{name}(bytes: *const u8, n: usize, times: u64) -> u64;")
    print("}\n\npub fn workloads() -> Vec<Workload> {\n    vec![")
    for number, form, name, type_, value, _ours in workloads():
        given = "_n" if form in ("single", "set") else "n"
        written, of = ("bitcode::serialize(&{}).unwrap()", "second") if form == "second" else ("bitcode::encode(&{})", "first")
        calls = []
        for library in libraries:
            buffer = "None" if form == "second" else f"Some({library}_b{number})"
            calls.append(f"Ours {{ encode: {library}_e{number}, buffer: {buffer}, decode: {library}_d{number}, "
                         f"agrees: {library}_s{number} }}")
        before = f"Some({calls[1]})" if len(calls) > 1 else "None"
        print(f"        Workload {{ format: {json.dumps(form)}, name: {json.dumps(name)}, prepare: |{given}| "
              f"{of}::<{type_}>({written.format(value)}, {calls[0]}, {before}) }},")
    print("    ]\n}")


if sys.argv[1] == "rattle":
    rattle(sys.argv[2] == "program")
elif sys.argv[1] == "names":
    print("\n".join(names()))
else:
    rust(["call", *sys.argv[2:]])
