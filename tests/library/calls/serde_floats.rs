//! Floats of the second format: what the Rust crate wrote and read, each NaN, and `==` of values.
use bitcode::{Reason, ShapeNode, Value, deserialize, serialize};
use bitcode_test_support::Got;
use bitcode_test_support::untyped::{
    deserializes, deserializes_strictly, is_not_read, is_not_read_strictly, is_not_written, map_of,
    seq_of, shape_of, some, variant, written_both_ways,
};
use std::alloc::Global;
use std::num::{f32_from_bits_with_nan, f64_from_bits_with_nan};
use std::test::Fail;

/// The `f32` with these bits.
fn single(bits: u32) -> Value {
    Value::F32(f32_from_bits_with_nan(bits))
}

/// The `f64` with these bits.
fn double(bits: u64) -> Value {
    Value::F64(f64_from_bits_with_nan(bits))
}

const NAN: u32 = 0x7fc0_0000;

const LONG_NAN: u64 = 0x7ff8_0000_0000_0000;

#[test]
fn floats_of_each_kind(rt: HostRuntime) -> Result<(), Got> {
    let alloc = rt.alloc();
    let singles: [(u32, &[u8]); 10] = [
        (0x3f80_0000, &[0, 0, 128, 63]),
        (0, &[0, 0, 0, 0]),
        (0x8000_0000, &[0, 0, 0, 128]),
        (1, &[1, 0, 0, 0]),
        (0x8000_0001, &[1, 0, 0, 128]),
        (0x007f_ffff, &[255, 255, 127, 0]),
        (0x7f7f_ffff, &[255, 255, 127, 127]),
        (0x7f80_0000, &[0, 0, 128, 127]),
        (0xff80_0000, &[0, 0, 128, 255]),
        (NAN, &[0, 0, 192, 127]),
    ];
    let shape = shape_of(alloc, ShapeNode::F32)?;
    for (bits, bytes) in &singles {
        written_both_ways(alloc, &shape, &single(*bits), bytes)?;
        deserializes_strictly(alloc, &shape, bytes, &single(*bits))?;
    }
    let doubles: [(u64, &[u8]); 8] = [
        (0, &[6, 0]),
        (1, &[6, 1]),
        (0x3ff0_0000_0000_0000, &[0, 0, 0, 0, 0, 0, 0, 240, 63]),
        (0x8000_0000_0000_0000, &[0, 0, 0, 0, 0, 0, 0, 0, 128]),
        (0x8000_0000_0000_0001, &[0, 1, 0, 0, 0, 0, 0, 0, 128]),
        (0x7ff0_0000_0000_0000, &[0, 0, 0, 0, 0, 0, 0, 240, 127]),
        (0xfff0_0000_0000_0000, &[0, 0, 0, 0, 0, 0, 0, 240, 255]),
        (LONG_NAN, &[0, 0, 0, 0, 0, 0, 0, 248, 127]),
    ];
    let shape = shape_of(alloc, ShapeNode::F64)?;
    for (bits, bytes) in &doubles {
        written_both_ways(alloc, &shape, &double(*bits), bytes)?;
        deserializes_strictly(alloc, &shape, bytes, &double(*bits))?;
    }
    Ok(())
}

#[test]
fn other_nans_are_read_but_not_strictly(rt: HostRuntime) -> Result<(), Got> {
    let alloc = rt.alloc();
    let shape = shape_of(alloc, ShapeNode::F32)?;
    let singles: [&[u8]; 3] = [&[0, 0, 192, 255], &[1, 0, 128, 127], &[255, 255, 255, 255]];
    for bytes in &singles {
        deserializes(alloc, &shape, bytes, &single(NAN))?;
        is_not_read_strictly(alloc, &shape, bytes, Reason::NotTheWrittenText)?;
    }
    let shape = shape_of(alloc, ShapeNode::F64)?;
    let doubles: [&[u8]; 2] = [
        &[0, 0, 0, 0, 0, 0, 0, 248, 255],
        &[0, 1, 0, 0, 0, 0, 0, 240, 127],
    ];
    for bytes in &doubles {
        deserializes(alloc, &shape, bytes, &double(LONG_NAN))?;
        is_not_read_strictly(alloc, &shape, bytes, Reason::NotTheWrittenText)?;
    }
    // A number that is not packed as it would be.
    let zero = [0, 0, 0, 0, 0, 0, 0, 0, 0];
    deserializes(alloc, &shape, &zero, &double(0))?;
    is_not_read_strictly(alloc, &shape, &zero, Reason::NotTheWrittenText)?;
    let list = shape_of(alloc, seq_of(alloc, ShapeNode::F32)?)?;
    let bytes = [2, 0, 0, 128, 0, 0, 192, 63, 255];
    deserializes(
        alloc,
        &list,
        &bytes,
        &Value::Seq(vec![in alloc; Value::F32(1.0), single(NAN)]?),
    )?;
    is_not_read_strictly(alloc, &list, &bytes, Reason::NotTheWrittenText)
}

#[test]
fn missing_bytes_are_refused(rt: HostRuntime) -> Result<(), Got> {
    let alloc = rt.alloc();
    let float = shape_of(alloc, ShapeNode::F32)?;
    is_not_read(alloc, &float, &[], Reason::Eof)?;
    is_not_read(alloc, &float, &[0, 0, 128], Reason::Eof)?;
    is_not_read(alloc, &float, &[0, 0, 128, 63, 0], Reason::ExpectedEof)?;
    let long = shape_of(alloc, ShapeNode::F64)?;
    is_not_read(alloc, &long, &[0, 0, 0, 0, 0, 0, 0, 240], Reason::Eof)?;
    is_not_read(alloc, &long, &[9, 1], Reason::InvalidPacking)?;
    let list = shape_of(alloc, seq_of(alloc, ShapeNode::F32)?)?;
    is_not_read(alloc, &list, &[2, 0, 0, 128, 0, 0, 0, 63], Reason::Eof)?;
    is_not_read(alloc, &list, &[200, 1], Reason::Eof)
}

#[test]
fn lists_and_records_of_floats(rt: HostRuntime) -> Result<(), Got> {
    let alloc = rt.alloc();
    let floats = Value::Seq(vec![in alloc; Value::F32(1.0), Value::F32(-2.0), Value::F32(0.5)]?);
    let list = shape_of(alloc, seq_of(alloc, ShapeNode::F32)?)?;
    let bytes = [3, 0, 0, 128, 0, 0, 0, 0, 0, 0, 63, 192, 63];
    written_both_ways(alloc, &list, &floats, &bytes)?;
    let pair = ShapeNode::Tuple(vec![in alloc; ShapeNode::F32, ShapeNode::F64]?);
    let pairs = shape_of(alloc, seq_of(alloc, pair)?)?;
    let first = Value::Tuple(vec![in alloc; Value::F32(1.0), Value::F64(1.0)]?);
    let second = Value::Tuple(vec![in alloc; Value::F32(-2.0), Value::F64(2.5)]?);
    let bytes = [
        2, 0, 0, 128, 0, 0, 0, 63, 192, 0, 0, 0, 0, 0, 0, 0, 240, 63, 0, 0, 0, 0, 0, 0, 4, 64,
    ];
    written_both_ways(
        alloc,
        &pairs,
        &Value::Seq(vec![in alloc; first, second]?),
        &bytes,
    )?;
    let map = shape_of(alloc, map_of(alloc, ShapeNode::U8, ShapeNode::F32)?)?;
    let pairs = vec![in alloc;
        (Value::U8(1), Value::F32(0.5)),
        (Value::U8(2), single(0x8000_0000)),
    ]?;
    written_both_ways(
        alloc,
        &map,
        &Value::Map(pairs),
        &[2, 1, 2, 0, 0, 0, 0, 0, 0, 63, 128],
    )
}

#[test]
fn many_floats_come_back(rt: HostRuntime) -> Result<(), Got> {
    let alloc = rt.alloc();
    let mut singles = Vec::new(alloc);
    let mut doubles = Vec::new(alloc);
    for i in 0..200u32 {
        singles.push(single(i.wrapping_mul(0x9E37_79B9)))?;
        doubles.push(double(u64::from(i).wrapping_mul(0x9E37_79B9_7F4A_7C15)))?;
    }
    let lists = Value::Tuple(vec![in alloc; Value::Seq(singles), Value::Seq(doubles)]?);
    let node = ShapeNode::Tuple(vec![in alloc;
        seq_of(alloc, ShapeNode::F32)?,
        seq_of(alloc, ShapeNode::F64)?,
    ]?);
    let shape = shape_of(alloc, node)?;
    let bytes = serialize(alloc, &shape, &lists)?;
    deserializes(alloc, &shape, &bytes, &lists)?;
    deserializes_strictly(alloc, &shape, &bytes, &lists)
}

#[test]
fn floats_of_another_size_are_not_of_the_shape(rt: HostRuntime) -> Result<(), Got> {
    let alloc = rt.alloc();
    let float = shape_of(alloc, ShapeNode::F32)?;
    is_not_written(alloc, &float, &Value::F64(1.0), Reason::NotOfTheShape)?;
    is_not_written(alloc, &float, &Value::U32(1), Reason::NotOfTheShape)?;
    let list = shape_of(alloc, seq_of(alloc, ShapeNode::F64)?)?;
    let mixed = Value::Seq(vec![in alloc; Value::F64(1.0), Value::F32(1.0)]?);
    is_not_written(alloc, &list, &mixed, Reason::NotOfTheShape)
}

#[test]
fn equal_values_have_the_same_bits(rt: HostRuntime) -> Result<(), Fail> {
    assert!(rt; single(NAN) == single(0xffc0_0001));
    assert!(rt; double(LONG_NAN) == double(0xfff0_0000_0000_0001));
    assert!(rt; single(0) != single(0x8000_0000));
    assert!(rt; double(0) != double(0x8000_0000_0000_0000));
    assert!(rt; Value::F32(1.0) == Value::F32(1.0));
    assert!(rt; Value::F64(1.0) != Value::F64(2.0));
    assert!(rt; Value::F32(1.0) != Value::F64(1.0));
    assert!(rt; Value::F32(1.0) != Value::U32(0x3f80_0000));
    Ok(())
}

/// A number of each type, and two values that differ from it.
fn numbers(index: usize) -> (Value, Value, Value) {
    match index {
        0 => (Value::Bool(true), Value::Bool(false), Value::U8(1)),
        1 => (Value::U8(7), Value::U8(8), Value::U16(7)),
        2 => (Value::U16(7), Value::U16(8), Value::U32(7)),
        3 => (Value::U32(7), Value::U32(8), Value::Char('\u{7}')),
        4 => (Value::U64(7), Value::U64(8), Value::U128(7)),
        5 => (Value::U128(7), Value::U128(8), Value::I8(7)),
        6 => (Value::I8(-7), Value::I8(7), Value::I16(-7)),
        7 => (Value::I16(-7), Value::I16(7), Value::I32(-7)),
        8 => (Value::I32(-7), Value::I32(7), Value::I64(-7)),
        9 => (Value::I64(-7), Value::I64(7), Value::I128(-7)),
        10 => (Value::I128(-7), Value::I128(7), Value::U128(7)),
        _ => (Value::Char('a'), Value::Char('b'), Value::U32(97)),
    }
}

/// One value for each case, and two that differ from it.
fn thrice(alloc: Global, index: usize) -> Result<(Value, Value, Value), Got> {
    let values = match index {
        0..=11 => numbers(index),
        12 => (
            Value::Str(String::from_str(alloc, "ab")?),
            Value::Str(String::from_str(alloc, "a")?),
            Value::Bytes(vec![in alloc; 97u8, 98]?),
        ),
        13 => (
            Value::Bytes(vec![in alloc; 1u8, 2]?),
            Value::Bytes(vec![in alloc; 1u8]?),
            Value::Seq(vec![in alloc; Value::U8(1), Value::U8(2)]?),
        ),
        14 => (
            some(alloc, Value::U8(1))?,
            some(alloc, Value::U8(2))?,
            Value::Option(None),
        ),
        15 => (
            Value::Seq(vec![in alloc; Value::U8(1), Value::U8(2)]?),
            Value::Seq(vec![in alloc; Value::U8(1), Value::U8(3)]?),
            Value::Seq(vec![in alloc; Value::U8(1)]?),
        ),
        16 => (
            Value::Map(vec![in alloc; (Value::U8(1), Value::U8(2))]?),
            Value::Map(vec![in alloc; (Value::U8(1), Value::U8(3))]?),
            Value::Map(vec![in alloc; (Value::U8(2), Value::U8(2))]?),
        ),
        17 => (
            Value::Tuple(vec![in alloc; Value::U8(1), Value::F32(2.0)]?),
            Value::Tuple(vec![in alloc; Value::U8(1), Value::F32(3.0)]?),
            Value::Seq(vec![in alloc; Value::U8(1), Value::F32(2.0)]?),
        ),
        18 => (
            variant(alloc, 1, Value::U8(1))?,
            variant(alloc, 2, Value::U8(1))?,
            variant(alloc, 1, Value::U8(2))?,
        ),
        _ => (
            Value::Unit,
            Value::Option(None),
            Value::Tuple(Vec::new(alloc)),
        ),
    };
    Ok(values)
}

#[test]
fn equal_values_have_the_same_cases_and_contents(rt: HostRuntime) -> Result<(), Got> {
    let alloc = rt.alloc();
    for index in 0..20 {
        let (one, other, third) = thrice(alloc, index)?;
        let (same, _, _) = thrice(alloc, index)?;
        if one != same || one == other || one == third || other == third {
            return Err(Got::AnotherValue);
        }
    }
    Ok(())
}

#[test]
fn floats_are_shown(rt: HostRuntime) -> Result<(), Fail> {
    let alloc = rt.alloc();
    let shape = shape_of(alloc, ShapeNode::F64).map_err(|_| bitcode::Error {
        reason: Reason::Eof,
    })?;
    let value = deserialize(alloc, &shape, &[0, 0, 0, 0, 0, 0, 0, 4, 64])?;
    assert_eq!(rt; format!(in alloc; "{value:?}")?.as_str(), "F64(2.5)");
    Ok(())
}
