//! Values that are encoded and decoded by a schema, with the bytes of the Rust crate for the type that the schema
//! describes.
use bitcode::{Reason, Value, encode};
use bitcode_schema::decode::decode_value;
use bitcode_schema::encode::encode_value;
use bitcode_schema::laws::{comes_back, reads_encoded};
use bitcode_schema::schema::{IntKind, Schema, SchemaNode};
use std::alloc::Global;
use std::test::Fail;

// Whether a value has these bytes, and they are decoded as the value.
fn has(alloc: Global, node: SchemaNode, value: &Value, bytes: &[u8]) -> bool {
    let Ok(schema) = Schema::new(node) else {
        return false;
    };
    let written = match encode_value(alloc, &schema, value) {
        Ok(written) => written.as_slice() == bytes,
        Err(_) => false,
    };
    let again = decode_value(alloc, &schema, bytes);
    comes_back(&schema, value, bytes, &again);
    let read = match again {
        Ok(again) => again == *value,
        Err(_) => false,
    };
    written && read
}

// Whether a value is not of the node.
fn is_stranger(alloc: Global, node: SchemaNode, value: &Value) -> bool {
    let Ok(schema) = Schema::new(node) else {
        return false;
    };
    match encode_value(alloc, &schema, value) {
        Ok(_) => false,
        Err(error) => error.reason == Reason::NotOfTheShape,
    }
}

fn text(alloc: Global, text: &str) -> Result<Value, Fail> {
    Ok(Value::Str(String::from_str(alloc, text)?))
}

#[test]
fn single_values_are_written(rt: HostRuntime) -> Result<(), Fail> {
    let alloc = rt.alloc();
    assert!(rt; has(alloc, SchemaNode::Unit, &Value::Unit, &[]));
    assert!(rt; has(alloc, SchemaNode::Bool, &Value::Bool(true), &[1]));
    assert!(rt; has(alloc, SchemaNode::Char, &Value::Char('\\'), &[4, 92]));
    assert!(rt; has(alloc, SchemaNode::Int(IntKind::U64), &Value::U64(65536), &[2, 0, 0, 1, 0]));
    assert!(rt; has(alloc, SchemaNode::Int(IntKind::I16), &Value::I16(257), &[1, 1]));
    assert!(rt; has(alloc, SchemaNode::NonZero(IntKind::U16), &Value::U16(257), &[1, 1]));
    assert!(rt; has(alloc, SchemaNode::Str(Some(2)), &text(alloc, "zk")?, &[2, 122, 107]));
    let span = Value::Tuple(vec![in alloc; Value::U64(200), Value::U32(1)]?);
    assert!(rt; has(alloc, SchemaNode::Duration, &span, &[6, 200, 4, 1]));
    Ok(())
}

#[test]
fn nodes_with_parts_are_written(rt: HostRuntime) -> Result<(), Fail> {
    let alloc = rt.alloc();
    let option = SchemaNode::Option(Box::new(alloc, SchemaNode::Int(IntKind::U32))?);
    let some = Value::Option(Some(Box::new(alloc, Value::U32(4294967289))?));
    assert!(rt; has(alloc, option, &some, &[1, 0, 249, 255, 255, 255]));
    let bool = Box::new(alloc, SchemaNode::Bool)?;
    let result = SchemaNode::Result(bool, Box::new(alloc, SchemaNode::Int(IntKind::U32))?);
    let other = Value::Enum(1, Box::new(alloc, Value::U32(748))?);
    assert!(rt; has(alloc, result, &other, &[1, 2, 236, 2]));
    let key = Box::new(alloc, SchemaNode::Int(IntKind::U8))?;
    let map = SchemaNode::Map(key, Box::new(alloc, SchemaNode::Int(IntKind::U8))?);
    let pairs = vec![in alloc; (Value::U8(253), Value::U8(95)), (Value::U8(254), Value::U8(63)), (Value::U8(255), Value::U8(30))]?;
    assert!(rt; has(alloc, map, &Value::Map(pairs), &[3, 0, 253, 254, 255, 0, 95, 63, 30]));
    let array = SchemaNode::Array(1, Box::new(alloc, SchemaNode::Int(IntKind::U16))?);
    assert!(rt; has(alloc, array, &Value::Seq(vec![in alloc; Value::U16(12810)]?), &[10, 50]));
    Ok(())
}

#[test]
fn a_list_of_pairs_is_written_by_columns(rt: HostRuntime) -> Result<(), Fail> {
    let alloc = rt.alloc();
    let level = SchemaNode::Option(Box::new(alloc, SchemaNode::Int(IntKind::I16))?);
    let pair = SchemaNode::Tuple(vec![in alloc; SchemaNode::Int(IntKind::U8), level]?);
    let list = SchemaNode::List(None, Box::new(alloc, pair)?);
    let mut rows = Vec::new(alloc);
    for (first, second) in [(254, -32768), (254, -32768), (253, -32767)] {
        let held = Value::Option(Some(Box::new(alloc, Value::I16(second))?));
        rows.push(Value::Tuple(vec![in alloc; Value::U8(first), held]?))?;
    }
    let expected = [3, 0, 254, 254, 253, 7, 0, 0, 128, 0, 128, 1, 128];
    assert!(rt; has(alloc, list, &Value::Seq(rows), &expected));
    Ok(())
}

#[test]
fn enums_are_written(rt: HostRuntime) -> Result<(), Fail> {
    let alloc = rt.alloc();
    let one = (String::new(alloc), SchemaNode::Int(IntKind::U8));
    let single = SchemaNode::Enum(vec![in alloc; one]?);
    let value = Value::Enum(0, Box::new(alloc, Value::U8(5))?);
    assert!(rt; has(alloc, single, &value, &[5]));
    let first = (String::new(alloc), SchemaNode::Int(IntKind::U8));
    let second = (String::new(alloc), SchemaNode::Unit);
    let two = SchemaNode::Enum(vec![in alloc; first, second]?);
    let value = Value::Enum(0, Box::new(alloc, Value::U8(81))?);
    assert!(rt; has(alloc, two, &value, &[0, 81]));
    Ok(())
}

#[test]
fn values_of_other_nodes_are_refused(rt: HostRuntime) -> Result<(), Fail> {
    let alloc = rt.alloc();
    assert!(rt; is_stranger(alloc, SchemaNode::Int(IntKind::U16), &Value::U8(1)));
    assert!(rt; is_stranger(alloc, SchemaNode::NonZero(IntKind::U16), &Value::U16(0)));
    assert!(rt; is_stranger(alloc, SchemaNode::Str(Some(2)), &text(alloc, "abc")?));
    assert!(rt; is_stranger(alloc, SchemaNode::Never, &Value::Unit));
    let late = Value::Tuple(vec![in alloc; Value::U64(0), Value::U32(1_000_000_000)]?);
    assert!(rt; is_stranger(alloc, SchemaNode::Duration, &late));
    let short = SchemaNode::List(Some(1), Box::new(alloc, SchemaNode::Bool)?);
    let two = Value::Seq(vec![in alloc; Value::Bool(true), Value::Bool(true)]?);
    assert!(rt; is_stranger(alloc, short, &two));
    let option = SchemaNode::Option(Box::new(alloc, SchemaNode::Bool)?);
    assert!(rt; is_stranger(alloc, option, &Value::Bool(true)));
    Ok(())
}

#[test]
fn what_encode_writes_is_decoded(rt: HostRuntime) -> Result<(), Fail> {
    let alloc = rt.alloc();
    let pair = (true, 7u16);
    let bytes = encode(alloc, &pair)?;
    let fields = vec![in alloc; SchemaNode::Bool, SchemaNode::Int(IntKind::U16)]?;
    let schema = Schema::new(SchemaNode::Tuple(fields))?;
    let value = decode_value(alloc, &schema, bytes.as_slice());
    reads_encoded(&pair, &schema, bytes.as_slice(), &value);
    let expected = Value::Tuple(vec![in alloc; Value::Bool(true), Value::U16(7)]?);
    assert!(rt; value? == expected);
    Ok(())
}
