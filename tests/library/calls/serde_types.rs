//! The second format for Rust types: values of each supported type, and of recursive types, are written as the same
//! content is under a shape, and are read back.
use bitcode::serde::{
    DeserializeAs, SerializeAs, deserialize_as, deserialize_as_within, serialize_as,
};
use bitcode::{Error, Reason, Shape, ShapeNode, Value, serialize};
use bitcode_recursive_types::comment::Comment;
use bitcode_recursive_types::directory::{Directory, Entry};
use bitcode_recursive_types::expr::Expr;
use bitcode_recursive_types::node::Node;
use std::alloc::Global;
use std::borrow::CowStr;
use std::boxed::BoxedStr;
use std::cmp::Ordering;
use std::collections::{LinkedList, VecDeque};
use std::marker::PhantomData;
use std::net::{IpAddr, Ipv4Addr, Ipv6Addr, SocketAddr, SocketAddrV4, SocketAddrV6};
use std::num::{Saturating, Wrapping};
use std::ops::{Range, RangeInclusive};
use std::rc::{Rc, RcSlice, RcStr};
use std::sync::{Arc, ArcSlice, ArcStr};

// Writes a value, expects the bytes of a `Value` under a node, and writes what is read of them again.
fn comes_back<T: SerializeAs + for<'a> DeserializeAs<'a>>(
    alloc: Global,
    t: &T,
    node: ShapeNode,
    value: &Value,
) -> Result<bool, Error> {
    let shape = Shape::new(vec![in alloc; node]?, 0)?;
    let bytes = serialize_as(alloc, t)?;
    if bytes != serialize(alloc, &shape, value)? {
        return Ok(false);
    }
    let again: T = deserialize_as(alloc, bytes.as_slice())?;
    let within: T = deserialize_as_within(alloc, bytes.as_slice(), 1000)?;
    Ok(serialize_as(alloc, &again)? == bytes && serialize_as(alloc, &within)? == bytes)
}

fn text(alloc: Global, words: &str) -> Result<Value, Error> {
    Ok(Value::Str(String::from_str(alloc, words)?))
}

#[test]
fn leaves_come_back(rt: HostRuntime) -> Result<(), Error> {
    let alloc = rt.alloc();
    assert!(rt; comes_back(alloc, &true, ShapeNode::Bool, &Value::Bool(true))?);
    assert!(rt; comes_back(alloc, &7u8, ShapeNode::U8, &Value::U8(7))?);
    assert!(rt; comes_back(alloc, &700u16, ShapeNode::U16, &Value::U16(700))?);
    assert!(rt; comes_back(alloc, &70_000u32, ShapeNode::U32, &Value::U32(70_000))?);
    assert!(rt; comes_back(alloc, &7u64, ShapeNode::U64, &Value::U64(7))?);
    assert!(rt; comes_back(alloc, &7u128, ShapeNode::U128, &Value::U128(7))?);
    assert!(rt; comes_back(alloc, &-7i8, ShapeNode::I8, &Value::I8(-7))?);
    assert!(rt; comes_back(alloc, &-700i16, ShapeNode::I16, &Value::I16(-700))?);
    assert!(rt; comes_back(alloc, &-7i32, ShapeNode::I32, &Value::I32(-7))?);
    assert!(rt; comes_back(alloc, &-7i64, ShapeNode::I64, &Value::I64(-7))?);
    assert!(rt; comes_back(alloc, &-7i128, ShapeNode::I128, &Value::I128(-7))?);
    assert!(rt; comes_back(alloc, &1.5f32, ShapeNode::F32, &Value::F32(1.5))?);
    assert!(rt; comes_back(alloc, &-2.5f64, ShapeNode::F64, &Value::F64(-2.5))?);
    assert!(rt; comes_back(alloc, &'é', ShapeNode::Char, &Value::Char('é'))?);
    assert!(rt; comes_back(alloc, &(), ShapeNode::Unit, &Value::Unit)?);
    let words = String::from_str(alloc, "words")?;
    assert!(rt; comes_back(alloc, &words, ShapeNode::Str, &text(alloc, "words")?)?);
    let bytes = serialize_as(alloc, &"words")?;
    let borrowed: &str = deserialize_as(alloc, bytes.as_slice())?;
    assert!(rt; borrowed == "words");
    Ok(())
}

#[test]
fn containers_come_back(rt: HostRuntime) -> Result<(), Error> {
    let alloc = rt.alloc();
    let numbers = vec![in alloc; 1u8, 2, 3]?;
    assert!(rt; comes_back(alloc, &numbers, ShapeNode::Bytes, &Value::Bytes(vec![in alloc; 1u8, 2, 3]?))?);
    let option = ShapeNode::Option(Box::new(alloc, ShapeNode::Bool)?);
    let some = Value::Option(Some(Box::new(alloc, Value::Bool(true))?));
    assert!(rt; comes_back(alloc, &Some(true), option, &some)?);
    let none: Option<bool> = None;
    let option = ShapeNode::Option(Box::new(alloc, ShapeNode::Bool)?);
    assert!(rt; comes_back(alloc, &none, option, &Value::Option(None))?);
    assert!(rt; comes_back(alloc, &Box::new(alloc, 7u64)?, ShapeNode::U64, &Value::U64(7))?);
    assert!(rt; serialize_as(alloc, &&7u64)? == serialize_as(alloc, &7u64)?);
    let units = vec![in alloc; (), ()]?;
    let list = ShapeNode::Seq(Box::new(alloc, ShapeNode::Unit)?);
    let values = Value::Seq(vec![in alloc; Value::Unit, Value::Unit]?);
    assert!(rt; comes_back(alloc, &units, list, &values)?);
    Ok(())
}

// A tuple of bytes, as many as there are.
fn bytes_of(alloc: Global, count: u8) -> Result<(ShapeNode, Value), Error> {
    let mut nodes = Vec::new(alloc);
    let mut values = Vec::new(alloc);
    for i in 0..count {
        nodes.push(ShapeNode::U8)?;
        values.push(Value::U8(i))?;
    }
    Ok((ShapeNode::Tuple(nodes), Value::Tuple(values)))
}

#[test]
fn tuples_come_back(rt: HostRuntime) -> Result<(), Error> {
    let alloc = rt.alloc();
    let (node, value) = bytes_of(alloc, 1)?;
    assert!(rt; comes_back(alloc, &(0u8,), node, &value)?);
    let (node, value) = bytes_of(alloc, 2)?;
    assert!(rt; comes_back(alloc, &(0u8, 1u8), node, &value)?);
    let (node, value) = bytes_of(alloc, 3)?;
    assert!(rt; comes_back(alloc, &(0u8, 1u8, 2u8), node, &value)?);
    let (node, value) = bytes_of(alloc, 4)?;
    assert!(rt; comes_back(alloc, &(0u8, 1u8, 2u8, 3u8), node, &value)?);
    let (node, value) = bytes_of(alloc, 5)?;
    assert!(rt; comes_back(alloc, &(0u8, 1u8, 2u8, 3u8, 4u8), node, &value)?);
    let (node, value) = bytes_of(alloc, 6)?;
    assert!(rt; comes_back(alloc, &(0u8, 1u8, 2u8, 3u8, 4u8, 5u8), node, &value)?);
    let (node, value) = bytes_of(alloc, 7)?;
    assert!(rt; comes_back(alloc, &(0u8, 1u8, 2u8, 3u8, 4u8, 5u8, 6u8), node, &value)?);
    let (node, value) = bytes_of(alloc, 8)?;
    assert!(rt; comes_back(alloc, &(0u8, 1u8, 2u8, 3u8, 4u8, 5u8, 6u8, 7u8), node, &value)?);
    Ok(())
}

#[test]
fn other_types_of_std_come_back(rt: HostRuntime) -> Result<(), Error> {
    let alloc = rt.alloc();
    assert!(rt; comes_back(alloc, &7usize, ShapeNode::U64, &Value::U64(7))?);
    assert!(rt; comes_back(alloc, &usize::MAX, ShapeNode::U64, &Value::U64(u64::MAX))?);
    assert!(rt; comes_back(alloc, &-7isize, ShapeNode::I64, &Value::I64(-7))?);
    assert!(rt; comes_back(alloc, &Rc::new(alloc, 7u16)?, ShapeNode::U16, &Value::U16(7))?);
    assert!(rt; comes_back(alloc, &Arc::new(alloc, true)?, ShapeNode::Bool, &Value::Bool(true))?);
    assert!(rt; comes_back(alloc, &Wrapping(7u32), ShapeNode::U32, &Value::U32(7))?);
    assert!(rt; comes_back(alloc, &Saturating(-7i8), ShapeNode::I8, &Value::I8(-7))?);
    let (node, value) = bytes_of(alloc, 2)?;
    assert!(rt; comes_back(alloc, &Range { start: 0u8, end: 1u8 }, node, &value)?);
    let (node, value) = bytes_of(alloc, 2)?;
    assert!(rt; comes_back(alloc, &RangeInclusive::new(0u8, 1u8), node, &value)?);
    Ok(())
}

#[test]
fn long_tuples_come_back(rt: HostRuntime) -> Result<(), Error> {
    let alloc = rt.alloc();
    let (node, value) = bytes_of(alloc, 9)?;
    assert!(rt; comes_back(alloc, &(0u8, 1u8, 2u8, 3u8, 4u8, 5u8, 6u8, 7u8, 8u8), node, &value)?);
    let (node, value) = bytes_of(alloc, 10)?;
    assert!(rt; comes_back(alloc, &(0u8, 1u8, 2u8, 3u8, 4u8, 5u8, 6u8, 7u8, 8u8, 9u8), node, &value)?);
    let (node, value) = bytes_of(alloc, 11)?;
    assert!(rt; comes_back(alloc, &(0u8, 1u8, 2u8, 3u8, 4u8, 5u8, 6u8, 7u8, 8u8, 9u8, 10u8), node, &value)?);
    let (node, value) = bytes_of(alloc, 12)?;
    assert!(rt; comes_back(alloc, &(0u8, 1u8, 2u8, 3u8, 4u8, 5u8, 6u8, 7u8, 8u8, 9u8, 10u8, 11u8), node, &value)?);
    let (node, value) = bytes_of(alloc, 13)?;
    assert!(rt; comes_back(alloc, &(0u8, 1u8, 2u8, 3u8, 4u8, 5u8, 6u8, 7u8, 8u8, 9u8, 10u8, 11u8, 12u8), node, &value)?);
    let (node, value) = bytes_of(alloc, 14)?;
    assert!(rt; comes_back(alloc, &(0u8, 1u8, 2u8, 3u8, 4u8, 5u8, 6u8, 7u8, 8u8, 9u8, 10u8, 11u8, 12u8, 13u8), node, &value)?);
    let (node, value) = bytes_of(alloc, 15)?;
    assert!(rt; comes_back(alloc, &(0u8, 1u8, 2u8, 3u8, 4u8, 5u8, 6u8, 7u8, 8u8, 9u8, 10u8, 11u8, 12u8, 13u8, 14u8), node, &value)?);
    let (node, value) = bytes_of(alloc, 16)?;
    assert!(rt; comes_back(alloc, &(0u8, 1u8, 2u8, 3u8, 4u8, 5u8, 6u8, 7u8, 8u8, 9u8, 10u8, 11u8, 12u8, 13u8, 14u8, 15u8), node, &value)?);
    Ok(())
}

#[test]
fn arrays_come_back(rt: HostRuntime) -> Result<(), Error> {
    let alloc = rt.alloc();
    let (node, value) = bytes_of(alloc, 0)?;
    let none: [u8; 0] = [];
    assert!(rt; comes_back(alloc, &none, node, &value)?);
    let (node, value) = bytes_of(alloc, 1)?;
    assert!(rt; comes_back(alloc, &[0u8], node, &value)?);
    let (node, value) = bytes_of(alloc, 3)?;
    assert!(rt; comes_back(alloc, &[0u8, 1, 2], node, &value)?);
    let (node, value) = bytes_of(alloc, 2)?;
    let list = ShapeNode::Seq(Box::new(alloc, node)?);
    let values = Value::Seq(vec![in alloc; value]?);
    assert!(rt; comes_back(alloc, &vec![in alloc; [0u8, 1]]?, list, &values)?);
    let again: [u8; 3] = deserialize_as(alloc, &[7, 8, 9])?;
    assert!(rt; again == [7, 8, 9]);
    Ok(())
}

// A list of two bytes.
fn two_bytes(alloc: Global) -> Result<(ShapeNode, Value, Vec<u8>), Error> {
    let list = vec![in alloc; 7u8, 8]?;
    Ok((ShapeNode::Bytes, Value::Bytes(vec![in alloc; 7u8, 8]?), list))
}

#[test]
fn lists_of_std_come_back(rt: HostRuntime) -> Result<(), Error> {
    let alloc = rt.alloc();
    let (node, value, list) = two_bytes(alloc)?;
    assert!(rt; serialize_as(alloc, &list.as_slice())? == serialize_as(alloc, &list)?);
    let mut queue = VecDeque::from(list);
    queue.pop_front();
    queue.push_back(8)?;
    queue.push_front(7)?;
    queue.pop_back();
    assert!(rt; comes_back(alloc, &queue, node, &value)?);
    let (node, value, list) = two_bytes(alloc)?;
    assert!(rt; comes_back(alloc, &list.into_boxed_slice(), node, &value)?);
    let (node, value, list) = two_bytes(alloc)?;
    assert!(rt; comes_back(alloc, &RcSlice::from_vec(list)?, node, &value)?);
    let (node, value, list) = two_bytes(alloc)?;
    assert!(rt; comes_back(alloc, &ArcSlice::from_vec(list)?, node, &value)?);
    let (node, value, list) = two_bytes(alloc)?;
    assert!(rt; comes_back(alloc, &LinkedList::from_iter(alloc, list)?, node, &value)?);
    Ok(())
}

#[test]
fn texts_of_std_come_back(rt: HostRuntime) -> Result<(), Error> {
    let alloc = rt.alloc();
    let words = text(alloc, "words")?;
    assert!(rt; comes_back(alloc, &BoxedStr::from_str(alloc, "words")?, ShapeNode::Str, &words)?);
    assert!(rt; comes_back(alloc, &RcStr::from_str(alloc, "words")?, ShapeNode::Str, &words)?);
    assert!(rt; comes_back(alloc, &ArcStr::from_str(alloc, "words")?, ShapeNode::Str, &words)?);
    let bytes = serialize_as(alloc, &CowStr::Borrowed("words"))?;
    let borrowed: CowStr<'_> = deserialize_as(alloc, bytes.as_slice())?;
    assert!(rt; borrowed.as_str() == "words" && bytes == serialize_as(alloc, &"words")?);
    Ok(())
}

// The node and the value of an address with a port.
fn with_port(alloc: Global, octets: u8) -> Result<(ShapeNode, Value), Error> {
    let (node, value) = bytes_of(alloc, octets)?;
    let nodes = vec![in alloc; node, ShapeNode::U16]?;
    Ok((ShapeNode::Tuple(nodes), Value::Tuple(vec![in alloc; value, Value::U16(80)]?)))
}

// The node of either family, and a value of one of them.
fn of_family(
    alloc: Global,
    index: u8,
    four: (ShapeNode, Value),
    six: (ShapeNode, Value),
) -> Result<(ShapeNode, Value), Error> {
    let nodes = vec![in alloc; four.0, six.0]?;
    let inside = if index == 0 { four.1 } else { six.1 };
    Ok((ShapeNode::Enum(nodes), Value::Enum(u32::from(index), Box::new(alloc, inside)?)))
}

#[test]
fn addresses_come_back(rt: HostRuntime) -> Result<(), Error> {
    let alloc = rt.alloc();
    let four = Ipv4Addr::new(0, 1, 2, 3);
    let six = Ipv6Addr::from_octets([0, 1, 2, 3, 4, 5, 6, 7, 8, 9, 10, 11, 12, 13, 14, 15]);
    let (node, value) = bytes_of(alloc, 4)?;
    assert!(rt; comes_back(alloc, &four, node, &value)?);
    let (node, value) = bytes_of(alloc, 16)?;
    assert!(rt; comes_back(alloc, &six, node, &value)?);
    let (node, value) = of_family(alloc, 0, bytes_of(alloc, 4)?, bytes_of(alloc, 16)?)?;
    assert!(rt; comes_back(alloc, &IpAddr::V4(four), node, &value)?);
    let (node, value) = of_family(alloc, 1, bytes_of(alloc, 4)?, bytes_of(alloc, 16)?)?;
    assert!(rt; comes_back(alloc, &IpAddr::V6(six), node, &value)?);
    let four = SocketAddrV4::new(four, 80);
    let six = SocketAddrV6::new(six, 80, 0, 0);
    let (node, value) = with_port(alloc, 4)?;
    assert!(rt; comes_back(alloc, &four, node, &value)?);
    let (node, value) = with_port(alloc, 16)?;
    assert!(rt; comes_back(alloc, &six, node, &value)?);
    // the flow information and the scope are not written
    let scoped = SocketAddrV6::new(*six.ip(), 80, 1, 2);
    let (node, value) = with_port(alloc, 16)?;
    assert!(rt; comes_back(alloc, &scoped, node, &value)?);
    let bytes = serialize_as(alloc, &scoped)?;
    let again: SocketAddrV6 = deserialize_as(alloc, bytes.as_slice())?;
    assert!(rt; again == six);
    let (node, value) = of_family(alloc, 0, with_port(alloc, 4)?, with_port(alloc, 16)?)?;
    assert!(rt; comes_back(alloc, &SocketAddr::V4(four), node, &value)?);
    let (node, value) = of_family(alloc, 1, with_port(alloc, 4)?, with_port(alloc, 16)?)?;
    assert!(rt; comes_back(alloc, &SocketAddr::V6(six), node, &value)?);
    Ok(())
}

#[test]
fn orderings_and_markers_come_back(rt: HostRuntime) -> Result<(), Error> {
    let alloc = rt.alloc();
    let orders = [Ordering::Less, Ordering::Equal, Ordering::Greater];
    for i in 0..3u8 {
        let units = vec![in alloc; ShapeNode::Unit, ShapeNode::Unit, ShapeNode::Unit]?;
        let value = Value::Enum(u32::from(i), Box::new(alloc, Value::Unit)?);
        assert!(rt; comes_back(alloc, &orders[i as usize], ShapeNode::Enum(units), &value)?);
    }
    let marker: PhantomData<u8> = PhantomData;
    assert!(rt; comes_back(alloc, &marker, ShapeNode::Unit, &Value::Unit)?);
    Ok(())
}

#[test]
fn recursive_types_come_back(rt: HostRuntime) -> Result<(), Error> {
    let alloc = rt.alloc();
    let reply = Comment {
        text: "why",
        replies: Vec::new(alloc),
    };
    let thread = Comment {
        text: "ok?",
        replies: vec![in alloc; reply]?,
    };
    let bytes = serialize_as(alloc, &thread)?;
    assert!(rt; bytes.as_slice() == [3, 111, 107, 63, 1, 3, 119, 104, 121, 0].as_slice());
    let again: Comment<'_> = deserialize_as(alloc, bytes.as_slice())?;
    assert!(rt; again.text == "ok?" && again.replies.as_slice()[0].text == "why");
    match deserialize_as_within::<Comment<'_>>(alloc, bytes.as_slice(), 5) {
        Ok(_again) => assert!(rt; false),
        Err(error) => assert!(rt; error.reason == Reason::TooManyNodes),
    }
    let within: Comment<'_> = deserialize_as_within(alloc, bytes.as_slice(), 6)?;
    assert!(rt; serialize_as(alloc, &within)? == bytes);
    let leaf = Node {
        name: String::from_str(alloc, "leaf")?,
        weight: -1,
        children: Vec::new(alloc),
        labels: vec![in alloc; (1, true)]?,
    };
    let bytes = serialize_as(alloc, &leaf)?;
    let again: Node = deserialize_as(alloc, bytes.as_slice())?;
    assert!(rt; again.name.as_str() == "leaf" && again.weight == -1 && again.labels.as_slice() == [(1, true)].as_slice());
    let inside = Directory {
        name: String::from_str(alloc, "b")?,
        entries: Vec::new(alloc),
    };
    let outside = Directory {
        name: String::from_str(alloc, "a")?,
        entries: vec![in alloc; Entry::File(7), Entry::Folder(inside), Entry::Nothing]?,
    };
    let bytes = serialize_as(alloc, &outside)?;
    let again: Directory = deserialize_as(alloc, bytes.as_slice())?;
    assert!(rt; again.entries.len() == 3 && serialize_as(alloc, &again)? == bytes);
    let entry: Entry = deserialize_as(alloc, serialize_as(alloc, &Entry::File(7))?.as_slice())?;
    assert!(rt; matches!(entry, Entry::File(7)));
    Ok(())
}

#[test]
fn a_value_nests_at_most_513_deep(rt: HostRuntime) -> Result<(), Error> {
    let alloc = rt.alloc();
    let mut deep = Expr::Num(1);
    for _i in 0..512 {
        deep = Expr::Neg(Box::new(alloc, deep)?);
    }
    let bytes = serialize_as(alloc, &deep)?;
    let again: Expr = deserialize_as(alloc, bytes.as_slice())?;
    let deeper = Expr::Neg(Box::new(alloc, again)?);
    match serialize_as(alloc, &deeper) {
        Ok(_bytes) => assert!(rt; false),
        Err(error) => assert!(rt; error.reason == Reason::NestedTooDeep),
    }
    Ok(())
}
