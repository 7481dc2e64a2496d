//! The second format, as users meet it: each public call once, with ample memory, and values that hold values of their
//! own kind.
use bitcode::coder::Buffer as _;
use bitcode::laws::{
    columns_decide, every_shape, faults_tell, one_value_of_a_datum, spelled_data, strict_data,
    strictly_spelled_data,
};
use bitcode::serde::{VariantDecoder, VariantEncoder};
use bitcode::{
    Decoder, Encoder, NewDecoder, REF_LIMIT, Reason, Shape, ShapeNode, Value, View, ZST_LIMIT,
    deserialize, deserialize_within, serialize,
};
use bitcode_test_support::Got;
use bitcode_test_support::untyped::{
    deserializes_strictly, is_not_read_strictly, is_not_written, map_of, seq_of, shape_of, variant,
    written_both_ways,
};
use std::alloc::Global;
use std::test::Fail;

#[test]
fn a_table_is_a_shape(rt: HostRuntime) -> Result<(), Fail> {
    let alloc = rt.alloc();
    let shape = Shape::new(vec![in alloc; ShapeNode::Unit, ShapeNode::Bool]?, 1)?;
    assert_eq!(rt; shape.root(), 1);
    assert_eq!(rt; shape.table().len(), 2);
    assert_eq!(rt; shape.table()[1], ShapeNode::Bool.clone()?);
    assert_eq!(rt;
        format!(in alloc; "{:?}", ShapeNode::Ref(7))?.as_str(),
        "Ref(7)"
    );
    let bytes = serialize(alloc, &shape, &Value::Bool(true))?;
    assert_eq!(rt; bytes.as_slice(), [1].as_slice());
    let value = deserialize(alloc, &shape, &bytes)?;
    assert_eq!(rt; value, Value::Bool(true).clone()?);
    assert_eq!(rt; format!(in alloc; "{value:?}")?.as_str(), "Bool(true)");
    Ok(())
}

#[test]
fn few_nodes_are_read_and_more_are_not(rt: HostRuntime) -> Result<(), Fail> {
    let alloc = rt.alloc();
    let nodes = vec![in alloc; ShapeNode::Bool, ShapeNode::U8]?;
    let shape = Shape::new(vec![in alloc; ShapeNode::Tuple(nodes)]?, 0)?;
    let value = deserialize_within(alloc, &shape, &[1, 7], 3)?;
    let fields = vec![in alloc; Value::Bool(true), Value::U8(7)]?;
    assert_eq!(rt; value, Value::Tuple(fields));
    match deserialize_within(alloc, &shape, &[1, 7], 2) {
        Ok(_) => assert!(rt; false),
        Err(error) => assert_eq!(rt; error.reason, Reason::TooManyNodes),
    }
    Ok(())
}

#[test]
fn the_limits_are_known(rt: HostRuntime) -> Result<(), Fail> {
    assert_eq!(rt; ZST_LIMIT, 65536);
    assert_eq!(rt; REF_LIMIT, 512);
    Ok(())
}

#[test]
fn laws_are_called_for_what_they_say() {
    columns_decide();
    spelled_data();
    strict_data();
    strictly_spelled_data();
    every_shape();
    faults_tell();
    one_value_of_a_datum();
}

#[test]
fn indices_are_written_and_read(rt: HostRuntime) -> Result<(), Fail> {
    let alloc = rt.alloc();
    let mut written = VariantEncoder::new(alloc);
    written.reserve(3)?;
    written.encode(&200)?;
    written.encode_vectored(&[&0, &200])?;
    let bytes = written.collect(alloc)?;
    assert_eq!(rt; bytes.as_slice(), [0, 200, 0, 200].as_slice());
    let mut input = bytes.as_slice();
    let mut read = VariantDecoder::new(alloc);
    read.populate(&mut input, 3)?;
    assert_eq!(rt; read.decode()?, 200);
    assert_eq!(rt; read.length(200), 2);
    assert_eq!(rt; read.length(1), 0);
    assert_eq!(rt; read.max_variant_index(), Some(200));
    Ok(())
}

#[test]
fn a_value_is_read_strictly(rt: HostRuntime) -> Result<(), Got> {
    let alloc = rt.alloc();
    let flag = shape_of(alloc, ShapeNode::Bool)?;
    deserializes_strictly(alloc, &flag, &[1], &Value::Bool(true))?;
    is_not_read_strictly(alloc, &flag, &[3], Reason::NotTheWrittenText)?;
    is_not_read_strictly(alloc, &flag, &[3, 0], Reason::ExpectedEof)
}

/// A comment: words, and the comments on it.
fn comment(alloc: Global, words: &str, replies: Vec<Value>) -> Result<Value, Got> {
    let words = Value::Str(String::from_str(alloc, words)?);
    Ok(Value::Tuple(vec![in alloc; words, Value::Seq(replies)]?))
}

#[test]
fn comments_have_comments(rt: HostRuntime) -> Result<(), Got> {
    let alloc = rt.alloc();
    let replies = seq_of(alloc, ShapeNode::Ref(0))?;
    let node = ShapeNode::Tuple(vec![in alloc; ShapeNode::Str, replies]?);
    let shape = shape_of(alloc, node)?;
    let why = comment(alloc, "why", Vec::new(alloc))?;
    let no = comment(alloc, "no", vec![in alloc; why]?)?;
    let yes = comment(alloc, "yes", Vec::new(alloc))?;
    let thread = comment(alloc, "ok?", vec![in alloc; yes, no]?)?;
    let bytes = [
        3, 111, 107, 63, 2, 3, 2, 121, 101, 115, 110, 111, 0, 1, 3, 119, 104, 121, 0,
    ];
    written_both_ways(alloc, &shape, &thread, &bytes)
}

/// Null, a bool, a number, a text, a list of such values, or a map from texts to such values.
fn json_shape(alloc: Global) -> Result<Shape, Got> {
    let list = seq_of(alloc, ShapeNode::Ref(0))?;
    let object = map_of(alloc, ShapeNode::Str, ShapeNode::Ref(0))?;
    let mut variants = vec![in alloc; ShapeNode::Unit, ShapeNode::Bool, ShapeNode::I64]?;
    variants.push(ShapeNode::Str)?;
    variants.push(list)?;
    variants.push(object)?;
    shape_of(alloc, ShapeNode::Enum(variants))
}

/// `["new", null]`.
fn tags(alloc: Global) -> Result<Value, Got> {
    let new = variant(alloc, 3, Value::Str(String::from_str(alloc, "new")?))?;
    let null = variant(alloc, 0, Value::Unit)?;
    variant(alloc, 4, Value::Seq(vec![in alloc; new, null]?))
}

#[test]
fn objects_have_objects(rt: HostRuntime) -> Result<(), Got> {
    let alloc = rt.alloc();
    let shape = json_shape(alloc)?;
    let mut pairs = Vec::new(alloc);
    let id = Value::Str(String::from_str(alloc, "id")?);
    pairs.push((id, variant(alloc, 2, Value::I64(7))?))?;
    let key = Value::Str(String::from_str(alloc, "tags")?);
    pairs.push((key, tags(alloc)?))?;
    let object = variant(alloc, 5, Value::Map(pairs))?;
    let bytes = [
        5, 2, 2, 4, 105, 100, 116, 97, 103, 115, 2, 4, 6, 7, 2, 3, 0, 3, 110, 101, 119,
    ];
    written_both_ways(alloc, &shape, &object, &bytes)?;
    is_not_written(alloc, &shape, &Value::I64(7), Reason::NotOfTheShape)
}
