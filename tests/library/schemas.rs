//! Bytes that are checked and decoded by a schema, with the answers of the Rust crate for the type that the schema
//! describes.
use bitcode::{Error, Reason, Value};
use bitcode_schema::check::{check_value, check_value_strict};
use bitcode_schema::decode::{decode_value, decode_value_strict, decode_value_within};
use bitcode_schema::encode::encode_value;
use bitcode_schema::schema::{IntKind, Schema, SchemaNode};
use std::alloc::{AllocError, Global};
use std::test::Fail;

fn boxed(alloc: Global, node: SchemaNode) -> Result<Box<SchemaNode>, AllocError> {
    match Box::new(alloc, node) {
        Ok(node) => Ok(node),
        Err(_) => Err(AllocError),
    }
}

// An enum of variants with these payloads.
fn enum_of(alloc: Global, payloads: Vec<SchemaNode>) -> Result<SchemaNode, AllocError> {
    let mut variants = Vec::new(alloc);
    for payload in payloads {
        variants.push((String::new(alloc), payload))?;
    }
    Ok(SchemaNode::Enum(variants))
}

// Whether a value that was decoded has these bytes exactly if they are those that are written, and whether the strict
// calls say so.
fn comes_back(alloc: Global, schema: &Schema, bytes: &[u8], value: &Value) -> bool {
    let written = match encode_value(alloc, schema, value) {
        Ok(again) => again.as_slice() == bytes,
        Err(_) => return false,
    };
    let decoded = match decode_value_strict(alloc, schema, bytes) {
        Ok(again) => again == *value,
        Err(error) => !written && error.reason == Reason::NotTheWrittenText,
    };
    decoded && written == check_value_strict(alloc, schema, bytes).is_ok()
}

// What is wrong with the bytes, if anything is. Where decoding answers otherwise than the check, this is `BadShape`,
// which no call here answers.
fn fault(alloc: Global, schema: &Schema, bytes: &[u8]) -> Option<Reason> {
    let found = match check_value(alloc, schema, bytes) {
        Ok(()) => None,
        Err(error) => Some(error.reason),
    };
    let same = match decode_value(alloc, schema, bytes) {
        Ok(value) => found == None && comes_back(alloc, schema, bytes, &value),
        Err(error) => found == Some(error.reason),
    };
    if same { found } else { Some(Reason::BadShape) }
}

#[test]
fn single_values(rt: HostRuntime) -> Result<(), Fail> {
    let alloc = rt.alloc();
    let schema = Schema::new(SchemaNode::Bool)?;
    assert!(rt; fault(alloc, &schema, &[127]) == None);
    assert!(rt; fault(alloc, &schema, &[81, 0]) == Some(Reason::ExpectedEof));
    let schema = Schema::new(SchemaNode::Int(IntKind::U8))?;
    assert!(rt; fault(alloc, &schema, &[254]) == None);
    assert!(rt; fault(alloc, &schema, &[9, 117]) == Some(Reason::ExpectedEof));
    let schema = Schema::new(SchemaNode::Int(IntKind::U64))?;
    assert!(rt; fault(alloc, &schema, &[4, 49, 0]) == None);
    assert!(rt; fault(alloc, &schema, &[133, 127]) == Some(Reason::InvalidPacking));
    assert!(rt; fault(alloc, &schema, &[4, 1]) == Some(Reason::Eof));
    assert!(rt; fault(alloc, &schema, &[2, 2, 0, 1, 0, 35]) == Some(Reason::ExpectedEof));
    let schema = Schema::new(SchemaNode::Int(IntKind::I128))?;
    assert!(rt; fault(alloc, &schema, &[6, 0, 1]) == None);
    assert!(rt; fault(alloc, &schema, &[8, 190, 255]) == Some(Reason::ExpectedEof));
    assert!(rt;
        fault(alloc, &schema, &[196, 138, 166, 253, 148, 168, 214]) == Some(Reason::InvalidPacking)
    );
    let schema = Schema::new(SchemaNode::NonZero(IntKind::U8))?;
    assert!(rt; fault(alloc, &schema, &[111]) == None);
    assert!(rt; fault(alloc, &schema, &[0]) == Some(Reason::InvalidBitPattern));
    assert!(rt; fault(alloc, &schema, &[44, 4]) == Some(Reason::ExpectedEof));
    let schema = Schema::new(SchemaNode::NonZero(IntKind::I64))?;
    assert!(rt; fault(alloc, &schema, &[0, 0, 0, 0, 0, 0, 0, 0, 128]) == None);
    assert!(rt; fault(alloc, &schema, &[0]) == Some(Reason::Eof));
    assert!(rt; fault(alloc, &schema, &[6, 16, 109]) == Some(Reason::ExpectedEof));
    assert!(rt; fault(alloc, &schema, &[45, 7, 11]) == Some(Reason::InvalidPacking));
    let schema = Schema::new(SchemaNode::Char)?;
    assert!(rt; fault(alloc, &schema, &[2, 0, 128]) == None);
    assert!(rt; fault(alloc, &schema, &[]) == Some(Reason::Eof));
    assert!(rt; fault(alloc, &schema, &[32, 57]) == Some(Reason::InvalidPacking));
    assert!(rt; fault(alloc, &schema, &[2, 165, 255, 7]) == Some(Reason::ExpectedEof));
    assert!(rt; fault(alloc, &schema, &[0, 254, 255, 255, 255]) == Some(Reason::InvalidBitPattern));
    let schema = Schema::new(SchemaNode::Duration)?;
    assert!(rt;
        fault(
            alloc,
            &schema,
            &[0, 253, 255, 255, 255, 255, 255, 255, 255, 4, 29]
        ) == None
    );
    assert!(rt; fault(alloc, &schema, &[204, 2]) == Some(Reason::InvalidPacking));
    assert!(rt; fault(alloc, &schema, &[6, 200, 4]) == Some(Reason::Eof));
    assert!(rt; fault(alloc, &schema, &[6, 200, 4, 1, 116]) == Some(Reason::ExpectedEof));
    let schema = Schema::new(SchemaNode::Uuid)?;
    assert!(rt; fault(alloc, &schema, &[6, 6]) == Some(Reason::Eof));
    let schema = Schema::new(SchemaNode::Unit)?;
    assert!(rt; fault(alloc, &schema, &[]) == None);
    assert!(rt; fault(alloc, &schema, &[254]) == Some(Reason::ExpectedEof));
    let schema = Schema::new(SchemaNode::Str(None))?;
    assert!(rt;
        fault(
            alloc,
            &schema,
            &[10, 103, 240, 144, 128, 128, 117, 121, 224, 160, 128]
        ) == None
    );
    assert!(rt; fault(alloc, &schema, &[128, 0]) == Some(Reason::Eof));
    assert!(rt; fault(alloc, &schema, &[3, 242, 255, 248]) == Some(Reason::InvalidUtf8));
    assert!(rt; fault(alloc, &schema, &[255, 2, 0, 0, 0, 0, 0]) == Some(Reason::ExpectedEof));
    assert!(rt;
        fault(
            alloc,
            &schema,
            &[255, 0, 255, 255, 255, 255, 255, 255, 7, 0]
        ) == Some(Reason::HugeLength)
    );
    let schema = Schema::new(SchemaNode::Str(Some(2)))?;
    assert!(rt; fault(alloc, &schema, &[2, 32, 57]) == None);
    assert!(rt; fault(alloc, &schema, &[148]) == Some(Reason::Eof));
    assert!(rt; fault(alloc, &schema, &[2, 194, 128, 7]) == Some(Reason::ExpectedEof));
    assert!(rt; fault(alloc, &schema, &[2, 139, 195, 169]) == Some(Reason::InvalidUtf8));
    assert!(rt;
        fault(
            alloc,
            &schema,
            &[9, 107, 195, 169, 206, 177, 97, 237, 159, 191]
        ) == Some(Reason::InvalidArrayString)
    );
    let schema = Schema::new(SchemaNode::Str(Some(300)))?;
    assert!(rt;
        fault(
            alloc,
            &schema,
            &[
                12, 195, 169, 194, 128, 223, 191, 194, 128, 195, 169, 194, 128
            ]
        ) == None
    );
    assert!(rt; fault(alloc, &schema, &[5, 6]) == Some(Reason::Eof));
    assert!(rt; fault(alloc, &schema, &[0, 10, 6, 8, 12, 3, 7]) == Some(Reason::ExpectedEof));
    assert!(rt;
        fault(alloc, &schema, &[255, 2, 1, 0, 0, 0, 164, 133, 215]) == Some(Reason::InvalidUtf8)
    );
    assert!(rt;
        fault(alloc, &schema, &[255, 0, 0, 0, 0, 0, 0, 0, 0, 128]) == Some(Reason::HugeLength)
    );
    Ok(())
}

#[test]
fn lists(rt: HostRuntime) -> Result<(), Fail> {
    let alloc = rt.alloc();
    let schema = Schema::new(SchemaNode::List(None, boxed(alloc, SchemaNode::Unit)?))?;
    assert!(rt; fault(alloc, &schema, &[0]) == None);
    assert!(rt; fault(alloc, &schema, &[10, 16]) == Some(Reason::ExpectedEof));
    assert!(rt;
        fault(
            alloc,
            &schema,
            &[255, 0, 255, 255, 255, 255, 255, 255, 255, 255, 17, 39]
        ) == Some(Reason::HugeLength)
    );
    let schema = Schema::new(SchemaNode::List(None, boxed(alloc, SchemaNode::Char)?))?;
    assert!(rt;
        fault(
            alloc,
            &schema,
            &[17, 4, 1, 98, 230, 112, 73, 10, 197, 9, 181, 200, 12]
        ) == None
    );
    assert!(rt; fault(alloc, &schema, &[110, 130]) == Some(Reason::InvalidPacking));
    assert!(rt; fault(alloc, &schema, &[255, 1, 2, 14, 224]) == Some(Reason::Eof));
    let schema = Schema::new(SchemaNode::List(
        None,
        boxed(alloc, SchemaNode::NonZero(IntKind::U8))?,
    ))?;
    assert!(rt; fault(alloc, &schema, &[5, 0, 14, 16, 15, 15, 14]) == None);
    assert!(rt; fault(alloc, &schema, &[]) == Some(Reason::Eof));
    assert!(rt; fault(alloc, &schema, &[8, 10, 176]) == Some(Reason::InvalidBitPattern));
    assert!(rt; fault(alloc, &schema, &[2, 42, 28, 244]) == Some(Reason::ExpectedEof));
    let schema = Schema::new(SchemaNode::List(
        None,
        boxed(
            alloc,
            SchemaNode::List(None, boxed(alloc, SchemaNode::Int(IntKind::U8))?),
        )?,
    ))?;
    assert!(rt; fault(alloc, &schema, &[17, 10, 0, 0]) == Some(Reason::Eof));
    assert!(rt;
        fault(alloc, &schema, &[10, 149, 6, 10, 70, 132, 59]) == Some(Reason::InvalidPacking)
    );
    assert!(rt;
        fault(alloc, &schema, &[255, 0, 0, 0, 0, 0, 0, 0, 0, 0, 22]) == Some(Reason::ExpectedEof)
    );
    assert!(rt;
        fault(
            alloc,
            &schema,
            &[255, 5, 249, 255, 255, 255, 255, 255, 255, 63, 7]
        ) == Some(Reason::HugeLength)
    );
    let schema = Schema::new(SchemaNode::List(
        Some(2),
        boxed(alloc, SchemaNode::Int(IntKind::U8))?,
    ))?;
    assert!(rt; fault(alloc, &schema, &[2, 0, 2]) == None);
    assert!(rt; fault(alloc, &schema, &[2, 255]) == Some(Reason::Eof));
    assert!(rt; fault(alloc, &schema, &[3, 6, 6]) == Some(Reason::InvalidArrayVec));
    assert!(rt; fault(alloc, &schema, &[199, 255, 254]) == Some(Reason::InvalidPacking));
    let schema = Schema::new(SchemaNode::List(
        Some(500),
        boxed(alloc, SchemaNode::Int(IntKind::U8))?,
    ))?;
    assert!(rt; fault(alloc, &schema, &[5, 0, 251, 253, 252, 253, 253]) == None);
    assert!(rt; fault(alloc, &schema, &[128]) == Some(Reason::Eof));
    assert!(rt;
        fault(alloc, &schema, &[5, 0, 253, 253, 253, 253, 254, 249]) == Some(Reason::ExpectedEof)
    );
    assert!(rt;
        fault(alloc, &schema, &[178, 216, 154, 135, 187, 8, 6, 230]) == Some(Reason::InvalidPacking)
    );
    assert!(rt;
        fault(
            alloc,
            &schema,
            &[255, 0, 255, 255, 255, 255, 255, 255, 255, 255]
        ) == Some(Reason::HugeLength)
    );
    let schema = Schema::new(SchemaNode::Map(
        boxed(alloc, SchemaNode::Int(IntKind::U8))?,
        boxed(alloc, SchemaNode::Int(IntKind::U8))?,
    ))?;
    assert!(rt;
        fault(
            alloc,
            &schema,
            &[7, 0, 91, 252, 107, 189, 144, 15, 180, 10, 27]
        ) == None
    );
    assert!(rt; fault(alloc, &schema, &[]) == Some(Reason::Eof));
    assert!(rt; fault(alloc, &schema, &[76, 191]) == Some(Reason::InvalidPacking));
    assert!(rt;
        fault(alloc, &schema, &[5, 2, 49, 169, 15, 5, 10, 7, 0, 10, 255])
            == Some(Reason::ExpectedEof)
    );
    assert!(rt;
        fault(
            alloc,
            &schema,
            &[255, 5, 166, 84, 85, 85, 85, 85, 85, 85, 176]
        ) == Some(Reason::HugeLength)
    );
    let schema = Schema::new(SchemaNode::Map(
        boxed(alloc, SchemaNode::Int(IntKind::U16))?,
        boxed(alloc, SchemaNode::Str(None))?,
    ))?;
    assert!(rt;
        fault(
            alloc,
            &schema,
            &[4, 2, 0, 200, 201, 202, 203, 10, 15, 70, 112, 117, 101]
        ) == None
    );
    assert!(rt; fault(alloc, &schema, &[]) == Some(Reason::Eof));
    assert!(rt;
        fault(
            alloc,
            &schema,
            &[4, 2, 0, 200, 201, 202, 203, 10, 2, 70, 112, 117, 101]
        ) == Some(Reason::ExpectedEof)
    );
    assert!(rt;
        fault(
            alloc,
            &schema,
            &[4, 2, 0, 200, 201, 202, 203, 240, 10, 15, 70, 112, 117, 101]
        ) == Some(Reason::InvalidPacking)
    );
    let schema = Schema::new(SchemaNode::Array(3, boxed(alloc, SchemaNode::Int(IntKind::U8))?))?;
    assert!(rt; fault(alloc, &schema, &[0, 0, 68, 196]) == None);
    assert!(rt; fault(alloc, &schema, &[]) == Some(Reason::Eof));
    assert!(rt; fault(alloc, &schema, &[250, 243]) == Some(Reason::InvalidPacking));
    assert!(rt; fault(alloc, &schema, &[2, 13, 243, 14]) == Some(Reason::ExpectedEof));
    let schema = Schema::new(SchemaNode::Array(3, boxed(alloc, SchemaNode::Str(None))?))?;
    assert!(rt;
        fault(
            alloc,
            &schema,
            &[4, 28, 240, 144, 128, 128, 240, 144, 128, 128]
        ) == None
    );
    assert!(rt; fault(alloc, &schema, &[94]) == Some(Reason::InvalidPacking));
    assert!(rt; fault(alloc, &schema, &[10, 6, 77]) == Some(Reason::Eof));
    assert!(rt; fault(alloc, &schema, &[10, 2, 255]) == Some(Reason::InvalidUtf8));
    assert!(rt; fault(alloc, &schema, &[10, 11, 1, 2, 12, 1]) == Some(Reason::ExpectedEof));
    let schema = Schema::new(SchemaNode::List(
        None,
        boxed(
            alloc,
            SchemaNode::Array(3, boxed(alloc, SchemaNode::Int(IntKind::U8))?),
        )?,
    ))?;
    assert!(rt;
        fault(
            alloc,
            &schema,
            &[17, 8, 26, 12, 253, 158, 241, 36, 148, 239, 234, 115, 1]
        ) == None
    );
    assert!(rt; fault(alloc, &schema, &[255]) == Some(Reason::Eof));
    assert!(rt; fault(alloc, &schema, &[109, 215]) == Some(Reason::InvalidPacking));
    assert!(rt;
        fault(alloc, &schema, &[255, 2, 0, 0, 0, 0, 185, 97, 93, 222, 10])
            == Some(Reason::ExpectedEof)
    );
    assert!(rt;
        fault(
            alloc,
            &schema,
            &[255, 0, 254, 255, 255, 255, 255, 255, 255, 255, 1, 1, 1]
        ) == Some(Reason::HugeLength)
    );
    Ok(())
}

#[test]
fn fields(rt: HostRuntime) -> Result<(), Fail> {
    let alloc = rt.alloc();
    let schema = Schema::new(SchemaNode::Tuple(vec![in alloc;
        SchemaNode::Bool,
        SchemaNode::Int(IntKind::U16),
    ]?))?;
    assert!(rt; fault(alloc, &schema, &[0, 1, 0]) == None);
    assert!(rt; fault(alloc, &schema, &[0, 0]) == Some(Reason::Eof));
    assert!(rt; fault(alloc, &schema, &[172, 0, 0, 1]) == Some(Reason::ExpectedEof));
    let schema = Schema::new(SchemaNode::Tuple(vec![in alloc;
        SchemaNode::Int(IntKind::U8),
        SchemaNode::Int(IntKind::I16),
        SchemaNode::Char,
        SchemaNode::Str(None),
    ]?))?;
    assert!(rt;
        fault(
            alloc,
            &schema,
            &[203, 0, 0, 2, 9, 224, 6, 110, 116, 111, 101, 107, 102]
        ) == None
    );
    assert!(rt; fault(alloc, &schema, &[0, 6, 11, 8, 3]) == Some(Reason::InvalidPacking));
    assert!(rt; fault(alloc, &schema, &[255, 250, 207, 0, 4, 107, 0]) == Some(Reason::Eof));
    assert!(rt;
        fault(
            alloc,
            &schema,
            &[169, 236, 246, 2, 247, 255, 2, 1, 206, 177]
        ) == Some(Reason::InvalidUtf8)
    );
    let schema = Schema::new(SchemaNode::Tuple(vec![in alloc;
        SchemaNode::Int(IntKind::I8),
        SchemaNode::Int(IntKind::U8),
        SchemaNode::Bool,
    ]?))?;
    assert!(rt; fault(alloc, &schema, &[30, 8, 0]) == None);
    assert!(rt; fault(alloc, &schema, &[0]) == Some(Reason::Eof));
    assert!(rt; fault(alloc, &schema, &[5, 128, 217, 1]) == Some(Reason::ExpectedEof));
    let schema = Schema::new(SchemaNode::Tuple(vec![in alloc;
        SchemaNode::Int(IntKind::I8),
        SchemaNode::Int(IntKind::I16),
        SchemaNode::Int(IntKind::I32),
        SchemaNode::Int(IntKind::I64),
        SchemaNode::Int(IntKind::I128),
        SchemaNode::Int(IntKind::I64),
    ]?))?;
    assert!(rt; fault(alloc, &schema, &[7]) == Some(Reason::Eof));
    Ok(())
}

#[test]
fn choices(rt: HostRuntime) -> Result<(), Fail> {
    let alloc = rt.alloc();
    let schema = Schema::new(SchemaNode::Option(boxed(
        alloc,
        SchemaNode::Option(boxed(alloc, SchemaNode::Int(IntKind::U8))?),
    )?))?;
    assert!(rt; fault(alloc, &schema, &[1, 0]) == None);
    assert!(rt; fault(alloc, &schema, &[9]) == Some(Reason::Eof));
    assert!(rt; fault(alloc, &schema, &[6, 0]) == Some(Reason::ExpectedEof));
    let schema = Schema::new(SchemaNode::List(
        None,
        boxed(
            alloc,
            SchemaNode::Result(
                boxed(alloc, SchemaNode::Bool)?,
                boxed(alloc, SchemaNode::Int(IntKind::U32))?,
            ),
        )?,
    ))?;
    assert!(rt; fault(alloc, &schema, &[6, 3, 11, 2, 38, 1, 223, 0]) == None);
    assert!(rt; fault(alloc, &schema, &[4, 12]) == Some(Reason::Eof));
    let schema = Schema::new(enum_of(alloc, vec![in alloc; SchemaNode::Int(IntKind::U8)]?)?)?;
    assert!(rt; fault(alloc, &schema, &[3]) == None);
    assert!(rt; fault(alloc, &schema, &[189, 18]) == Some(Reason::ExpectedEof));
    let schema = Schema::new(enum_of(
        alloc,
        vec![in alloc; SchemaNode::Int(IntKind::U8), SchemaNode::Int(IntKind::I8)]?,
    )?)?;
    assert!(rt; fault(alloc, &schema, &[0, 35]) == None);
    assert!(rt; fault(alloc, &schema, &[0]) == Some(Reason::Eof));
    assert!(rt; fault(alloc, &schema, &[0, 16, 2]) == Some(Reason::ExpectedEof));
    let schema = Schema::new(enum_of(
        alloc,
        vec![in alloc; SchemaNode::Unit, SchemaNode::Unit, SchemaNode::Unit]?,
    )?)?;
    assert!(rt; fault(alloc, &schema, &[0]) == None);
    assert!(rt; fault(alloc, &schema, &[]) == Some(Reason::Eof));
    assert!(rt; fault(alloc, &schema, &[141, 2]) == Some(Reason::ExpectedEof));
    let schema = Schema::new(SchemaNode::List(
        None,
        boxed(
            alloc,
            enum_of(
                alloc,
                vec![in alloc; SchemaNode::Unit, SchemaNode::Unit, SchemaNode::Unit]?,
            )?,
        )?,
    ))?;
    assert!(rt; fault(alloc, &schema, &[7, 191, 59]) == None);
    assert!(rt; fault(alloc, &schema, &[7, 0]) == Some(Reason::Eof));
    assert!(rt; fault(alloc, &schema, &[3, 0, 203]) == Some(Reason::ExpectedEof));
    let schema = Schema::new(SchemaNode::List(
        None,
        boxed(
            alloc,
            enum_of(
                alloc,
                vec![in alloc;
                    SchemaNode::Unit,
                    SchemaNode::Unit,
                    SchemaNode::Unit,
                    SchemaNode::Unit,
                    SchemaNode::Unit,
                ]?,
            )?,
        )?,
    ))?;
    assert!(rt; fault(alloc, &schema, &[10, 44, 117, 92, 3]) == None);
    assert!(rt; fault(alloc, &schema, &[244, 36]) == Some(Reason::Eof));
    assert!(rt; fault(alloc, &schema, &[6, 100, 25, 128]) == Some(Reason::ExpectedEof));
    assert!(rt; fault(alloc, &schema, &[8, 90, 189, 15]) == Some(Reason::InvalidPacking));
    let schema = Schema::new(enum_of(
        alloc,
        vec![in alloc;
            SchemaNode::Unit,
            SchemaNode::Unit,
            SchemaNode::Unit,
            SchemaNode::Unit,
            SchemaNode::Unit,
            SchemaNode::Unit,
            SchemaNode::Int(IntKind::U8),
        ]?,
    )?)?;
    assert!(rt; fault(alloc, &schema, &[6, 15]) == None);
    assert!(rt; fault(alloc, &schema, &[82, 15]) == Some(Reason::ExpectedEof));
    assert!(rt;
        fault(alloc, &schema, &[223, 244, 114, 196, 216, 5, 216]) == Some(Reason::InvalidPacking)
    );
    let schema = Schema::new(SchemaNode::List(
        None,
        boxed(
            alloc,
            enum_of(
                alloc,
                vec![in alloc;
                    SchemaNode::Unit,
                    SchemaNode::Int(IntKind::U8),
                    SchemaNode::Tuple(vec![in alloc; SchemaNode::Str(None), SchemaNode::Bool]?),
                ]?,
            )?,
        )?,
    ))?;
    assert!(rt; fault(alloc, &schema, &[3, 0]) == None);
    assert!(rt; fault(alloc, &schema, &[]) == Some(Reason::Eof));
    assert!(rt;
        fault(alloc, &schema, &[6, 235, 0, 0, 249, 253, 251]) == Some(Reason::InvalidPacking)
    );
    Ok(())
}

#[test]
fn strict_checks(rt: HostRuntime) -> Result<(), Fail> {
    let alloc = rt.alloc();
    let schema = Schema::new(SchemaNode::Bool)?;
    check_value_strict(alloc, &schema, &[1])?;
    check_value(alloc, &schema, &[255])?;
    let refused = check_value_strict(alloc, &schema, &[255]);
    assert!(rt;
        refused
            == Err(Error {
                reason: Reason::NotTheWrittenText
            })
    );
    Ok(())
}

// Lists in one another, as many as a schema may have, and one value in them all.
#[test]
fn the_deepest_lists(rt: HostRuntime) -> Result<(), Fail> {
    let alloc = rt.alloc();
    let mut node = SchemaNode::Bool;
    let mut bytes = Vec::new(alloc);
    for _ in 1..512 {
        node = SchemaNode::List(None, boxed(alloc, node)?);
        bytes.push(1)?;
    }
    bytes.push(1)?;
    let schema = Schema::new(node)?;
    assert!(rt; fault(alloc, &schema, bytes.as_slice()) == None);
    assert!(rt; decode_value_within(alloc, &schema, bytes.as_slice(), 512).is_ok());
    assert!(rt; decode_value_within(alloc, &schema, bytes.as_slice(), 511).is_err());
    Ok(())
}

// Whether the bytes are decoded within so many nodes, and not within one less.
fn has_nodes(alloc: Global, node: SchemaNode, bytes: &[u8], nodes: usize) -> bool {
    let Ok(schema) = Schema::new(node) else {
        return false;
    };
    let Ok(value) = decode_value(alloc, &schema, bytes) else {
        return false;
    };
    let within = match decode_value_within(alloc, &schema, bytes, nodes) {
        Ok(again) => again == value,
        Err(_) => false,
    };
    let refused = match decode_value_within(alloc, &schema, bytes, nodes - 1) {
        Ok(_) => false,
        Err(error) => error.reason == Reason::TooManyNodes,
    };
    within && refused
}

#[test]
fn nodes_are_counted(rt: HostRuntime) -> Result<(), Fail> {
    let alloc = rt.alloc();
    assert!(rt; has_nodes(alloc, SchemaNode::Unit, &[], 1));
    assert!(rt; has_nodes(alloc, SchemaNode::NonZero(IntKind::U8), &[7], 1));
    assert!(rt; has_nodes(alloc, SchemaNode::Duration, &[6, 200, 4, 1], 3));
    let mut id = Vec::new(alloc);
    for byte in 0..16 {
        id.push(Value::U8(byte))?;
    }
    let bytes = encode_value(alloc, &Schema::new(SchemaNode::Uuid)?, &Value::Seq(id))?;
    assert!(rt; has_nodes(alloc, SchemaNode::Uuid, &bytes, 17));
    let units = SchemaNode::List(None, boxed(alloc, SchemaNode::Unit)?);
    assert!(rt; has_nodes(alloc, units, &[3], 4));
    let bytes = SchemaNode::Int(IntKind::U8);
    let map = SchemaNode::Map(boxed(alloc, bytes)?, boxed(alloc, SchemaNode::Bool)?);
    assert!(rt; has_nodes(alloc, map, &[2, 1, 2, 1], 7));
    let array = SchemaNode::Array(2, boxed(alloc, SchemaNode::Bool)?);
    assert!(rt; has_nodes(alloc, array, &[1], 3));
    let fields = vec![in alloc; SchemaNode::Bool, SchemaNode::Bool, SchemaNode::Unit]?;
    assert!(rt; has_nodes(alloc, SchemaNode::Tuple(fields), &[1, 0], 5));
    assert!(rt; has_nodes(alloc, SchemaNode::Struct(Vec::new(alloc)), &[], 1));
    let some = SchemaNode::Option(boxed(alloc, SchemaNode::Bool)?);
    assert!(rt; has_nodes(alloc, some, &[1, 1], 2));
    let none = SchemaNode::Option(boxed(alloc, SchemaNode::Bool)?);
    assert!(rt; has_nodes(alloc, none, &[0], 2));
    let one = enum_of(alloc, vec![in alloc; SchemaNode::Int(IntKind::U8)]?)?;
    assert!(rt; has_nodes(alloc, one, &[5], 1));
    let two = enum_of(alloc, vec![in alloc; SchemaNode::Int(IntKind::U8), SchemaNode::Unit]?)?;
    assert!(rt; has_nodes(alloc, two, &[0, 5], 2));
    Ok(())
}
