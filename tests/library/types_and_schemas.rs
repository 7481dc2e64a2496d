//! Inputs that look random: `decode` at a type and `decode_value` by its schema give the same answer, and so do the
//! strict calls.
use arrayvec::{ArrayString, ArrayVec};
use bitcode::{Error, Reason, decode, decode_strict};
use bitcode_schema::decode::{decode_value, decode_value_strict};
use bitcode_schema::schema::{IntKind, Schema, SchemaNode};
use std::alloc::{AllocError, Global};
use std::collections::{BTreeMap, BTreeSet};
use std::num::NonZeroU16;
use std::test::Fail;
use std::time::Duration;
use uuid::Uuid;

const INPUTS: u64 = 5000;

// The first inputs are zeros, from none to so many.
const ZEROS: u64 = 160;

// So many inputs that were accepted are kept, to change them.
const KEPT: u64 = 16;

/// Numbers that look random.
#[derive(Drop)]
struct Random {
    state: u64,
}

impl Random {
    fn below(&mut self, limit: u64) -> u64 {
        self.state = self.state.wrapping_mul(6364136223846793005).wrapping_add(1442695040888963407);
        (self.state >> 33) % limit
    }

    fn byte(&mut self) -> u8 {
        let most = [4, 16, 256][self.below(3) as usize];
        self.below(most) as u8
    }

    // Input `i`: zeros, any bytes, or one that was accepted with a byte changed, cut off or added.
    fn input(&mut self, alloc: Global, kept: &[Vec<u8>], i: u64) -> Result<Vec<u8>, AllocError> {
        let mut bytes = Vec::new(alloc);
        if i < ZEROS {
            for _zero in 0..i {
                bytes.push(0)?;
            }
            return Ok(bytes);
        }
        if kept.is_empty() || self.below(3) == 0 {
            for _i in 0..self.below(24) {
                bytes.push(self.byte())?;
            }
            return Ok(bytes);
        }
        let old = &kept[self.below(kept.len() as u64) as usize];
        bytes.extend_from_slice(old)?;
        let place = self.below(1 + old.len() as u64) as usize;
        match self.below(3) {
            0 => bytes.truncate(place),
            1 => bytes.push(self.byte())?,
            _ => {
                if place < bytes.len() {
                    bytes[place] = self.byte();
                }
            }
        }
        Ok(bytes)
    }
}

fn fault<T: Drop>(res: Result<T, Error>) -> Option<Reason> {
    match res {
        Ok(_) => None,
        Err(error) => Some(error.reason),
    }
}

// Whether both answer the same to each input. `plain` and `strict` decode at the type of the schema.
fn agree(
    alloc: Global,
    node: SchemaNode,
    plain: impl Fn(&[u8]) -> Option<Reason>,
    strict: impl Fn(&[u8]) -> Option<Reason>,
) -> Result<bool, Fail> {
    let schema = Schema::new(node)?;
    let mut random = Random { state: 11 };
    let mut kept: Vec<Vec<u8>> = Vec::new(alloc);
    for i in 0..INPUTS {
        let bytes = random.input(alloc, &kept, i)?;
        let found = fault(decode_value(alloc, &schema, &bytes));
        let found_strictly = fault(decode_value_strict(alloc, &schema, &bytes));
        if plain(&bytes) != found || strict(&bytes) != found_strictly {
            return Ok(false);
        }
        if found == None {
            let place = random.below(KEPT) as usize;
            if kept.len() < KEPT as usize {
                kept.push(bytes)?;
            } else {
                kept[place] = bytes;
            }
        }
    }
    Ok(!kept.is_empty())
}

macro_rules! agree {
    ($rt:expr, $alloc:expr, $t:ty, $node:expr) => {
        assert!($rt;
            agree(
                $alloc,
                $node,
                |bytes| fault(decode::<$t>($alloc, bytes)),
                |bytes| fault(decode_strict::<$t>($alloc, bytes))
            )?
        )
    };
}

fn boxed(alloc: Global, node: SchemaNode) -> Result<Box<SchemaNode>, AllocError> {
    Box::new(alloc, node).map_err(|_| AllocError)
}

fn list(alloc: Global, node: SchemaNode) -> Result<SchemaNode, AllocError> {
    Ok(SchemaNode::List(None, boxed(alloc, node)?))
}

fn option(alloc: Global, node: SchemaNode) -> Result<SchemaNode, AllocError> {
    Ok(SchemaNode::Option(boxed(alloc, node)?))
}

const TEXT: SchemaNode = SchemaNode::Str(None);

#[test]
fn leaves(rt: HostRuntime) -> Result<(), Fail> {
    let alloc = rt.alloc();
    agree!(rt, alloc, bool, SchemaNode::Bool);
    agree!(rt, alloc, u8, SchemaNode::Int(IntKind::U8));
    agree!(rt, alloc, i16, SchemaNode::Int(IntKind::I16));
    agree!(rt, alloc, u32, SchemaNode::Int(IntKind::U32));
    agree!(rt, alloc, i64, SchemaNode::Int(IntKind::I64));
    agree!(rt, alloc, u128, SchemaNode::Int(IntKind::U128));
    agree!(rt, alloc, NonZeroU16, SchemaNode::NonZero(IntKind::U16));
    agree!(rt, alloc, char, SchemaNode::Char);
    agree!(rt, alloc, f32, SchemaNode::F32);
    agree!(rt, alloc, f64, SchemaNode::F64);
    agree!(rt, alloc, String, TEXT);
    agree!(rt, alloc, ArrayString<3>, SchemaNode::Str(Some(3)));
    agree!(rt, alloc, Duration, SchemaNode::Duration);
    agree!(rt, alloc, Uuid, SchemaNode::Uuid);
    agree!(rt, alloc, (), SchemaNode::Unit);
    Ok(())
}

#[test]
fn lists(rt: HostRuntime) -> Result<(), Fail> {
    let alloc = rt.alloc();
    let int = |kind: IntKind| SchemaNode::Int(kind);
    agree!(rt, alloc, Vec<bool>, list(alloc, SchemaNode::Bool)?);
    agree!(rt, alloc, Vec<u8>, list(alloc, int(IntKind::U8))?);
    agree!(rt, alloc, Vec<u16>, list(alloc, int(IntKind::U16))?);
    agree!(rt, alloc, Vec<i32>, list(alloc, int(IntKind::I32))?);
    agree!(rt, alloc, Vec<f32>, list(alloc, SchemaNode::F32)?);
    agree!(rt, alloc, Vec<char>, list(alloc, SchemaNode::Char)?);
    agree!(rt, alloc, Vec<String>, list(alloc, TEXT)?);
    agree!(rt, alloc, Vec<Vec<u16>>, list(alloc, list(alloc, int(IntKind::U16))?)?);
    let few = SchemaNode::List(Some(3), boxed(alloc, int(IntKind::U8))?);
    agree!(rt, alloc, ArrayVec<u8, 3>, few);
    agree!(rt, alloc, [u16; 3], SchemaNode::Array(3, boxed(alloc, int(IntKind::U16))?));
    let flags = SchemaNode::Array(2, boxed(alloc, list(alloc, SchemaNode::Bool)?)?);
    agree!(rt, alloc, [Vec<bool>; 2], flags);
    agree!(rt, alloc, BTreeSet<u16>, list(alloc, int(IntKind::U16))?);
    let map = SchemaNode::Map(boxed(alloc, int(IntKind::U8))?, boxed(alloc, TEXT)?);
    agree!(rt, alloc, BTreeMap<u8, String>, map);
    Ok(())
}

#[test]
fn choices_and_fields(rt: HostRuntime) -> Result<(), Fail> {
    let alloc = rt.alloc();
    let byte = SchemaNode::Int(IntKind::U8);
    agree!(rt, alloc, Option<u32>, option(alloc, SchemaNode::Int(IntKind::U32))?);
    agree!(rt, alloc, Option<Option<bool>>, option(alloc, option(alloc, SchemaNode::Bool)?)?);
    let result = SchemaNode::Result(boxed(alloc, byte)?, boxed(alloc, TEXT)?);
    agree!(rt, alloc, Result<u8, String>, result);
    let pair = vec![in alloc; SchemaNode::Int(IntKind::U8), SchemaNode::Int(IntKind::I16)]?;
    agree!(rt, alloc, (u8, i16), SchemaNode::Tuple(pair));
    let number = option(alloc, SchemaNode::Int(IntKind::I16))?;
    let fields = vec![in alloc; SchemaNode::Int(IntKind::U8), number, TEXT]?;
    agree!(rt, alloc, (u8, Option<i16>, String), SchemaNode::Tuple(fields));
    let row = vec![in alloc; SchemaNode::Int(IntKind::U32), option(alloc, TEXT)?]?;
    agree!(rt, alloc, Vec<(u32, Option<String>)>, list(alloc, SchemaNode::Tuple(row))?);
    let bytes = option(alloc, list(alloc, SchemaNode::Int(IntKind::U8))?)?;
    agree!(rt, alloc, Vec<Option<Vec<u8>>>, list(alloc, bytes)?);
    Ok(())
}
