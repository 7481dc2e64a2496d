//! Values that are written in chunks and one by one, and columns that are collected into bytes of their own.
use bitcode::coder::{Buffer as _, write_length, write_one};
use bitcode::own::{Nth, reserve_as, reserve_part};
use bitcode::{
    BoolEncoder, EncodeMany, Encoder, IntEncoder, LengthEncoder, MAX_VECTORED_CHUNK, TupleEncoder,
    VariantEncoder,
};
use std::test::Fail;

#[test]
fn one_value_is_a_chunk(rt: HostRuntime) -> Result<(), Fail> {
    let alloc = rt.alloc();
    let mut encoder: TupleEncoder<BoolEncoder, IntEncoder<u16>> = TupleEncoder::new(alloc);
    encoder.reserve(1)?;
    encoder.encode_vectored(&[&(true, 7u16)])?;
    assert_eq!(rt; encoder.collect(alloc)?.as_slice(), [1, 7, 0].as_slice());
    assert_eq!(rt; encoder.collect(alloc)?.len(), 0);
    Ok(())
}

#[test]
fn room_is_reserved_for_a_type_and_for_a_part_of_it(rt: HostRuntime) -> Result<(), Fail> {
    let alloc = rt.alloc();
    let mut pair: TupleEncoder<BoolEncoder, IntEncoder<u16>> = TupleEncoder::new(alloc);
    reserve_as::<(bool, u16), _>(&mut pair, 1)?;
    pair.encode(&(true, 7u16))?;
    assert_eq!(rt; pair.collect(alloc)?.as_slice(), [1, 7, 0].as_slice());
    let mut flags = BoolEncoder::new(alloc);
    reserve_part::<(bool, u16, u8), Nth<0>, _>(&mut flags, 2)?;
    flags.encode_slice(&[false, true])?;
    assert_eq!(rt; flags.collect(alloc)?.as_slice(), [2].as_slice());
    Ok(())
}

#[test]
fn one_value_is_written_without_lists(rt: HostRuntime) -> Result<(), Fail> {
    let alloc = rt.alloc();
    let mut bytes = Vec::new(alloc);
    let mut pair: TupleEncoder<BoolEncoder, IntEncoder<u16>> = TupleEncoder::new(alloc);
    write_one(&mut pair, &(true, 7u16), &mut bytes)?;
    assert_eq!(rt; bytes.as_slice(), [1, 7, 0].as_slice());
    let mut flag = BoolEncoder::new(alloc);
    assert!(rt; flag.write_directly(&true, &mut bytes)?);
    write_length(alloc, 3, &mut bytes)?;
    LengthEncoder::new(alloc).write_one(256, &mut bytes)?;
    assert_eq!(rt; bytes.as_slice(), [1, 7, 0, 1, 3, 255, 4, 0, 1].as_slice());
    Ok(())
}

#[test]
fn a_chunk_is_as_one_by_one(rt: HostRuntime) -> Result<(), Fail> {
    let alloc = rt.alloc();
    let mut encoder: IntEncoder<u16> = IntEncoder::new(alloc);
    encoder.reserve(17)?;
    encoder.encode_vectored(&[&300u16; 16])?;
    encoder.encode(&299u16)?;
    let bytes = encoder.collect(alloc)?;
    assert_eq!(rt; bytes.as_slice(), [1, 43, 1, 10, 255, 255, 0].as_slice());
    Ok(())
}

#[test]
fn a_slice_is_as_one_by_one(rt: HostRuntime) -> Result<(), Fail> {
    let alloc = rt.alloc();
    let mut encoder: IntEncoder<u16> = IntEncoder::new(alloc);
    encoder.reserve(17)?;
    encoder.extend(&[300u16; 16]);
    encoder.encode(&299u16)?;
    let bytes = encoder.collect(alloc)?;
    assert_eq!(rt; bytes.as_slice(), [1, 43, 1, 10, 255, 255, 0].as_slice());
    Ok(())
}

#[test]
fn a_slice_of_chars_is_converted(rt: HostRuntime) -> Result<(), Fail> {
    let alloc = rt.alloc();
    let mut encoder: IntEncoder<u32> = IntEncoder::new(alloc);
    encoder.reserve(3)?;
    encoder.encode_slice(&['a', 'b', 'z'])?;
    assert_eq!(rt;
        encoder.collect(alloc)?.as_slice(),
        [4, 0, 97, 98, 122].as_slice()
    );
    Ok(())
}

#[test]
fn a_slice_of_bools_is_as_one_by_one(rt: HostRuntime) -> Result<(), Fail> {
    let alloc = rt.alloc();
    let mut encoder = BoolEncoder::new(alloc);
    encoder.reserve(3)?;
    encoder.encode_slice(&[true, false, true])?;
    assert_eq!(rt; encoder.collect(alloc)?.as_slice(), [5].as_slice());
    Ok(())
}

#[test]
fn lengths_of_a_chunk(rt: HostRuntime) -> Result<(), Fail> {
    let alloc = rt.alloc();
    let mut lengths = LengthEncoder::new(alloc);
    lengths.reserve(3)?;
    let chunk: [&[u8]; 2] = [&[1, 2], &[]];
    assert_eq!(rt; lengths.encode_vectored_max_len(&chunk, 1), true);
    assert_eq!(rt; lengths.encode_vectored_max_len(&chunk, 2), false);
    lengths.encode_less_than_255(3);
    assert_eq!(rt; lengths.collect(alloc)?.as_slice(), [6, 50].as_slice());
    lengths.reserve(2)?;
    lengths.encode_vectored_fallback(&chunk)?;
    assert_eq!(rt; lengths.collect(alloc)?.as_slice(), [2, 0].as_slice());
    Ok(())
}

#[test]
fn the_longest_chunk(rt: HostRuntime) -> Result<(), Fail> {
    let alloc = rt.alloc();
    let mut encoder = BoolEncoder::new(alloc);
    encoder.reserve(MAX_VECTORED_CHUNK)?;
    encoder.encode_vectored(&[&true; 64])?;
    assert_eq!(rt; encoder.collect(alloc)?.as_slice(), [255; 8].as_slice());
    Ok(())
}

#[test]
fn several_variants(rt: HostRuntime) -> Result<(), Fail> {
    let alloc = rt.alloc();
    let mut encoder = VariantEncoder::<17>::new(alloc);
    encoder.reserve(2)?;
    encoder.encode_vectored(&[16, 3]);
    assert_eq!(rt; encoder.collect(alloc)?.as_slice(), [16, 3].as_slice());
    Ok(())
}
