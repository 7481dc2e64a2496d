//! Each public call once, with ample memory.
use bitcode::coder::Buffer as _;
use bitcode::{
    BoolDecoder, BoolEncoder, Buffer, CowSlice, Decoder, Encoder, Error, FastSlice, FastVec,
    IntDecoder, IntEncoder, NewDecoder, NextUnchecked, PushUnchecked, Reason, TupleDecoder,
    TupleEncoder, View, consume_byte, consume_byte_arrays, consume_bytes, decode_front,
    decode_front_strict, encode_into, err, error, expect_eof, invalid_enum_variant, minmax,
    mul_length,
};
use std::io;
use std::test::Fail;

#[test]
fn an_input_is_taken_from_the_front(rt: HostRuntime) -> Result<(), Fail> {
    let mut input: &[u8] = &[1, 2, 3, 4, 5, 6, 7];
    assert_eq!(rt; consume_byte(&mut input)?, 1);
    assert_eq!(rt; consume_bytes(&mut input, 2)?, [2, 3].as_slice());
    assert_eq!(rt; consume_byte_arrays::<2>(&mut input, 2)?.len(), 2);
    assert!(rt; consume_byte(&mut input).is_err());
    expect_eof(input)?;
    assert!(rt; expect_eof(&[0]).is_err());
    assert_eq!(rt; mul_length(3, 4)?, 12);
    assert_eq!(rt; mul_length(usize::MAX, 2), err(Reason::LengthOverflow));
    Ok(())
}

#[test]
fn errors_print_their_reason(rt: HostRuntime) -> Result<(), Fail> {
    let alloc = rt.alloc();
    let eof = error(Reason::Eof);
    assert_eq!(rt; eof.reason(), "EOF");
    assert_eq!(rt; format!(in alloc; "{eof}")?.as_str(), "EOF");
    assert_eq!(rt; format!(in alloc; "{eof:?}")?.as_str(), "Error(\"EOF\")");
    assert!(rt; eof != error(Reason::ExpectedEof));
    assert_eq!(rt;
        invalid_enum_variant::<u8>(),
        err(Reason::InvalidEnumVariant)
    );
    Ok(())
}

#[test]
fn a_refusal_becomes_an_io_error(rt: HostRuntime) -> Result<(), Fail> {
    let eof = io::Error::from(error(Reason::Eof));
    assert!(rt; eof.kind() == io::ErrorKind::UnexpectedEof);
    let memory = io::Error::from(error(Reason::OutOfMemory));
    assert!(rt; memory.kind() == io::ErrorKind::OutOfMemory);
    assert!(rt; Reason::InvalidUtf8.io_kind() == io::ErrorKind::InvalidData);
    Ok(())
}

#[test]
fn values_stand_one_behind_the_other(rt: HostRuntime) -> Result<(), Fail> {
    let alloc = rt.alloc();
    let mut out = Vec::new(alloc);
    encode_into(alloc, &true, &mut out)?;
    encode_into(alloc, &7u16, &mut out)?;
    assert_eq!(rt; out.as_slice(), [1, 7, 0].as_slice());
    let mut input = out.as_slice();
    let flag: bool = decode_front(alloc, &mut input)?;
    assert!(rt; flag && input.len() == 2);
    let number: u16 = decode_front(alloc, &mut input)?;
    assert!(rt; number == 7 && input.is_empty());
    assert!(rt; decode_front::<u16>(alloc, &mut input) == err(Reason::Eof));
    Ok(())
}

#[test]
fn the_front_is_read_strictly(rt: HostRuntime) -> Result<(), Fail> {
    let alloc = rt.alloc();
    let mut input: &[u8] = &[1, 3, 9];
    assert!(rt; decode_front_strict(alloc, &mut input)?);
    let other: Result<bool, Error> = decode_front_strict(alloc, &mut input);
    assert!(rt; other == err(Reason::NotTheWrittenText) && input == [9].as_slice());
    Ok(())
}

#[test]
fn a_list_with_room_is_pushed_to(rt: HostRuntime) -> Result<(), Fail> {
    let alloc = rt.alloc();
    let mut list: FastVec<u32> = FastVec::new(alloc);
    list.reserve(4)?;
    list.push_unchecked(1);
    list.extend_unchecked(&[2, 3]);
    assert_eq!(rt; list.len(), 3);
    for item in list.as_mut_slice().iter_mut() {
        *item = item.wrapping_add(1);
    }
    assert_eq!(rt; list.as_slice(), [2, 3, 4].as_slice());
    list.clear();
    assert_eq!(rt; list.len(), 0);
    let copy = FastVec::from_vec(alloc, vec![in alloc; 3u32]?)?.into_vec()?;
    assert_eq!(rt; copy.as_slice(), [3].as_slice());
    Ok(())
}

#[test]
fn a_slice_is_read_from_the_front(rt: HostRuntime) -> Result<(), Fail> {
    let items = [1u8, 2, 3, 4, 5];
    let mut slice = FastSlice::from(items.as_slice());
    assert_eq!(rt; slice.next_unchecked(), 1);
    assert_eq!(rt; slice.chunk_unchecked(2), [2, 3].as_slice());
    slice.advance(1);
    assert_eq!(rt; slice.as_slice(), [5].as_slice());
    Ok(())
}

#[test]
fn items_are_borrowed_or_owned(rt: HostRuntime) -> Result<(), Fail> {
    let alloc = rt.alloc();
    let mut items = CowSlice::new(alloc);
    items.set_borrowed(&[1u8, 2, 3]);
    assert_eq!(rt; items.next_unchecked(), 1);
    assert_eq!(rt; items.chunk_unchecked(1), [2].as_slice());
    assert_eq!(rt; items.as_slice(), [3].as_slice());
    items.set_owned(vec![in alloc; 9u8]?);
    assert_eq!(rt; items.as_slice(), [9].as_slice());
    Ok(())
}

#[test]
fn bounds_are_found(rt: HostRuntime) -> Result<(), Fail> {
    assert_eq!(rt; minmax(&[3i16, -7, 5]), (-7, 5));
    assert_eq!(rt; minmax::<u8>(&[]), (255, 0));
    assert_eq!(rt; minmax(&[9u32]), (9, 9));
    Ok(())
}

#[test]
fn coders_are_used_by_themselves(rt: HostRuntime) -> Result<(), Fail> {
    let alloc = rt.alloc();
    let mut encoder: TupleEncoder<BoolEncoder, IntEncoder<u16>> = TupleEncoder::new(alloc);
    encoder.reserve(1)?;
    encoder.encode(&(true, 7u16))?;
    let mut bytes = Vec::new(alloc);
    encoder.collect_into(&mut bytes)?;
    assert_eq!(rt; bytes.as_slice(), [1, 7, 0].as_slice());
    encoder.clear();
    let mut input: &[u8] = &[5];
    let mut decoder = BoolDecoder::new(alloc);
    decoder.populate(&mut input, 3)?;
    let first: bool = decoder.decode()?;
    assert!(rt; first);
    let mut input: &[u8] = &[5, 13];
    assert!(rt; decoder.populate_strict(&mut input, 3)?);
    assert!(rt; !decoder.populate_strict(&mut input, 3)?);
    Ok(())
}

#[test]
fn values_are_made_at_once(rt: HostRuntime) -> Result<(), Fail> {
    let alloc = rt.alloc();
    let mut input: &[u8] = &[5];
    let mut bools = BoolDecoder::new(alloc);
    bools.populate(&mut input, 3)?;
    let read: Vec<bool> = bools.decode_many(alloc, 3)?;
    assert_eq!(rt; read.as_slice(), [true, false, true].as_slice());
    let mut input: &[u8] = &[7, 0];
    let mut ints: IntDecoder<u16> = IntDecoder::new(alloc);
    ints.populate(&mut input, 1)?;
    let read: Vec<u16> = ints.decode_many(alloc, 1)?;
    assert_eq!(rt; read.as_slice(), [7].as_slice());
    let mut input: &[u8] = &[1, 7, 0];
    let mut pairs: TupleDecoder<BoolDecoder, IntDecoder<u16>> = TupleDecoder::new(alloc);
    pairs.populate(&mut input, 1)?;
    let read: Vec<(bool, u16)> = pairs.decode_many(alloc, 1)?;
    assert_eq!(rt; read.as_slice(), [(true, 7)].as_slice());
    Ok(())
}

#[test]
fn a_buffer_starts_afresh(rt: HostRuntime) -> Result<(), Fail> {
    let alloc = rt.alloc();
    let mut buffer: Buffer<bool> = Buffer::new(alloc);
    assert_eq!(rt; buffer.encode(&false)?, [0].as_slice());
    assert_eq!(rt; buffer.encode(&true)?, [1].as_slice());
    assert!(rt; buffer.decode(&[1])?);
    assert!(rt; buffer.decode_strict(&[1])?);
    assert!(rt; buffer.decode_strict(&[3]).is_err());
    Ok(())
}
