//! Arrays of no, one, some and many elements, and numbers of arrays about the largest.
use bitcode::coder::Buffer as _;
use bitcode::laws::overflows_exactly;
use bitcode::{
    ArrayDecoder, ArrayEncoder, DecodeOwned, Decoder, EmptyCoder, Encoder, IntDecoder, IntEncoder,
    NewDecoder, Reason, View, encode, err,
};
use bitcode_test_support::{Got, both_ways, holds};
use std::test::Fail;

#[test]
fn arrays_both_ways(rt: HostRuntime) -> Result<(), Got> {
    let alloc = rt.alloc();
    holds::<[u8; 0]>(alloc, [], &[], &[(&[2], Reason::ExpectedEof)])?;
    holds(alloc, [181u8], &[181], &[(&[66, 98], Reason::ExpectedEof)])?;
    holds(
        alloc,
        [245u8, 243, 246],
        &[0, 245, 243, 246],
        &[
            (&[2, 144], Reason::Eof),
            (&[250, 243], Reason::InvalidPacking),
        ],
    )?;
    both_ways(
        alloc,
        [0u16, 1, 0, 255, 3, 3, 3, 3, 0, 2, 3, 3, 1, 2, 3, 3],
        &[2, 0, 0, 1, 0, 255, 3, 3, 3, 3, 0, 2, 3, 3, 1, 2, 3, 3],
    )
}

#[test]
fn arrays_of_arrays_are_one_column(rt: HostRuntime) -> Result<(), Got> {
    both_ways(
        rt.alloc(),
        [[0u8, 1, 0], [1, 1, 1], [0, 1, 1]],
        &[10, 186, 1],
    )
}

#[test]
fn many_elements_come_back(rt: HostRuntime) -> Result<(), Got> {
    let mut bytes = [0u8; 8193];
    bytes[0] = 10;
    both_ways(rt.alloc(), [0u8; 65536], &bytes)
}

#[test]
fn arrays_are_counted(rt: HostRuntime) -> Result<(), Fail> {
    let alloc = rt.alloc();
    let most = 6148914691236517205;
    let overflow = err(Reason::LengthOverflow);
    let mut encoder: ArrayEncoder<EmptyCoder, 3> = ArrayEncoder::new(alloc);
    assert_eq!(rt; encoder.reserve(most + 1), overflow);
    encoder.reserve(most)?;
    encoder.encode(&[(), (), ()])?;
    assert_eq!(rt; encoder.reserve(most), overflow);
    encoder.reserve(most - 1)?;
    encoder.clear();
    encoder.reserve(most)?;
    encoder.encode(&[(), (), ()])?;
    let mut bytes = Vec::new(alloc);
    encoder.collect_into(&mut bytes)?;
    assert!(rt; bytes.is_empty());
    encoder.reserve(most)?;
    assert_eq!(rt; encoder.reserve(usize::MAX), overflow);
    Ok(())
}

#[test]
fn arrays_held_are_counted(rt: HostRuntime) -> Result<(), Fail> {
    let alloc = rt.alloc();
    let overflow = err(Reason::LengthOverflow);
    let mut ones: ArrayEncoder<EmptyCoder, 1> = ArrayEncoder::new(alloc);
    ones.reserve(1)?;
    ones.encode(&[()])?;
    assert_eq!(rt; ones.reserve(usize::MAX), overflow);
    ones.reserve(usize::MAX - 1)?;
    let most = 281474976710655;
    let mut many: ArrayEncoder<EmptyCoder, 65536> = ArrayEncoder::new(alloc);
    many.reserve(most)?;
    assert_eq!(rt; many.reserve(most + 1), overflow);
    Ok(())
}

#[test]
fn nested_arrays_are_counted(rt: HostRuntime) -> Result<(), Fail> {
    let alloc = rt.alloc();
    let mut none: ArrayEncoder<EmptyCoder, 0> = ArrayEncoder::new(alloc);
    none.reserve(usize::MAX)?;
    let no_units: [(); 0] = [];
    none.encode(&no_units)?;
    none.reserve(usize::MAX)?;
    let mut fits: ArrayEncoder<ArrayEncoder<EmptyCoder, 4294967296>, 4294967295> =
        ArrayEncoder::new(alloc);
    fits.reserve(1)?;
    let mut overflows: ArrayEncoder<ArrayEncoder<EmptyCoder, 4294967296>, 4294967296> =
        ArrayEncoder::new(alloc);
    assert_eq!(rt; overflows.reserve(1), err(Reason::LengthOverflow));
    Ok(())
}

#[test]
fn too_many_arrays_are_not_read(rt: HostRuntime) -> Result<(), Fail> {
    let alloc = rt.alloc();
    let mut input: &[u8] = &[0, 1, 2];
    let mut bytes: ArrayDecoder<IntDecoder<u8>, 16384> = ArrayDecoder::new(alloc);
    let overflow = err(Reason::LengthOverflow);
    assert_eq!(rt; bytes.populate(&mut input, 1125899906842624), overflow);
    assert_eq!(rt; input, [0, 1, 2].as_slice());
    assert_eq!(rt;
        bytes.populate(&mut input, 1125899906842623),
        err(Reason::Eof)
    );
    let mut units: ArrayDecoder<EmptyCoder, 9223372036854775808> = ArrayDecoder::new(alloc);
    units.populate(&mut input, 1)?;
    assert_eq!(rt; units.populate(&mut input, 2), err(Reason::LengthOverflow));
    Ok(())
}

#[test]
fn array_coders_are_used_by_themselves(rt: HostRuntime) -> Result<(), Fail> {
    let alloc = rt.alloc();
    let mut encoder: ArrayEncoder<IntEncoder<u8>, 3> = ArrayEncoder::new(alloc);
    encoder.reserve(2)?;
    encoder.encode(&[0u8, 1, 2])?;
    encoder.encode(&[2u8, 1, 0])?;
    let mut bytes = Vec::new(alloc);
    encoder.collect_into(&mut bytes)?;
    let mut input = bytes.as_slice();
    let mut decoder: ArrayDecoder<IntDecoder<u8>, 3> = ArrayDecoder::new(alloc);
    decoder.populate(&mut input, 2)?;
    let first: [u8; 3] = decoder.decode()?;
    let second: [u8; 3] = decoder.decode()?;
    assert_eq!(rt; [first, second], [[0, 1, 2], [2, 1, 0]]);
    assert!(rt; input.is_empty());
    Ok(())
}

/// A type whose values borrow nothing.
fn is_owned<T: DecodeOwned>() {}

#[test]
fn arrays_are_owned_and_their_overflow_is_exact(rt: HostRuntime) -> Result<(), Fail> {
    let array = [0u8, 1, 2];
    let bytes = encode(rt.alloc(), &array)?;
    overflows_exactly(&array, &bytes);
    is_owned::<[u8; 3]>();
    Ok(())
}
