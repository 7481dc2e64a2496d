//! Floats: what the Rust crate wrote and read, each NaN, and each public call once.
use bitcode::coder::Buffer;
use bitcode::{
    Decoder, EncodeMany, Encoder, Error, F32Decoder, F32Encoder, F64Decoder, F64Encoder, NewDecoder,
    Reason, View, decode, decode_strict, encode, err, pack_f32s,
};
use bitcode_test_support::Got;
use std::alloc::Global;
use std::num::{
    f32_from_bits_with_nan, f32_to_bits_with_nan, f64_from_bits_with_nan, f64_to_bits_with_nan,
};
use std::test::Fail;

/// These bits are written as these bytes, and read back.
fn holds_f32(alloc: Global, bits: u32, bytes: &[u8]) -> Result<(), Got> {
    let float = f32_from_bits_with_nan(bits);
    let written = encode(alloc, &float)?;
    let read: f32 = decode_strict(alloc, bytes)?;
    if written.as_slice() == bytes && f32_to_bits_with_nan(read) == bits {
        return Ok(());
    }
    Err(Got::AnotherValue)
}

/// The same for an `f64`.
fn holds_f64(alloc: Global, bits: u64, bytes: &[u8]) -> Result<(), Got> {
    let float = f64_from_bits_with_nan(bits);
    let written = encode(alloc, &float)?;
    let read: f64 = decode_strict(alloc, bytes)?;
    if written.as_slice() == bytes && f64_to_bits_with_nan(read) == bits {
        return Ok(());
    }
    Err(Got::AnotherValue)
}

#[test]
fn floats_of_each_kind(rt: HostRuntime) -> Result<(), Got> {
    let alloc = rt.alloc();
    let floats: [(u32, &[u8]); 7] = [
        (0x3f80_0000, &[0, 0, 128, 63]),
        (0, &[0, 0, 0, 0]),
        (0x8000_0000, &[0, 0, 0, 128]),
        (1, &[1, 0, 0, 0]),
        (0x7f80_0000, &[0, 0, 128, 127]),
        (0xff80_0000, &[0, 0, 128, 255]),
        (0x7fc0_0000, &[0, 0, 192, 127]),
    ];
    for (bits, bytes) in &floats {
        holds_f32(alloc, *bits, bytes)?;
    }
    let doubles: [(u64, &[u8]); 6] = [
        (0, &[6, 0]),
        (1, &[6, 1]),
        (0x3ff0_0000_0000_0000, &[0, 0, 0, 0, 0, 0, 0, 240, 63]),
        (0x8000_0000_0000_0000, &[0, 0, 0, 0, 0, 0, 0, 0, 128]),
        (0xfff0_0000_0000_0000, &[0, 0, 0, 0, 0, 0, 0, 240, 255]),
        (0x7ff8_0000_0000_0000, &[0, 0, 0, 0, 0, 0, 0, 248, 127]),
    ];
    for (bits, bytes) in &doubles {
        holds_f64(alloc, *bits, bytes)?;
    }
    Ok(())
}

#[test]
fn other_nans_are_read_but_not_strictly(rt: HostRuntime) -> Result<(), Fail> {
    let alloc = rt.alloc();
    let floats: [&[u8]; 3] = [&[0, 0, 192, 255], &[1, 0, 128, 127], &[255, 255, 255, 255]];
    for bytes in &floats {
        let read: f32 = decode(alloc, bytes)?;
        assert_eq!(rt; f32_to_bits_with_nan(read), 0x7fc0_0000);
        let strict: Result<f32, Error> = decode_strict(alloc, bytes);
        assert!(rt; strict == err(Reason::NotTheWrittenText));
    }
    let bytes: &[u8] = &[0, 1, 0, 0, 0, 0, 0, 240, 127];
    let read: f64 = decode(alloc, bytes)?;
    assert_eq!(rt; f64_to_bits_with_nan(read), 0x7ff8_0000_0000_0000);
    let strict: Result<f64, Error> = decode_strict(alloc, bytes);
    assert!(rt; strict == err(Reason::NotTheWrittenText));
    Ok(())
}

#[test]
fn coders_of_floats(rt: HostRuntime) -> Result<(), Fail> {
    let alloc = rt.alloc();
    let mut written = F32Encoder::new(alloc);
    written.reserve(3)?;
    written.encode(&1.0)?;
    written.encode_slice(&[-2.0, 0.5])?;
    let bytes = written.collect(alloc)?;
    assert_eq!(rt; bytes.as_slice(), [0, 0, 128, 0, 0, 0, 0, 0, 0, 63, 192, 63].as_slice());
    let mut input = bytes.as_slice();
    let mut read = F32Decoder::new(alloc);
    read.populate(&mut input, 3)?;
    let first: f32 = read.decode()?;
    let second: f32 = read.decode()?;
    assert!(rt; first == 1.0 && second == -2.0);
    let mut written = F64Encoder::new(alloc);
    written.reserve(1)?;
    written.encode(&-2.5)?;
    let bytes = written.collect(alloc)?;
    assert_eq!(rt; bytes.as_slice(), [0, 0, 0, 0, 0, 0, 0, 4, 192].as_slice());
    let mut input = bytes.as_slice();
    let mut read = F64Decoder::new(alloc);
    read.populate(&mut input, 1)?;
    let only: f64 = read.decode()?;
    assert!(rt; only == -2.5);
    Ok(())
}

#[test]
fn columns_of_floats(rt: HostRuntime) -> Result<(), Fail> {
    let alloc = rt.alloc();
    let mut bytes = Vec::new(alloc);
    pack_f32s(&[1.0, -2.0, 0.5, 3.5, 0.1], &mut bytes)?;
    let column: [u8; 20] = [0, 0, 128, 0, 0, 0, 0, 0, 0, 0, 0, 96, 205, 204, 204, 63, 192, 63, 64, 61];
    assert_eq!(rt; bytes.as_slice(), column.as_slice());
    let numbers: Vec<f32> = vec![in alloc; 1.0, -2.0, 0.5, 3.5, 0.1]?;
    let list = encode(alloc, &numbers)?;
    let again: Vec<f32> = decode(alloc, &list)?;
    assert!(rt; again == numbers);
    let pairs: Vec<(f32, f64)> = vec![in alloc; (1.0, 1.0), (-2.0, 2.5)]?;
    let list = encode(alloc, &pairs)?;
    let again: Vec<(f32, f64)> = decode(alloc, &list)?;
    assert!(rt; again == pairs);
    Ok(())
}

/// These floats are written as these bytes, and read back with the same bits.
fn holds_f64s(alloc: Global, bits: &[u64], bytes: &[u8]) -> Result<(), Got> {
    let mut floats: Vec<f64> = Vec::new(alloc);
    for each in bits {
        floats.push(f64_from_bits_with_nan(*each))?;
    }
    let written = encode(alloc, &floats)?;
    let read: Vec<f64> = decode_strict(alloc, bytes)?;
    if written.as_slice() != bytes || read.len() != bits.len() {
        return Err(Got::AnotherValue);
    }
    for place in 0..bits.len() {
        if f64_to_bits_with_nan(read[place]) != bits[place] {
            return Err(Got::AnotherValue);
        }
    }
    Ok(())
}

#[test]
fn lists_of_doubles(rt: HostRuntime) -> Result<(), Got> {
    let alloc = rt.alloc();
    let one: u64 = 0x3ff0_0000_0000_0000;
    let nan: u64 = 0x7ff8_0000_0000_0000;
    let whole: &[u8] = &[
        5, 0, 0, 0, 0, 0, 0, 0, 240, 63, 0, 0, 0, 0, 0, 0, 248, 127, 1, 0, 0, 0, 0, 0, 240, 63, 0, 0, 0,
        0, 0, 0, 0, 128, 255, 255, 255, 255, 255, 255, 239, 255,
    ];
    let bits: &[u64] = &[one, nan, one + 1, 0x8000_0000_0000_0000, 0xffef_ffff_ffff_ffff];
    holds_f64s(alloc, bits, whole)?;
    let near: &[u8] = &[6, 5, 0, 0, 0, 0, 0, 0, 240, 63, 4, 121, 34];
    holds_f64s(alloc, &[one + 1, one + 2, one + 3, one + 4, one + 5, one], near)
}
