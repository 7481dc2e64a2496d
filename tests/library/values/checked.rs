//! Integers that are not 0, chars and durations: what the Rust crate wrote and read, and each public call once.
use bitcode::own::{AsInt, Checked};
use bitcode::{
    CheckedIntDecoder, ConvertFrom, ConvertInto, Decoder, DurationDecode, DurationEncode,
    Nanosecond, NewDecoder, Reason, View, decode,
};
use bitcode_test_support::{Got, both_ways, holds, refuses};
use std::num::{NonZeroI64, NonZeroU8};
use std::test::Fail;
use std::time::Duration;

#[test]
fn bytes_that_are_not_0(rt: HostRuntime) -> Result<(), Got> {
    let alloc = rt.alloc();
    for n in 1..=255u8 {
        let Some(value) = NonZeroU8::new(n) else {
            return Err(Got::AnotherValue);
        };
        both_ways(alloc, value, &[n])?;
    }
    refuses::<NonZeroU8>(alloc, &[0], Reason::InvalidBitPattern)
}

#[test]
fn integers_that_are_not_0(rt: HostRuntime) -> Result<(), Got> {
    let alloc = rt.alloc();
    let numbers: [(i64, &[u8]); 5] = [
        (1, &[6, 1]),
        (32768, &[4, 0, 128]),
        (-129, &[0, 127, 255, 255, 255, 255, 255, 255, 255]),
        (i64::MAX, &[0, 255, 255, 255, 255, 255, 255, 255, 127]),
        (i64::MIN, &[0, 0, 0, 0, 0, 0, 0, 0, 128]),
    ];
    let refused: [(&[u8], Reason); 2] = [
        (&[6, 0], Reason::InvalidBitPattern),
        (&[45, 7, 11], Reason::InvalidPacking),
    ];
    for (number, bytes) in &numbers {
        let Some(value) = NonZeroI64::new(*number) else {
            return Err(Got::AnotherValue);
        };
        holds(alloc, value, bytes, &refused)?;
    }
    Ok(())
}

#[test]
fn coders_of_checked_integers(rt: HostRuntime) -> Result<(), Fail> {
    let alloc = rt.alloc();
    let mut input: &[u8] = &[4, 97];
    let mut chars: CheckedIntDecoder<char, u32> = CheckedIntDecoder::new(alloc);
    chars.populate(&mut input, 1)?;
    assert_eq!(rt; chars.decode()?, 'a');
    assert_eq!(rt; 'a'.to_int(), 97);
    assert_eq!(rt; char::from_bits(0xd800), None);
    let nanos: Nanosecond = decode(alloc, &[4, 7])?;
    assert_eq!(rt; nanos.into_inner(), 7);
    let span = Duration::new(3, 5);
    let written: DurationEncode = span.convert_into();
    assert_eq!(rt; written, (3, 5));
    let read: DurationDecode = decode(alloc, &[6, 3, 4, 5])?;
    assert_eq!(rt; Duration::convert_from(alloc, read)?, span);
    Ok(())
}
