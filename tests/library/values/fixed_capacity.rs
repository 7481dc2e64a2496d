//! Vectors and texts of a fixed capacity, both ways. `scripts/checks/vectors.sh` has the refusals of the Rust crate.
use arrayvec::{ArrayString, ArrayVec};
use bitcode::{Reason, decode};
use bitcode_test_support::{Got, refuses, written_and_read};

/// What was read is this.
fn is(same: bool) -> Result<(), Got> {
    if same { Ok(()) } else { Err(Got::AnotherValue) }
}

#[test]
fn vectors_of_sixteen(rt: HostRuntime) -> Result<(), Got> {
    let alloc = rt.alloc();
    let mut numbers: ArrayVec<u16, 16> = ArrayVec::new();
    for number in [256, 270, 263, 256, 262, 266] {
        let _room = numbers.try_push(number);
    }
    let read = written_and_read(alloc, &numbers, &[6, 1, 0, 1, 2, 224, 7, 166])?;
    is(read.as_slice() == numbers.as_slice())
}

#[test]
fn texts_of_two_bytes(rt: HostRuntime) -> Result<(), Got> {
    let alloc = rt.alloc();
    let text: ArrayString<2> = decode(alloc, &[2, 195, 169])?;
    let read = written_and_read(alloc, &text, &[2, 195, 169])?;
    is(read.as_str() == "é")?;
    refuses::<ArrayString<2>>(alloc, &[2, 139, 195, 169], Reason::InvalidUtf8)
}

#[test]
fn texts_of_three_hundred_bytes(rt: HostRuntime) -> Result<(), Got> {
    let read: ArrayString<300> = decode(rt.alloc(), &[255, 2, 2, 0, 0, 0, 1, 1])?;
    is(read.as_str().as_bytes() == [1, 1].as_slice())
}
