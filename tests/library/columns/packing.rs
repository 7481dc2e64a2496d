//! How a test packs a column, and unpacks one.
use bitcode::{
    CowSlice, Int, Reason, pack_bools, pack_ints, unpack_bools, unpack_bytes, unpack_ints,
};
use bitcode_test_support::Got;
use std::alloc::Global;

/// The integers are packed as these bytes.
pub fn packs<T: Int>(alloc: Global, entries: &mut [T], expected: &[u8]) -> Result<(), Got> {
    let mut out = Vec::new(alloc);
    match pack_ints(alloc, entries, &mut out) {
        Ok(()) if out.as_slice() == expected => Ok(()),
        Ok(()) => Err(Got::Bytes(out)),
        Err(error) => Err(Got::Refused(error)),
    }
}

/// The bools are packed as these bytes.
pub fn packs_bools(alloc: Global, entries: &[bool], expected: &[u8]) -> Result<(), Got> {
    let mut out = Vec::new(alloc);
    match pack_bools(entries, &mut out) {
        Ok(()) if out.as_slice() == expected => Ok(()),
        Ok(()) => Err(Got::Bytes(out)),
        Err(error) => Err(Got::Refused(error)),
    }
}

/// Whether the numbers are these.
fn are_numbers<T: Int + PartialEq>(entries: &[T::Une], expected: &[T]) -> bool {
    if entries.len() != expected.len() {
        return false;
    }
    for (entry, number) in entries.iter().zip(expected) {
        if T::from_unaligned(*entry) != *number {
            return false;
        }
    }
    true
}

/// The bytes are unpacked as these integers, and so many bytes are left.
pub fn unpacks<'a, T: Int + PartialEq + 'a>(
    alloc: Global,
    mut bytes: &'a [u8],
    expected: &[T],
    rest: usize,
) -> Result<(), Got> {
    let mut out = CowSlice::new(alloc);
    match unpack_ints::<T>(alloc, &mut bytes, expected.len(), &mut out) {
        Ok(()) if bytes.len() == rest && are_numbers(out.as_slice(), expected) => Ok(()),
        Ok(()) => Err(Got::AnotherValue),
        Err(error) => Err(Got::Refused(error)),
    }
}

/// So many integers are refused for this reason.
pub fn unpack_refuses<'a, T: Int + 'a>(
    alloc: Global,
    mut bytes: &'a [u8],
    count: usize,
    reason: Reason,
) -> Result<(), Got> {
    let mut out = CowSlice::new(alloc);
    match unpack_ints::<T>(alloc, &mut bytes, count, &mut out) {
        Ok(()) => Err(Got::AnotherValue),
        Err(error) if error.reason == reason => Ok(()),
        Err(error) => Err(Got::Refused(error)),
    }
}

/// The bytes are unpacked as these entries of a byte column, and so many bytes are left.
pub fn unpacks_bytes(
    alloc: Global,
    mut bytes: &[u8],
    expected: &[u8],
    rest: usize,
) -> Result<(), Got> {
    let mut out = CowSlice::new(alloc);
    match unpack_bytes(alloc, &mut bytes, expected.len(), &mut out) {
        Ok(()) if bytes.len() == rest && out.as_slice() == expected => Ok(()),
        Ok(()) => Err(Got::AnotherValue),
        Err(error) => Err(Got::Refused(error)),
    }
}

/// The bytes are unpacked as these bools, and so many bytes are left.
pub fn unpacks_bools(
    alloc: Global,
    mut bytes: &[u8],
    expected: &[bool],
    rest: usize,
) -> Result<(), Got> {
    let mut out = CowSlice::new(alloc);
    match unpack_bools(alloc, &mut bytes, expected.len(), &mut out) {
        Ok(()) if bytes.len() == rest && out.as_slice() == expected => Ok(()),
        Ok(()) => Err(Got::AnotherValue),
        Err(error) => Err(Got::Refused(error)),
    }
}
