//! Columns that the Rust crate packed, by the calls that the coders of integers make.
use bitcode::CowSlice;
use bitcode::own::ColumnInt;
use bitcode_test_support::Got;
use std::alloc::Global;

// Whether the bytes stand for these numbers.
fn are_numbers<T: ColumnInt + PartialEq>(entries: &[T::Une], expected: &[T]) -> bool {
    if entries.len() != expected.len() {
        return false;
    }
    for (entry, number) in entries.iter().zip(expected) {
        if T::from_unaligned(*entry) != *number {
            return false;
        }
    }
    true
}

// The bytes are read as these integers.
fn reads<'a, T: ColumnInt + PartialEq + 'a>(
    alloc: Global,
    mut bytes: &'a [u8],
    expected: &[T],
) -> Result<(), Got> {
    let mut out = CowSlice::new(alloc);
    match T::unpack(alloc, &mut bytes, expected.len(), &mut out, false) {
        Ok(_) if bytes.is_empty() && are_numbers(out.as_slice(), expected) => Ok(()),
        Ok(_) => Err(Got::AnotherValue),
        Err(error) => Err(Got::Refused(error)),
    }
}

// The integers are packed as these bytes.
fn packs<T: ColumnInt>(alloc: Global, entries: &mut [T], expected: &[u8]) -> Result<(), Got> {
    let mut out = Vec::new(alloc);
    match T::pack(alloc, entries, &mut out) {
        Ok(()) if out.as_slice() == expected => Ok(()),
        Ok(()) => Err(Got::Bytes(out)),
        Err(error) => Err(Got::Refused(error)),
    }
}

#[test]
fn integers_read_and_pack_their_columns(rt: HostRuntime) -> Result<(), Got> {
    let alloc = rt.alloc();
    reads::<u16>(alloc, &[2, 0, 204, 200, 203], &[204, 200, 203])?;
    packs::<u16>(alloc, &mut [204, 200, 203], &[2, 0, 204, 200, 203])?;
    reads::<i16>(
        alloc,
        &[1, 245, 255, 4, 122, 115, 148],
        &[-9, -9, -8, -10, -10, -8, -7, -11, -7],
    )?;
    packs::<i16>(
        alloc,
        &mut [-9, -9, -8, -10, -10, -8, -7, -11, -7],
        &[1, 245, 255, 4, 122, 115, 148],
    )
}
