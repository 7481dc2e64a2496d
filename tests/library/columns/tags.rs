//! Each tag of integer columns, written and read, and those that no column has.
use crate::library::columns::packing::{packs, unpack_refuses, unpacks};
use bitcode::{Error, Int, Reason, SizedUInt};
use bitcode_test_support::Got;
use std::alloc::Global;

// The width in bytes of the numbers behind a tag, for integers of 2, 4, 8 and 16 bytes; 0 where no column has it.
const NARROW: [[usize; 4]; 10] = [
    [2, 4, 8, 16],
    [1, 2, 4, 8],
    [1, 2, 4, 8],
    [0, 1, 2, 4],
    [0, 1, 2, 4],
    [0, 0, 1, 2],
    [0, 0, 1, 2],
    [0, 0, 0, 1],
    [0, 0, 0, 1],
    [0, 0, 0, 0],
];

fn narrow_width(tag: u8, width: usize) -> usize {
    let row = NARROW[tag.min(9) as usize];
    match width {
        2 => row[0],
        4 => row[1],
        8 => row[2],
        _ => row[3],
    }
}

fn integers<T: Int>(alloc: Global, numbers: &[u128]) -> Result<Vec<T>, Error> {
    let mut integers = Vec::new(alloc);
    for number in numbers {
        integers.push(T::from_unsigned(T::Unsigned::from_wide(*number)))?;
    }
    Ok(integers)
}

// The greatest number of so many bytes.
fn greatest(width: usize) -> u128 {
    match width {
        1 => 0xff,
        2 => 0xffff,
        4 => 0xffff_ffff,
        8 => 0xffff_ffff_ffff_ffff,
        _ => u128::MAX,
    }
}

// A number that needs all of so many bytes: its highest byte is 1, and all others are 0.
fn tall(width: usize) -> u128 {
    match width {
        2 => 0x100,
        4 => 0x100_0000,
        8 => 0x100_0000_0000_0000,
        _ => 0x100_0000_0000_0000_0000_0000_0000_0000,
    }
}

fn push_times(bytes: &mut Vec<u8>, byte: u8, times: usize) -> Result<(), Error> {
    for _ in 0..times {
        bytes.push(byte)?;
    }
    Ok(())
}

fn push_tall(bytes: &mut Vec<u8>, width: usize) -> Result<(), Error> {
    push_times(bytes, 0, width.saturating_sub(1))?;
    bytes.push(1)?;
    Ok(())
}

// The tag, the tall number behind an odd one, and two narrow numbers: 0 and the greatest.
fn two_numbers(alloc: Global, tag: u8, width: usize, narrow: usize) -> Result<Vec<u8>, Error> {
    let mut bytes = Vec::new(alloc);
    bytes.push(tag)?;
    if tag % 2 == 1 {
        push_tall(&mut bytes, width)?;
    }
    push_times(&mut bytes, 0, narrow)?;
    push_times(&mut bytes, 255, narrow)?;
    Ok(bytes)
}

// The same with six narrow numbers, of which the second is the greatest. Six of one byte have a tag of their own.
fn six_numbers(alloc: Global, tag: u8, width: usize, narrow: usize) -> Result<Vec<u8>, Error> {
    let mut bytes = Vec::new(alloc);
    bytes.push(tag)?;
    push_tall(&mut bytes, width)?;
    if narrow == 1 {
        bytes.push(0)?;
    }
    push_times(&mut bytes, 0, narrow)?;
    push_times(&mut bytes, 255, narrow)?;
    push_times(&mut bytes, 0, narrow.saturating_mul(4))?;
    Ok(bytes)
}

fn even_tag<T: Int + PartialEq + 'static>(
    alloc: Global,
    tag: u8,
    narrow: usize,
) -> Result<(), Got> {
    let mut entries = integers::<T>(alloc, &[0, greatest(narrow)])?;
    let bytes = two_numbers(alloc, tag, T::width(), narrow)?;
    unpacks::<T>(alloc, &bytes, &entries, 0)?;
    packs(alloc, &mut entries, &bytes)
}

// Few shifted entries are only read.
fn odd_tag<T: Int + PartialEq + 'static>(alloc: Global, tag: u8, narrow: usize) -> Result<(), Got> {
    let least = tall(T::width());
    let most = least.wrapping_add(greatest(narrow));
    let few = integers::<T>(alloc, &[least, most])?;
    unpacks::<T>(
        alloc,
        &two_numbers(alloc, tag, T::width(), narrow)?,
        &few,
        0,
    )?;
    let mut entries = integers::<T>(alloc, &[least, most, least, least, least, least])?;
    let bytes = six_numbers(alloc, tag, T::width(), narrow)?;
    unpacks::<T>(alloc, &bytes, &entries, 0)?;
    packs(alloc, &mut entries, &bytes)
}

fn tags<T: Int + PartialEq + 'static>(alloc: Global) -> Result<(), Got> {
    for tag in 0..=255u8 {
        let narrow = narrow_width(tag, T::width());
        if narrow == 0 {
            unpack_refuses::<T>(alloc, &[tag], 2, Reason::InvalidPacking)?;
        } else if tag % 2 == 0 {
            even_tag::<T>(alloc, tag, narrow)?;
        } else {
            odd_tag::<T>(alloc, tag, narrow)?;
        }
    }
    Ok(())
}

#[test]
fn each_tag_of_each_width(rt: HostRuntime) -> Result<(), Got> {
    let alloc = rt.alloc();
    tags::<u16>(alloc)?;
    tags::<i16>(alloc)?;
    tags::<u32>(alloc)?;
    tags::<i32>(alloc)?;
    tags::<u64>(alloc)?;
    tags::<i64>(alloc)?;
    tags::<u128>(alloc)?;
    tags::<i128>(alloc)?;
    tags::<usize>(alloc)?;
    tags::<isize>(alloc)
}
