//! Columns at the limits of their forms: of no entries, of one, where tags start, and where shifting starts.
use crate::library::columns::packing::{packs, unpacks};
use bitcode::{Error, Int, SizedInt};
use bitcode_test_support::Got;
use std::alloc::Global;

// The column is written as these bytes, and read from them.
fn both_ways<T: Int + PartialEq + 'static>(
    alloc: Global,
    entries: &mut [T],
    bytes: &[u8],
) -> Result<(), Got> {
    unpacks::<T>(alloc, bytes, entries, 0)?;
    packs(alloc, entries, bytes)
}

// No entries are no bytes, and nothing is taken for them.
fn none<T: Int + PartialEq + 'static>(alloc: Global) -> Result<(), Got> {
    let mut entries: Vec<T> = Vec::new(alloc);
    packs(alloc, &mut entries, &[])?;
    let behind = [9];
    unpacks::<T>(alloc, &behind, &entries, 1)
}

fn pair<T: Int>(alloc: Global, first: T, second: T) -> Result<Vec<T>, Error> {
    let mut entries = Vec::new(alloc);
    entries.push(first)?;
    entries.push(second)?;
    Ok(entries)
}

// The least and the greatest of a type, together.
fn bounds<T: SizedInt + PartialEq + 'static>(alloc: Global, bytes: &[u8]) -> Result<(), Got> {
    let mut entries = pair(alloc, T::MIN, T::MAX)?;
    both_ways(alloc, &mut entries, bytes)
}

#[test]
fn no_entries(rt: HostRuntime) -> Result<(), Got> {
    let alloc = rt.alloc();
    none::<u8>(alloc)?;
    none::<u16>(alloc)?;
    none::<u32>(alloc)?;
    none::<u64>(alloc)?;
    none::<u128>(alloc)?;
    none::<usize>(alloc)?;
    none::<i8>(alloc)?;
    none::<i16>(alloc)?;
    none::<i32>(alloc)?;
    none::<i64>(alloc)?;
    none::<i128>(alloc)?;
    none::<isize>(alloc)
}

#[test]
fn one_entry_and_where_tags_start(rt: HostRuntime) -> Result<(), Got> {
    let alloc = rt.alloc();
    both_ways(alloc, &mut [255u8], &[255])?;
    both_ways(alloc, &mut [1u8, 0], &[1, 0])?;
    both_ways(alloc, &mut [1u8, 0, 1], &[10, 5])?;
    both_ways(alloc, &mut [-1i8, 0], &[255, 0])?;
    both_ways(alloc, &mut [-1i8, 0, 1], &[0, 255, 0, 1])?;
    both_ways(alloc, &mut [1u16], &[1, 0])?;
    both_ways(alloc, &mut [-2i16], &[254, 255])?;
    both_ways(alloc, &mut [1u16, 0], &[2, 1, 0])?;
    both_ways(alloc, &mut [1u32], &[4, 1])?;
    both_ways(alloc, &mut [1u64], &[6, 1])?;
    both_ways(alloc, &mut [1usize], &[6, 1])?;
    both_ways(alloc, &mut [1i64, 0], &[6, 1, 0])?;
    both_ways(alloc, &mut [1isize, 0, 1], &[6, 10, 5])?;
    both_ways(alloc, &mut [1u128], &[8, 1])?;
    both_ways(alloc, &mut [1i128, 0, 1], &[8, 10, 5])
}

#[test]
fn five_and_six_entries(rt: HostRuntime) -> Result<(), Got> {
    let alloc = rt.alloc();
    both_ways(
        alloc,
        &mut [201u8, 200, 201, 200, 200],
        &[0, 201, 200, 201, 200, 200],
    )?;
    both_ways(alloc, &mut [201u8, 200, 201, 200, 200, 200], &[9, 200, 5])?;
    both_ways(
        alloc,
        &mut [257u64, 256, 257, 256, 256],
        &[4, 1, 1, 0, 1, 1, 1, 0, 1, 0, 1],
    )?;
    both_ways(
        alloc,
        &mut [257u64, 256, 257, 256, 256, 256],
        &[5, 0, 1, 0, 0, 0, 0, 0, 0, 10, 5],
    )?;
    both_ways(
        alloc,
        &mut [257usize, 256, 257, 256, 256, 256],
        &[5, 0, 1, 0, 0, 0, 0, 0, 0, 10, 5],
    )?;
    both_ways(
        alloc,
        &mut [0i64, -1, 0, -1, -1, -1],
        &[5, 255, 255, 255, 255, 255, 255, 255, 255, 10, 5],
    )?;
    both_ways(
        alloc,
        &mut [0isize, -1, 0, -1, -1, -1],
        &[5, 255, 255, 255, 255, 255, 255, 255, 255, 10, 5],
    )?;
    both_ways(
        alloc,
        &mut [0i128, -1, 0, -1, -1, -1],
        &[
            7, 255, 255, 255, 255, 255, 255, 255, 255, 255, 255, 255, 255, 255, 255, 255, 255, 10,
            5,
        ],
    )
}

#[test]
fn least_and_greatest(rt: HostRuntime) -> Result<(), Got> {
    let alloc = rt.alloc();
    bounds::<u8>(alloc, &[0, 255])?;
    bounds::<i8>(alloc, &[128, 127])?;
    bounds::<u16>(alloc, &[0, 0, 0, 255, 255])?;
    bounds::<i16>(alloc, &[0, 0, 128, 255, 127])?;
    bounds::<u32>(alloc, &[0, 0, 0, 0, 0, 255, 255, 255, 255])?;
    bounds::<i32>(alloc, &[0, 0, 0, 0, 128, 255, 255, 255, 127])?;
    let long = [
        0, 0, 0, 0, 0, 0, 0, 0, 0, 255, 255, 255, 255, 255, 255, 255, 255,
    ];
    let signed_long = [
        0, 0, 0, 0, 0, 0, 0, 0, 128, 255, 255, 255, 255, 255, 255, 255, 127,
    ];
    bounds::<u64>(alloc, &long)?;
    bounds::<i64>(alloc, &signed_long)?;
    both_ways(alloc, &mut [usize::MIN, usize::MAX], &long)?;
    both_ways(alloc, &mut [isize::MIN, isize::MAX], &signed_long)?;
    let longest = [
        0, 0, 0, 0, 0, 0, 0, 0, 0, 0, 0, 0, 0, 0, 0, 0, 0, 255, 255, 255, 255, 255, 255, 255, 255,
        255, 255, 255, 255, 255, 255, 255, 255,
    ];
    let signed_longest = [
        0, 0, 0, 0, 0, 0, 0, 0, 0, 0, 0, 0, 0, 0, 0, 0, 128, 255, 255, 255, 255, 255, 255, 255,
        255, 255, 255, 255, 255, 255, 255, 255, 127,
    ];
    bounds::<u128>(alloc, &longest)?;
    bounds::<i128>(alloc, &signed_longest)
}
