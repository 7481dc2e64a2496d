//! Columns of integers of each width that the Rust crate packed, and inputs that it unpacked. More of them are in
//! `scripts/vectors/columns`.
use crate::library::columns::packing::{packs, unpacks};
use bitcode_test_support::Got;

#[test]
fn integers_are_packed(rt: HostRuntime) -> Result<(), Got> {
    let alloc = rt.alloc();
    packs(alloc, &mut [1u16, 1, 1], &[2, 10, 7])?;
    packs(alloc, &mut [11i16, 20, 26], &[2, 0, 11, 20, 26])?;
    packs(alloc, &mut [0u32, 0, 0, 0, 0], &[4, 10, 0])?;
    packs(alloc, &mut [0i32, 0, 0], &[4, 10, 0])?;
    packs(alloc, &mut [256u64, 256, 256], &[4, 0, 1, 0, 1, 0, 1])?;
    packs(alloc, &mut [2i64, 1, 1], &[6, 8, 14])?;
    packs(
        alloc,
        &mut [126u128, 126, 126, 126, 126, 126],
        &[8, 9, 126, 0],
    )?;
    packs(alloc, &mut [1i128, 1, 1], &[8, 10, 7])?;
    packs(alloc, &mut [256usize, 257, 257], &[4, 0, 1, 1, 1, 1, 1])?;
    packs(alloc, &mut [256isize, 256, 256], &[4, 0, 1, 0, 1, 0, 1])
}

#[test]
fn integers_are_unpacked(rt: HostRuntime) -> Result<(), Got> {
    let alloc = rt.alloc();
    unpacks::<u16>(
        alloc,
        &[2, 3, 126, 149, 76],
        &[131u16, 126, 130, 130, 126, 128],
        0,
    )?;
    unpacks::<i16>(alloc, &[2, 2, 240, 123, 139, 5], &[0i16, 15, 11], 2)?;
    unpacks::<u32>(alloc, &[4, 6, 183, 3], &[3u32, 1, 3, 2, 3], 0)?;
    unpacks::<i32>(alloc, &[4, 184, 120], &[184i32, 120], 0)?;
    unpacks::<u64>(alloc, &[6, 240, 169], &[240u64, 169], 0)?;
    unpacks::<i64>(
        alloc,
        &[4, 205, 74, 201, 255, 255, 57],
        &[19149i64, 65481, 14847],
        0,
    )?;
    unpacks::<u128>(alloc, &[8, 10, 0], &[0u128, 0, 0, 0, 0], 0)?;
    unpacks::<i128>(
        alloc,
        &[
            7, 130, 0, 255, 255, 255, 255, 255, 255, 255, 255, 255, 255, 255, 255, 255, 255, 10, 0,
            0,
        ],
        &[
            -65406i128, -65406, -65406, -65406, -65406, -65406, -65406, -65406, -65406,
        ],
        0,
    )?;
    unpacks::<usize>(alloc, &[6, 10, 15], &[1usize, 1, 1, 1, 0, 0, 0], 0)?;
    unpacks::<isize>(
        alloc,
        &[6, 1, 1, 201, 15, 209, 35, 13],
        &[10isize, 13, 16, 1, 2, 14, 4, 3, 14],
        0,
    )
}
