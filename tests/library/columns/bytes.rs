//! Columns of bools and bytes that the Rust crate packed, and inputs that it unpacked.
use crate::library::columns::packing::{
    packs, packs_bools, unpack_refuses, unpacks, unpacks_bools, unpacks_bytes,
};
use bitcode::Reason;
use bitcode_test_support::Got;
use bitcode_test_support::byte_columns::{packs_bytes, unpack_bytes_refuses};

#[test]
fn bytes_are_packed(rt: HostRuntime) -> Result<(), Got> {
    let alloc = rt.alloc();
    packs(alloc, &mut [0u8, 0, 0], &[10, 0])?;
    packs(alloc, &mut [127u8, 127, 126], &[0, 127, 127, 126])?;
    packs(alloc, &mut [3u8, 0, 3], &[6, 51])?;
    packs(alloc, &mut [1u8, 4, 4, 5, 5, 1], &[4, 169, 71])?;
    packs(
        alloc,
        &mut [131u8, 126, 128, 128, 127],
        &[0, 131, 126, 128, 128, 127],
    )?;
    packs(alloc, &mut [15u8, 0, 9, 4, 5], &[2, 15, 73, 5])?;
    packs(alloc, &mut [1u8, 4, 17], &[0, 1, 4, 17])
}

#[test]
fn bytes_are_unpacked(rt: HostRuntime) -> Result<(), Got> {
    let alloc = rt.alloc();
    unpack_refuses::<u8>(alloc, &[11, 128, 60], 6, Reason::InvalidPacking)?;
    unpacks::<u8>(alloc, &[], &[0u8; 0], 0)?;
    unpacks::<u8>(alloc, &[255], &[255u8], 0)?;
    unpack_refuses::<u8>(alloc, &[12, 210, 219, 177], 17, Reason::InvalidPacking)?;
    unpacks::<u8>(alloc, &[2, 255, 0], &[15u8, 15, 0], 0)?;
    unpacks::<u8>(
        alloc,
        &[3, 11, 76, 160, 112],
        &[15u8, 11, 13, 15, 13, 15, 15, 11, 14],
        0,
    )?;
    unpack_refuses::<u8>(alloc, &[4, 255], 9223372036854775808, Reason::Eof)
}

#[test]
fn signed_bytes_are_packed(rt: HostRuntime) -> Result<(), Got> {
    let alloc = rt.alloc();
    packs(alloc, &mut [0i8, 0, 0], &[10, 0])?;
    packs(alloc, &mut [1i8, 1, 1, 2, 2], &[8, 229])?;
    packs(alloc, &mut [13i8, 13, 12, 13, 13, 11], &[7, 11, 233, 0])?;
    packs(
        alloc,
        &mut [72i8, 75, 75, 72, 74, 75, 73, 75, 72],
        &[5, 72, 60, 222, 0],
    )?;
    packs(alloc, &mut [6i8, 1, 4], &[2, 22, 4])?;
    packs(
        alloc,
        &mut [-11i8, -9, -7, -10, -5],
        &[0, 245, 247, 249, 246, 251],
    )?;
    packs(
        alloc,
        &mut [-121i8, -122, -113, -126, -112, -128],
        &[0, 135, 134, 143, 130, 144, 128],
    )
}

#[test]
fn signed_bytes_are_unpacked(rt: HostRuntime) -> Result<(), Got> {
    let alloc = rt.alloc();
    unpacks::<i8>(
        alloc,
        &[2, 255, 255, 255, 255, 255],
        &[15i8, 15, 15, 15, 15, 15, 15, 15, 15],
        0,
    )?;
    unpacks::<i8>(
        alloc,
        &[0, 0, 1, 127, 170, 127, 215, 243, 170],
        &[0i8, 1, 127, -86, 127, -41, -13, -86],
        0,
    )?;
    unpack_refuses::<i8>(
        alloc,
        &[255, 250, 76, 48, 43, 77],
        17,
        Reason::InvalidPacking,
    )?;
    unpack_refuses::<i8>(alloc, &[255, 1], 6, Reason::InvalidPacking)?;
    unpacks::<i8>(
        alloc,
        &[0, 128, 141, 76, 128, 132, 139, 144, 128, 129],
        &[-128i8, -115, 76, -128, -124, -117, -112, -128, -127],
        0,
    )?;
    unpacks::<i8>(
        alloc,
        &[5, 130, 15, 3],
        &[-123i8, -123, -126, -126, -123, -126],
        0,
    )?;
    unpack_refuses::<i8>(alloc, &[], 9223372036854775808, Reason::Eof)
}

#[test]
fn bools_are_packed(rt: HostRuntime) -> Result<(), Got> {
    let alloc = rt.alloc();
    packs_bools(alloc, &[false, false], &[0])?;
    packs_bools(alloc, &[true, true, true, true], &[15])?;
    packs_bools(alloc, &[false, true, true, true, false, true], &[46])?;
    packs_bools(
        alloc,
        &[true, true, true, true, true, true, true, true],
        &[255],
    )?;
    packs_bools(
        alloc,
        &[
            false, false, false, false, false, false, false, false, false, false,
        ],
        &[0, 0],
    )?;
    packs_bools(
        alloc,
        &[
            true, true, true, true, true, true, true, true, true, true, true, true,
        ],
        &[255, 15],
    )
}

#[test]
fn bools_are_unpacked(rt: HostRuntime) -> Result<(), Got> {
    let alloc = rt.alloc();
    unpacks_bools(
        alloc,
        &[117, 199],
        &[true, false, true, false, true, true, true],
        1,
    )?;
    unpacks_bools(alloc, &[73, 167], &[true], 1)?;
    unpacks_bools(alloc, &[131], &[true], 0)?;
    unpacks_bools(
        alloc,
        &[187, 128, 246, 123, 198],
        &[
            true, true, false, true, true, true, false, true, false, false, false, false, false,
            false, false, true, false,
        ],
        2,
    )?;
    unpacks_bools(
        alloc,
        &[183, 194, 118, 120, 135],
        &[
            true, true, true, false, true, true, false, true, false, true, false, false, false,
            false, true, true, false, true, true, false,
        ],
        2,
    )?;
    unpacks_bools(alloc, &[65, 104], &[true, false, false], 1)?;
    unpacks_bools(
        alloc,
        &[169, 55, 41],
        &[
            true, false, false, true, false, true, false, true, true, true,
        ],
        1,
    )
}

#[test]
fn byte_columns_are_packed(rt: HostRuntime) -> Result<(), Got> {
    let alloc = rt.alloc();
    packs_bytes(alloc, &mut [0u8, 0, 0], &[10, 0])?;
    packs_bytes(
        alloc,
        &mut [126u8, 126, 126, 127, 128],
        &[0, 126, 126, 126, 127, 128],
    )?;
    packs_bytes(alloc, &mut [0u8, 5, 0], &[4, 30])?;
    packs_bytes(alloc, &mut [1u8, 13, 16], &[0, 1, 13, 16])?;
    packs_bytes(alloc, &mut [0i8, 0, 0], &[10, 0])?;
    packs_bytes(
        alloc,
        &mut [-127i8, -126, -126, -126, -125, -126, -125, -126, -125],
        &[7, 129, 201, 70],
    )?;
    packs_bytes(alloc, &mut [-9i8, -8, -7, -11, -9, -10], &[3, 245, 164, 48])?;
    packs_bytes(alloc, &mut [9i8, 11, 1, 15, 0], &[2, 185, 241, 0])
}

#[test]
fn byte_columns_are_unpacked(rt: HostRuntime) -> Result<(), Got> {
    let alloc = rt.alloc();
    unpack_bytes_refuses(alloc, &[11, 128, 60], 6, Reason::InvalidPacking)?;
    unpacks_bytes(alloc, &[], &[], 0)?;
    unpacks_bytes(
        alloc,
        &[10, 216, 0],
        &[0, 0, 0, 1, 1, 0, 1, 1, 0, 0, 0, 0, 0, 0, 0],
        0,
    )?;
    unpack_bytes_refuses(alloc, &[192], 2, Reason::Eof)?;
    unpack_bytes_refuses(alloc, &[0, 210, 216, 200, 204, 208], 6, Reason::Eof)?;
    unpack_bytes_refuses(alloc, &[4, 255], 9223372036854775808, Reason::Eof)?;
    unpack_bytes_refuses(alloc, &[255], 5, Reason::InvalidPacking)?;
    unpack_bytes_refuses(alloc, &[1], 5, Reason::Eof)
}
