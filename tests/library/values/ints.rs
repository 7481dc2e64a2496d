//! The integers of each width, at their limits. `scripts/checks/vectors.sh` runs many more of the values of the Rust
//! crate.
use bitcode_test_support::{Got, both_ways};

#[test]
fn unsigned_integers(rt: HostRuntime) -> Result<(), Got> {
    let alloc = rt.alloc();
    both_ways(alloc, u8::MAX, &[255])?;
    both_ways(alloc, u16::MAX, &[255, 255])?;
    both_ways(alloc, u32::MAX, &[0, 255, 255, 255, 255])?;
    both_ways(
        alloc,
        u64::MAX,
        &[0, 255, 255, 255, 255, 255, 255, 255, 255],
    )?;
    both_ways(alloc, 256usize, &[4, 0, 1])?;
    both_ways(
        alloc,
        u128::MAX,
        &[
            0, 255, 255, 255, 255, 255, 255, 255, 255, 255, 255, 255, 255, 255, 255, 255, 255,
        ],
    )
}

#[test]
fn signed_integers(rt: HostRuntime) -> Result<(), Got> {
    let alloc = rt.alloc();
    both_ways(alloc, i8::MIN, &[128])?;
    both_ways(alloc, i16::MIN, &[0, 128])?;
    both_ways(alloc, i32::MIN, &[0, 0, 0, 0, 128])?;
    both_ways(alloc, i64::MIN, &[0, 0, 0, 0, 0, 0, 0, 0, 128])?;
    both_ways(alloc, 1isize, &[6, 1])?;
    both_ways(
        alloc,
        i128::MIN,
        &[0, 0, 0, 0, 0, 0, 0, 0, 0, 0, 0, 0, 0, 0, 0, 0, 128],
    )
}
