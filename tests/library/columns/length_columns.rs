//! Columns of lengths that the Rust crate wrote or read, and the limits of lengths and of their sum.
use bitcode::{LengthDecoder, Reason};
use bitcode_test_support::Got;
use bitcode_test_support::lengths::{reads_lengths, refuses_lengths, writes_lengths};
use std::alloc::Global;

// The column is written as these bytes, and read from them.
fn both_ways(alloc: Global, lengths: &[usize], bytes: &[u8]) -> Result<(), Got> {
    writes_lengths(alloc, lengths, bytes)?;
    reads_lengths(alloc, bytes, lengths, 0)
}

// Each proper front is `EOF`, so that the sum is asked only once both parts were read.
fn refuses_the_sum(alloc: Global, bytes: &[u8], count: usize, reason: Reason) -> Result<(), Got> {
    for end in 0..bytes.len() {
        refuses_lengths(alloc, &bytes[..end], count, Reason::Eof)?;
    }
    refuses_lengths(alloc, bytes, count, reason)
}

// Whether some of the lengths break the limit.
fn breaks<const N: usize>(
    alloc: Global,
    mut bytes: &[u8],
    count: usize,
    expected: bool,
) -> Result<(), Got> {
    let mut decoder = LengthDecoder::new(alloc);
    decoder.populate(&mut bytes, count)?;
    if decoder.any_greater_than::<N>() == expected {
        Ok(())
    } else {
        Err(Got::AnotherValue)
    }
}

#[test]
fn lengths_are_written_and_read(rt: HostRuntime) -> Result<(), Got> {
    let alloc = rt.alloc();
    both_ways(alloc, &[], &[])?;
    both_ways(alloc, &[15], &[15])?;
    both_ways(alloc, &[254], &[254])?;
    both_ways(alloc, &[255], &[255, 6, 255])?;
    both_ways(alloc, &[256, 1], &[255, 1, 4, 0, 1])?;
    both_ways(alloc, &[510], &[255, 4, 254, 1])?;
    both_ways(alloc, &[4294967295], &[255, 2, 255, 255, 255, 255])?;
    both_ways(alloc, &[1, 14, 17], &[0, 1, 14, 17])?;
    both_ways(alloc, &[1, 2, 0], &[8, 7])?;
    both_ways(alloc, &[14, 17, 16, 15, 17, 15], &[5, 14, 108, 7])?;
    both_ways(
        alloc,
        &[254, 253, 17, 16, 255, 509, 509],
        &[
            0, 254, 253, 17, 16, 255, 255, 255, 4, 255, 0, 253, 1, 253, 1,
        ],
    )?;
    both_ways(
        alloc,
        &[0, 4294967296, 1, 254, 300, 16],
        &[
            0, 0, 255, 1, 254, 255, 16, 0, 0, 0, 0, 0, 1, 0, 0, 0, 44, 1, 0, 0, 0, 0, 0, 0,
        ],
    )?;
    let greatest = [255, 0, 255, 255, 255, 255, 255, 255, 255, 255];
    writes_lengths(alloc, &[18446744073709551615], &greatest)
}

#[test]
fn lengths_are_read_and_refused(rt: HostRuntime) -> Result<(), Got> {
    let alloc = rt.alloc();
    reads_lengths(alloc, &[79], &[], 1)?;
    reads_lengths(
        alloc,
        &[0, 254, 253, 17, 16, 255, 3, 255, 4, 255, 0, 253, 1, 253, 1],
        &[254, 253, 17, 16, 255, 3, 509],
        2,
    )?;
    reads_lengths(alloc, &[1, 1, 62, 111, 10, 209, 225, 149], &[15, 4, 16], 4)?;
    reads_lengths(alloc, &[5, 0, 255], &[3, 3, 3], 0)?;
    refuses_lengths(alloc, &[], 1, Reason::Eof)?;
    refuses_lengths(alloc, &[255, 1, 4, 0], 2, Reason::Eof)?;
    refuses_lengths(alloc, &[3, 250, 255, 181], 6, Reason::Eof)?;
    refuses_lengths(alloc, &[127, 27], 5, Reason::InvalidPacking)?;
    refuses_lengths(
        alloc,
        &[
            0, 255, 255, 255, 5, 176, 255, 255, 255, 255, 255, 255, 255, 33,
        ],
        3,
        Reason::InvalidPacking,
    )?;
    let below_255 = [255, 6, 2];
    reads_lengths(alloc, &below_255, &[2], 0)?;
    reads_lengths(alloc, &[255, 254, 6, 0], &[0, 254], 0)
}

#[test]
fn sums_at_their_limits(rt: HostRuntime) -> Result<(), Got> {
    let alloc = rt.alloc();
    reads_lengths(
        alloc,
        &[
            0, 255, 0, 255, 0, 254, 255, 255, 255, 255, 255, 7, 0, 0, 0, 0, 0, 0, 0, 0, 0,
        ],
        &[2251799813685246, 0, 0],
        0,
    )?;
    let at_limit = [
        0, 255, 3, 255, 0, 254, 255, 255, 255, 255, 255, 7, 0, 1, 0, 0, 0, 0, 0, 0, 0,
    ];
    refuses_the_sum(alloc, &at_limit, 3, Reason::HugeLength)?;
    let greatest = [
        0, 255, 0, 255, 0, 255, 255, 255, 255, 255, 255, 255, 255, 0, 0, 0, 0, 0, 0, 0, 0,
    ];
    refuses_the_sum(alloc, &greatest, 3, Reason::HugeLength)?;
    let one_more = [
        0, 255, 1, 255, 0, 255, 255, 255, 255, 255, 255, 255, 255, 0, 0, 0, 0, 0, 0, 0, 0,
    ];
    refuses_the_sum(alloc, &one_more, 3, Reason::LengthOverflow)?;
    let by_large_ones = [
        0, 255, 1, 255, 0, 252, 255, 255, 255, 255, 255, 255, 255, 4, 0, 0, 0, 0, 0, 0, 0,
    ];
    refuses_the_sum(alloc, &by_large_ones, 3, Reason::LengthOverflow)?;
    let one_huge = [255, 0, 255, 255, 255, 255, 255, 255, 255, 255];
    refuses_the_sum(alloc, &one_huge, 1, Reason::HugeLength)
}

#[test]
fn limits_on_lengths(rt: HostRuntime) -> Result<(), Got> {
    let alloc = rt.alloc();
    breaks::<0>(alloc, &[0], 1, false)?;
    breaks::<1>(alloc, &[1], 1, false)?;
    breaks::<1>(alloc, &[1, 3], 2, true)?;
    breaks::<253>(alloc, &[254, 255, 6, 254], 2, true)?;
    breaks::<254>(alloc, &[254], 1, false)?;
    breaks::<254>(alloc, &[255, 6, 2], 1, true)?;
    breaks::<255>(alloc, &[255, 6, 255], 1, false)?;
    breaks::<255>(alloc, &[255, 4, 0, 1], 1, true)?;
    breaks::<256>(alloc, &[255, 4, 0, 1], 1, false)?;
    breaks::<256>(alloc, &[255, 4, 1, 1], 1, true)?;
    breaks::<300>(alloc, &[254, 255, 6, 254], 2, false)?;
    breaks::<300>(alloc, &[255, 255, 4, 44, 1, 253, 1], 2, true)?;
    breaks::<499>(alloc, &[255, 4, 244, 1], 1, true)?;
    breaks::<500>(alloc, &[255, 6, 2], 1, false)
}
