//! Every proper front of accepted bytes is `EOF`, and a byte behind them is refused, or left where a column was read.
use crate::library::columns::packing::unpacks_bytes;
use bitcode::{Decode, Reason, decode};
use bitcode_test_support::byte_columns::unpack_bytes_refuses;
use bitcode_test_support::lengths::{reads_lengths, refuses_lengths};
use bitcode_test_support::{Got, refuses};
use std::alloc::Global;

// The bytes but the last one are read as a value; fewer and more are not.
fn ends<'a, T: Decode<'a>>(alloc: Global, longer: &'a [u8]) -> Result<(), Got> {
    let Some((_, bytes)) = longer.split_last() else {
        return Err(Got::AnotherValue);
    };
    for end in 0..bytes.len() {
        refuses::<T>(alloc, &bytes[..end], Reason::Eof)?;
    }
    let _value = decode::<T>(alloc, bytes)?;
    refuses::<T>(alloc, longer, Reason::ExpectedEof)
}

// The bytes but the last one are these entries of a byte column; fewer are not.
fn byte_column_ends(alloc: Global, longer: &[u8], entries: &[u8]) -> Result<(), Got> {
    unpacks_bytes(alloc, longer, entries, 1)?;
    for end in 0..longer.len().saturating_sub(1) {
        unpack_bytes_refuses(alloc, &longer[..end], entries.len(), Reason::Eof)?;
    }
    Ok(())
}

// The bytes but the last one are these lengths; fewer are not.
fn lengths_end(alloc: Global, longer: &[u8], lengths: &[usize]) -> Result<(), Got> {
    reads_lengths(alloc, longer, lengths, 1)?;
    for end in 0..longer.len().saturating_sub(1) {
        refuses_lengths(alloc, &longer[..end], lengths.len(), Reason::Eof)?;
    }
    Ok(())
}

#[test]
fn values_end_where_their_bytes_end(rt: HostRuntime) -> Result<(), Got> {
    let alloc = rt.alloc();
    ends::<bool>(alloc, &[1, 0])?;
    ends::<(bool, u16)>(alloc, &[1, 7, 0, 0])?;
    ends::<u32>(alloc, &[4, 255, 0])?;
    ends::<u32>(alloc, &[2, 255, 255, 0])?;
    ends::<u32>(alloc, &[0, 0, 0, 1, 0, 0])?;
    ends::<i32>(alloc, &[0, 255, 255, 255, 255, 0])?;
    ends::<u32>(alloc, &[3, 1, 0, 0, 0, 254, 0])?;
    ends::<u32>(alloc, &[3, 255, 255, 255, 255, 2, 0])?;
    ends::<u64>(alloc, &[5, 255, 0, 0, 0, 0, 0, 0, 0, 242, 0])?;
    ends::<(usize, isize)>(alloc, &[6, 0, 6, 1, 0])?;
    ends::<i128>(
        alloc,
        &[0, 1, 2, 3, 4, 5, 6, 7, 8, 9, 10, 11, 12, 13, 14, 15, 128, 0],
    )
}

#[test]
fn columns_end_where_their_bytes_end(rt: HostRuntime) -> Result<(), Got> {
    let alloc = rt.alloc();
    byte_column_ends(alloc, &[2, 33, 67, 101, 7, 0], &[1, 2, 3, 4, 5, 6, 7])?;
    byte_column_ends(
        alloc,
        &[1, 201, 16, 50, 84, 6, 0],
        &[201, 202, 203, 204, 205, 206, 207],
    )?;
    byte_column_ends(
        alloc,
        &[0, 201, 202, 203, 204, 205, 0],
        &[201, 202, 203, 204, 205],
    )?;
    byte_column_ends(
        alloc,
        &[1, 253, 16, 50, 84, 6, 0],
        &[253, 254, 255, 0, 1, 2, 3],
    )?;
    lengths_end(alloc, &[0, 1, 255, 2, 6, 255, 0], &[1, 255, 2])?;
    lengths_end(
        alloc,
        &[255, 0, 254, 255, 255, 255, 255, 255, 7, 0, 0],
        &[2251799813685246],
    )
}

#[test]
fn sequences_end_where_their_bytes_end(rt: HostRuntime) -> Result<(), Got> {
    let alloc = rt.alloc();
    ends::<Vec<i16>>(alloc, &[7, 1, 255, 255, 10, 85, 0])?;
    ends::<Vec<i16>>(alloc, &[5, 0, 0, 0, 255, 255, 0, 0, 255, 255, 0, 0, 0])?;
    ends::<Vec<u16>>(alloc, &[17, 1, 43, 1, 10, 255, 255, 0, 0])?;
    ends::<Vec<Vec<u8>>>(alloc, &[2, 0, 3, 6, 57, 0])?;
    let mut trues = vec![in alloc; 255, 6]?;
    for _ in 0..32 {
        trues.push(255)?;
    }
    trues.extend_from_slice(&[127, 0])?;
    ends::<Vec<bool>>(alloc, trues.as_slice())
}
