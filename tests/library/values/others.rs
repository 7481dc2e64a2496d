//! Values of std that the Rust crate lacks: each has the bytes that it wrote for what the value stands for.
use bitcode::Reason;
use bitcode_test_support::{Got, agrees, both_ways, holds, refuses, written_and_read};
use std::borrow::CowStr;
use std::cmp::Ordering;
use std::num::{Saturating, Wrapping};
use std::ops::{Range, RangeInclusive};
use std::sync::ArcStr;

#[test]
fn numbers_that_wrap_or_saturate(rt: HostRuntime) -> Result<(), Got> {
    let alloc = rt.alloc();
    both_ways(alloc, Wrapping(255u8), &[255])?;
    both_ways(alloc, Wrapping(32768i64), &[4, 0, 128])?;
    both_ways(alloc, Saturating(65536u32), &[0, 0, 0, 1, 0])?;
    refuses::<Saturating<u32>>(alloc, &[9], Reason::InvalidPacking)
}

#[test]
fn orderings(rt: HostRuntime) -> Result<(), Got> {
    let alloc = rt.alloc();
    both_ways(alloc, Ordering::Less, &[0])?;
    both_ways(alloc, Ordering::Equal, &[1])?;
    holds(alloc, Ordering::Greater, &[2], &[(&[2, 134], Reason::ExpectedEof)])?;
    let several = vec![in alloc; Ordering::Less, Ordering::Greater, Ordering::Equal]?;
    let read = written_and_read(alloc, &several, &[3, 15])?;
    agrees(read.as_slice() == several.as_slice())
}

#[test]
fn ranges(rt: HostRuntime) -> Result<(), Got> {
    let alloc = rt.alloc();
    let range: Range<u32> = 3..900;
    both_ways(alloc, range, &[4, 3, 2, 132, 3])?;
    let inclusive: RangeInclusive<i16> = RangeInclusive::new(-3, 900);
    both_ways(alloc, inclusive, &[253, 255, 132, 3])
}

#[test]
fn an_exhausted_range_is_written_as_its_ends(rt: HostRuntime) -> Result<(), Got> {
    let alloc = rt.alloc();
    let mut range: RangeInclusive<u8> = RangeInclusive::new(7, 7);
    agrees(range.next() == Some(7))?;
    agrees(range.next() == None)?;
    let mut read = written_and_read(alloc, &range, &[7, 7])?;
    agrees(read.next() == Some(7))
}

#[test]
fn shared_and_lent_texts(rt: HostRuntime) -> Result<(), Got> {
    let alloc = rt.alloc();
    let bytes = [6, 104, 195, 169, 108, 108, 111];
    both_ways(alloc, ArcStr::from_str(alloc, "h\u{e9}llo")?, &bytes)?;
    let lent: CowStr<'_> = CowStr::Borrowed("h\u{e9}llo");
    both_ways(alloc, lent, &bytes)
}
