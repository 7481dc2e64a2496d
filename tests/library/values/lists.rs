//! Vectors and slices that the Rust crate wrote and read, queues and linked lists.
use bitcode::encode;
use bitcode_test_support::{Got, agrees, both_ways, decodes, encodes, written_and_read};
use std::collections::{LinkedList, VecDeque};

#[test]
fn slices_are_written(rt: HostRuntime) -> Result<(), Got> {
    let slices: [(&[u16], &[u8]); 4] = [
        (&[0], &[1, 0, 0]),
        (
            &[201, 201, 201, 203, 203, 203, 203],
            &[7, 2, 7, 201, 216, 8],
        ),
        (&[3642, 3644, 3644], &[3, 0, 58, 14, 60, 14, 60, 14]),
        (&[0, 1, 0, 0, 0, 0, 0, 0, 0, 0], &[10, 2, 10, 2, 0]),
    ];
    for (slice, bytes) in &slices {
        encodes(rt.alloc(), slice, bytes)?;
    }
    Ok(())
}

#[test]
fn lengths_around_the_escape(rt: HostRuntime) -> Result<(), Got> {
    let alloc = rt.alloc();
    for (length, front) in [
        (254usize, [254u8].as_slice()),
        (255, &[255, 6, 255]),
        (256, &[255, 4, 0, 1]),
    ] {
        let mut list: Vec<u8> = Vec::with_capacity(alloc, length)?;
        let mut bytes: Vec<u8> = Vec::with_capacity(alloc, length)?;
        bytes.extend_from_slice(front)?;
        bytes.push(0)?;
        for place in 0..length {
            list.push(place.to_le_bytes()[0])?;
            bytes.push(place.to_le_bytes()[0])?;
        }
        both_ways(alloc, list, bytes.as_slice())?;
    }
    Ok(())
}

#[test]
fn a_million_integers_come_back(rt: HostRuntime) -> Result<(), Got> {
    let alloc = rt.alloc();
    let mut list: Vec<u64> = Vec::with_capacity(alloc, 1_000_000)?;
    for number in 0..1_000_000u64 {
        list.push(number)?;
    }
    let bytes = encode(alloc, &list)?;
    decodes(alloc, bytes.as_slice(), list)
}

/// The README's example: the length takes 4 bytes, the numbers 2,001, the bools 125, the levels 501.
#[test]
fn a_thousand_records_are_small(rt: HostRuntime) -> Result<(), Got> {
    let alloc = rt.alloc();
    let mut records: Vec<(u32, bool, u8)> = Vec::with_capacity(alloc, 1_000)?;
    for number in 0..1_000u32 {
        let level = number.to_le_bytes()[0] % 16;
        records.push((number, level == 7, level))?;
    }
    agrees(encode(alloc, &records)?.len() == 2_631)
}

#[test]
fn a_hundred_thousand_lists_come_back(rt: HostRuntime) -> Result<(), Got> {
    let alloc = rt.alloc();
    let mut lists: Vec<Vec<u8>> = Vec::with_capacity(alloc, 100_000)?;
    for number in 0..100_000u32 {
        lists.push(vec![in alloc; number.to_le_bytes()[0], 1]?)?;
    }
    let bytes = encode(alloc, &lists)?;
    decodes(alloc, bytes.as_slice(), lists)
}

#[test]
fn queues(rt: HostRuntime) -> Result<(), Got> {
    let alloc = rt.alloc();
    let mut queue: VecDeque<u16> = VecDeque::new(alloc);
    queue.push_back(14)?;
    queue.push_back(18)?;
    queue.push_front(94)?;
    queue.push_front(124)?;
    queue.push_back(2)?;
    let read = written_and_read(alloc, &queue, &[5, 2, 0, 124, 94, 14, 18, 2])?;
    agrees(read == queue)
}

#[test]
fn lists(rt: HostRuntime) -> Result<(), Got> {
    let alloc = rt.alloc();
    let mut list: LinkedList<i32> = LinkedList::new(alloc);
    for number in [100, 157, 255, 134, 0] {
        list.push_back(number)?;
    }
    let read = written_and_read(alloc, &list, &[5, 4, 0, 100, 157, 255, 134, 0])?;
    agrees(read == list)
}
