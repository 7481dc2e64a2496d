//! Heaps, both ways. `scripts/checks/vectors.sh` runs many more of the values of the Rust crate.
use bitcode_test_support::{Got, agrees, written_and_read};
use std::collections::BinaryHeap;

#[test]
fn heaps(rt: HostRuntime) -> Result<(), Got> {
    let alloc = rt.alloc();
    let mut heap: BinaryHeap<u8> = BinaryHeap::new(alloc);
    heap.push(138)?;
    let mut read = written_and_read(alloc, &heap, &[1, 138])?;
    agrees(read.pop() == Some(138) && read.is_empty())
}
