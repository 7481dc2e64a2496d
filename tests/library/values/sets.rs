//! Sets, both ways. `scripts/checks/vectors.sh` runs many more of the values of the Rust crate.
use bitcode_test_support::{Got, agrees, written_and_read};
use std::collections::{BTreeSet, HashSet};

#[test]
fn ordered_sets(rt: HostRuntime) -> Result<(), Got> {
    let alloc = rt.alloc();
    let mut set: BTreeSet<u8> = BTreeSet::new(alloc);
    for key in [2, 1] {
        let _added = set.insert(key)?;
    }
    let read = written_and_read(alloc, &set, &[2, 1, 2])?;
    agrees(read == set)
}

#[test]
fn sets_of_sets(rt: HostRuntime) -> Result<(), Got> {
    let alloc = rt.alloc();
    let mut sets: BTreeSet<BTreeSet<u8>> = BTreeSet::new(alloc);
    let mut set: BTreeSet<u8> = BTreeSet::new(alloc);
    for key in [1, 2] {
        let _added = sets.insert(set.clone()?)?;
        let _added = set.insert(key)?;
    }
    let _added = sets.insert(set)?;
    let read = written_and_read(alloc, &sets, &[3, 8, 21, 8, 22])?;
    agrees(read == sets)
}

#[test]
fn hashed_sets(rt: HostRuntime) -> Result<(), Got> {
    let alloc = rt.alloc();
    let mut set: HashSet<u16> = HashSet::new(alloc);
    let _added = set.insert(440)?;
    let read = written_and_read(alloc, &set, &[1, 184, 1])?;
    agrees(read.len() == 1 && read.contains(&440))
}
