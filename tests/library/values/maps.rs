//! Maps, both ways. `scripts/checks/vectors.sh` runs many more of the values of the Rust crate.
use bitcode_test_support::{Got, agrees, written_and_read};
use std::collections::{BTreeMap, BTreeSet, HashMap};

#[test]
fn ordered_maps(rt: HostRuntime) -> Result<(), Got> {
    let alloc = rt.alloc();
    let mut map: BTreeMap<bool, u64> = BTreeMap::new(alloc);
    let _none = map.insert(true, 65535)?;
    let _none = map.insert(false, 65535)?;
    let read = written_and_read(alloc, &map, &[2, 2, 4, 255, 255, 255, 255])?;
    agrees(read.len() == 2 && read.get(&true) == Some(&65535))
}

#[test]
fn hashed_maps(rt: HostRuntime) -> Result<(), Got> {
    let alloc = rt.alloc();
    let mut map: HashMap<u8, u16> = HashMap::new(alloc);
    let _none = map.insert(50, 376)?;
    let read = written_and_read(alloc, &map, &[1, 50, 120, 1])?;
    agrees(read.len() == 1 && read.get(&50) == Some(&376))
}

#[test]
fn maps_by_sets(rt: HostRuntime) -> Result<(), Got> {
    let alloc = rt.alloc();
    let mut key: BTreeSet<u8> = BTreeSet::new(alloc);
    let _added = key.insert(2)?;
    let mut map: HashMap<BTreeSet<u8>, u8> = HashMap::new(alloc);
    let _none = map.insert(key, 7)?;
    let read = written_and_read(alloc, &map, &[1, 1, 2, 7])?;
    agrees(read == map)
}
