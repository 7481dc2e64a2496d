//! Values with elements that occupy no bytes are decoded within a limit.
use bitcode::{Error, Reason, decode_within, err};
use std::collections::BTreeMap;
use std::test::Fail;

// The bytes of a list of 2251799813685246 units.
const UNITS: [u8; 10] = [255, 0, 254, 255, 255, 255, 255, 255, 7, 0];

#[test]
fn units_are_made_within_a_limit(rt: HostRuntime) -> Result<(), Fail> {
    let alloc = rt.alloc();
    let units: Vec<()> = decode_within(alloc, &[3], 3)?;
    assert_eq!(rt; units.len(), 3);
    let few: Result<Vec<()>, Error> = decode_within(alloc, &[3], 2);
    assert!(rt; few == err(Reason::TooManyZeroSizedTypes));
    let many: Result<Vec<()>, Error> = decode_within(alloc, &UNITS, 1_000_000);
    assert!(rt; many == err(Reason::TooManyZeroSizedTypes));
    let behind: Result<Vec<()>, Error> = decode_within(alloc, &[3, 0], 2);
    assert!(rt; behind == err(Reason::ExpectedEof));
    Ok(())
}

#[test]
fn arrays_and_what_is_in_them_count(rt: HostRuntime) -> Result<(), Fail> {
    let alloc = rt.alloc();
    let grids: Vec<[(); 4]> = decode_within(alloc, &[2], 10)?;
    assert_eq!(rt; grids.len(), 2);
    let few: Result<Vec<[(); 4]>, Error> = decode_within(alloc, &[2], 9);
    assert!(rt; few == err(Reason::TooManyZeroSizedTypes));
    Ok(())
}

#[test]
fn keys_count_and_other_elements_do_not(rt: HostRuntime) -> Result<(), Fail> {
    let alloc = rt.alloc();
    let map: BTreeMap<(), u8> = decode_within(alloc, &[2, 5, 6], 2)?;
    assert_eq!(rt; map.len(), 1);
    let few: Result<BTreeMap<(), u8>, Error> = decode_within(alloc, &[2, 5, 6], 1);
    assert!(rt; few.is_err());
    let lists: Option<Vec<u8>> = decode_within(alloc, &[1, 2, 5, 6], 0)?;
    assert!(rt; lists.is_some());
    Ok(())
}
