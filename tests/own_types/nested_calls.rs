//! With ample memory what is read of nested types is written again, as the same bytes.
use bitcode::{Error, decode, encode, encode_into};
use bitcode_large_types::lists::{accounts, packed};
use bitcode_large_types::packet::Packet;
use bitcode_own_types::nested_calls::{all_of, deep, options, sixteen};
use std::collections::BTreeMap;

type Records = Vec<(u64, String, bool, Option<u32>, Vec<u8>)>;

type Table = BTreeMap<u32, (String, Option<u64>, Vec<u16>)>;

#[test]
fn tuples_come_back(rt: HostRuntime) -> Result<(), Error> {
    let alloc = rt.alloc();
    let bytes: &[u8] = &[1, 2, 3, 4, 5, 6, 7, 8, 9, 10, 11, 12, 13, 14, 15, 16];
    let fields = sixteen(alloc, bytes)?;
    assert!(rt; encode(alloc, &fields)?.as_slice() == bytes);
    assert!(rt; sixteen(alloc, &bytes[..15]).is_err());
    Ok(())
}

#[test]
fn lists_come_back(rt: HostRuntime) -> Result<(), Error> {
    let alloc = rt.alloc();
    // One option, there, and its nine numbers.
    let bytes: &[u8] = &[1, 1, 6, 1, 6, 2, 6, 3, 6, 4, 6, 5, 6, 6, 6, 7, 6, 8, 6, 9];
    assert!(rt; options(alloc, bytes)?.as_slice() == bytes);
    let bytes: &[u8] = &[1, 1, 1, 1, 1, 2, 7, 9];
    assert!(rt; deep(alloc, bytes)?.as_slice() == bytes);
    let bytes: &[u8] = &[2, 7, 9];
    assert!(rt; all_of::<u8>(alloc, bytes)?.as_slice() == bytes);
    Ok(())
}

#[test]
fn accounts_come_back(rt: HostRuntime) -> Result<(), Error> {
    let alloc = rt.alloc();
    // One account. Its columns are those of its fields, in order.
    let avatar = vec![in alloc; 9u8]?;
    let tags: Vec<String> = Vec::new(alloc);
    let home = (1u8, 2u16, 3u16);
    let best: Option<(String, u16)> = None;
    let mut bytes = vec![in alloc; 1u8]?;
    encode_into(alloc, &(1u64, "ab", "c", 3u8, true, -1i64, None::<i16>, avatar, 'x'), &mut bytes)?;
    encode_into(alloc, &(tags, home, (4i32, 5i32), best, 6u32, 7u16, 8u128, 9u8), &mut bytes)?;
    assert!(rt; accounts(alloc, &bytes)?.as_slice() == bytes.as_slice());
    assert!(rt; accounts(alloc, &bytes.as_slice()[1..]).is_err());
    Ok(())
}

#[test]
fn packets_come_back(rt: HostRuntime) -> Result<(), Error> {
    let alloc = rt.alloc();
    // A ping, and a login of "ab" with 7. The twenty variants have the numbers 0 to 19.
    let bytes: &[u8] = &[2, 0, 2, 2, 97, 98, 6, 7];
    let packets: Vec<Packet> = decode(alloc, bytes)?;
    assert!(rt; packed(alloc, &packets)?.as_slice() == bytes);
    let last: &[u8] = &[1, 19];
    let packets: Vec<Packet> = decode(alloc, last)?;
    assert!(rt; packed(alloc, &packets)?.as_slice() == last);
    assert!(rt; decode::<Vec<Packet>>(alloc, &[1, 20]).is_err());
    assert!(rt; decode::<Vec<Packet>>(alloc, &bytes[..7]).is_err());
    Ok(())
}

#[test]
fn lists_and_maps_of_records_come_back(rt: HostRuntime) -> Result<(), Error> {
    let alloc = rt.alloc();
    // One record: 7, "ab", true, no number and no bytes.
    let bytes: &[u8] = &[1, 6, 7, 2, 97, 98, 1, 0, 0];
    let records: Records = decode(alloc, bytes)?;
    assert!(rt; encode(alloc, &records)?.as_slice() == bytes);
    // 5 with "a", no number and no numbers.
    let bytes: &[u8] = &[1, 4, 5, 1, 97, 0, 0];
    let table: Table = decode(alloc, bytes)?;
    assert!(rt; encode(alloc, &table)?.as_slice() == bytes);
    Ok(())
}
