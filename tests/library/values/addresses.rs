//! Addresses: what the Rust crate wrote and read, and as keys.
use bitcode::{ConvertFrom, ConvertInto, IpAddrConversion, Reason, SocketAddrConversion};
use bitcode_test_support::{Got, agrees, both_ways, holds, written_and_read};
use std::collections::BTreeMap;
use std::net::{IpAddr, Ipv4Addr, Ipv6Addr, SocketAddr, SocketAddrV4, SocketAddrV6};
use std::test::Fail;

const LOCAL: Ipv4Addr = Ipv4Addr::LOCALHOST;

fn mapped() -> Ipv6Addr {
    Ipv4Addr::new(192, 168, 1, 20).to_ipv6_mapped()
}

#[test]
fn ipv4_addresses(rt: HostRuntime) -> Result<(), Got> {
    let alloc = rt.alloc();
    let refused: [(&[u8], Reason); 2] = [
        (&[0, 20, 1, 192], Reason::Eof),
        (&[7, 0], Reason::InvalidPacking),
    ];
    holds(alloc, LOCAL, &[0, 1, 0, 0, 127], &refused)?;
    both_ways(alloc, Ipv4Addr::new(0, 0, 1, 2), &[2, 2, 1])?;
    both_ways(alloc, Ipv4Addr::new(192, 168, 1, 20), &[0, 20, 1, 168, 192])
}

#[test]
fn ipv6_addresses(rt: HostRuntime) -> Result<(), Got> {
    let alloc = rt.alloc();
    both_ways(alloc, Ipv6Addr::LOCALHOST, &[8, 1])?;
    both_ways(alloc, mapped(), &[2, 20, 1, 168, 192, 255, 255, 0, 0])
}

#[test]
fn addresses_of_either_family(rt: HostRuntime) -> Result<(), Got> {
    let alloc = rt.alloc();
    both_ways(alloc, IpAddr::V4(LOCAL), &[0, 0, 1, 0, 0, 127])?;
    both_ways(alloc, IpAddr::V6(Ipv6Addr::LOCALHOST), &[1, 8, 1])
}

#[test]
fn socket_addresses(rt: HostRuntime) -> Result<(), Got> {
    let alloc = rt.alloc();
    let v4 = SocketAddrV4::new(LOCAL, 80);
    both_ways(alloc, v4, &[0, 1, 0, 0, 127, 80, 0])?;
    both_ways(alloc, SocketAddr::V4(v4), &[0, 0, 1, 0, 0, 127, 80, 0])?;
    let v6 = SocketAddrV6::new(Ipv6Addr::UNSPECIFIED, 0, 1, 2);
    both_ways(alloc, v6, &[8, 0, 0, 0, 4, 1, 4, 2])?;
    both_ways(alloc, SocketAddr::V6(v6), &[1, 8, 0, 0, 0, 4, 1, 4, 2])
}

#[test]
fn addresses_as_keys(rt: HostRuntime) -> Result<(), Got> {
    let alloc = rt.alloc();
    let mut ports: BTreeMap<IpAddr, u16> = BTreeMap::new(alloc);
    ports.insert(IpAddr::V6(Ipv6Addr::LOCALHOST), 7)?;
    ports.insert(IpAddr::V4(LOCAL), 9)?;
    let read = written_and_read(alloc, &ports, &[2, 2, 0, 1, 0, 0, 127, 8, 1, 2, 9, 7])?;
    agrees(read.get(&IpAddr::V4(LOCAL)) == Some(&9))
}

#[test]
fn conversions_of_addresses(rt: HostRuntime) -> Result<(), Fail> {
    let alloc = rt.alloc();
    let bits: u32 = LOCAL.convert_into();
    assert_eq!(rt; bits, 0x7f00_0001);
    assert_eq!(rt; Ipv4Addr::convert_from(alloc, bits)?, LOCAL);
    let wide: u128 = mapped().convert_into();
    assert_eq!(rt; wide, 0xffff_c0a8_0114);
    assert_eq!(rt; Ipv6Addr::convert_from(alloc, wide)?, mapped());
    let family: IpAddrConversion = IpAddr::V6(mapped()).convert_into();
    assert_eq!(rt; family, Err(mapped()));
    assert_eq!(rt; IpAddr::convert_from(alloc, family)?, IpAddr::V6(mapped()));
    let address = SocketAddrV4::new(LOCAL, 80);
    let parts: SocketAddrConversion = SocketAddr::V4(address).convert_into();
    assert_eq!(rt; parts, Ok(address));
    assert_eq!(rt; SocketAddr::convert_from(alloc, parts)?, SocketAddr::V4(address));
    Ok(())
}
