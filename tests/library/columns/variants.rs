//! Columns of variants that the Rust crate packed and unpacked, and every last byte in every base.
use bitcode::coder::Buffer as _;
use bitcode::{
    CowSlice, Error, NewDecoder, Reason, VariantDecoder, VariantEncoder, View, histogram,
    pack_bytes_less_than, unpack_bytes_less_than,
};
use bitcode_test_support::Got;
use std::alloc::Global;
use std::test::Fail;

/// The variants below `N` are written as these bytes.
fn writes<const N: usize>(alloc: Global, variants: &[u8], expected: &[u8]) -> Result<(), Got> {
    let mut encoder = VariantEncoder::<N>::new(alloc);
    for variant in variants {
        if (*variant as usize) < N {
            if let Err(error) = encoder.reserve(1) {
                return Err(Got::Refused(error));
            }
            encoder.encode(*variant);
        }
    }
    let mut out = Vec::new(alloc);
    match encoder.collect_into(&mut out) {
        Ok(()) if out.as_slice() == expected => Ok(()),
        Ok(()) => Err(Got::Bytes(out)),
        Err(error) => Err(Got::Refused(error)),
    }
}

/// So many of `N` variants are read, and the first `H` are counted so.
fn unpacks<const N: usize, const H: usize>(
    alloc: Global,
    mut bytes: &[u8],
    expected: &[u8],
    counts: &[usize],
) -> Result<(), Got> {
    let mut out = CowSlice::new(alloc);
    match unpack_bytes_less_than::<N, H>(alloc, &mut bytes, expected.len(), &mut out) {
        Ok(found) if bytes.is_empty() && out.as_slice() == expected && found.as_slice() == counts =>
            { Ok(()) }
        Ok(_) => Err(Got::AnotherValue),
        Err(error) => Err(Got::Refused(error)),
    }
}

/// Takes variants from the coder, and compares them.
fn decodes<const N: usize, const C_STYLE: bool>(
    alloc: Global,
    mut bytes: &[u8],
    expected: &[u8],
) -> Result<(), Got> {
    let mut variants = VariantDecoder::<N, C_STYLE>::new(alloc);
    if let Err(error) = variants.populate(&mut bytes, expected.len()) {
        return Err(Got::Refused(error));
    }
    for variant in expected {
        if variants.decode() != *variant {
            return Err(Got::AnotherValue);
        }
    }
    Ok(())
}

/// So many of `N` variants are read in each way, and counted so.
fn reads<const N: usize>(
    alloc: Global,
    bytes: &[u8],
    expected: &[u8],
    counts: &[usize],
) -> Result<(), Got> {
    unpacks::<N, N>(alloc, bytes, expected, counts)?;
    unpacks::<N, 0>(alloc, bytes, expected, &[])?;
    decodes::<N, false>(alloc, bytes, expected)?;
    decodes::<N, true>(alloc, bytes, expected)
}

/// So many of `N` variants are refused for this reason, whether they are counted or not.
fn refuses<const N: usize>(
    alloc: Global,
    bytes: &[u8],
    count: usize,
    reason: Reason,
) -> Result<(), Got> {
    let expected = Err(Error { reason });
    let mut counted = VariantDecoder::<N, false>::new(alloc);
    let mut input = bytes;
    let refused = counted.populate(&mut input, count) == expected;
    let mut c_style = VariantDecoder::<N, true>::new(alloc);
    let mut input = bytes;
    if refused && c_style.populate(&mut input, count) == expected {
        Ok(())
    } else {
        Err(Got::AnotherValue)
    }
}

/// How many bytes are left behind so many data.
fn left_behind<'a, V: NewDecoder + View<'a> + Drop>(
    alloc: Global,
    mut input: &'a [u8],
    count: usize,
) -> Result<usize, Error> {
    let mut data = V::new(alloc);
    data.populate(&mut input, count)?;
    Ok(input.len())
}

/// So many of `N` variants are counted so.
fn counts<const N: usize>(
    alloc: Global,
    mut bytes: &[u8],
    count: usize,
    expected: &[usize],
) -> Result<(), Got> {
    let mut out = CowSlice::new(alloc);
    match unpack_bytes_less_than::<N, N>(alloc, &mut bytes, count, &mut out) {
        Ok(found) if found.as_slice() == expected => Ok(()),
        Ok(_) => Err(Got::AnotherValue),
        Err(error) => Err(Got::Refused(error)),
    }
}

/// The first `count` digits of the bytes, of which each has `in_byte`.
fn digits(
    alloc: Global,
    bytes: &[u8],
    radix: u16,
    in_byte: usize,
    count: usize,
) -> Result<Vec<u8>, Error> {
    let mut entries = Vec::new(alloc);
    for byte in bytes {
        let mut rest = u16::from(*byte);
        for _ in 0..in_byte {
            if entries.len() < count {
                entries.push(u8::try_from(rest % radix).unwrap_or(0))?;
            }
            rest /= radix;
        }
    }
    Ok(entries)
}

/// How many of the entries are each number below a bound.
fn counts_of(alloc: Global, entries: &[u8], bound: usize) -> Result<Vec<usize>, Error> {
    let mut counts = Vec::new(alloc);
    for value in 0..bound {
        counts.push(
            entries
                .iter()
                .filter(|entry| **entry as usize == value)
                .count(),
        )?;
    }
    Ok(counts)
}

/// The last so many of two bytes that hold a count of digits.
fn last_bytes(bytes: &[u8; 2], count: usize, in_byte: usize) -> &[u8] {
    if count == 0 {
        &[]
    } else if count <= in_byte {
        &bytes[1..]
    } else {
        bytes
    }
}

/// So many of `N` variants are read by the digits of the bytes, and refused where one of them is none.
fn reads_digits<const N: usize>(
    alloc: Global,
    bytes: &[u8],
    radix: u16,
    in_byte: usize,
    count: usize,
) -> Result<(), Fail> {
    let expected = digits(alloc, bytes, radix, in_byte, count)?;
    if expected.iter().all(|variant| (*variant as usize) < N) {
        let counts = counts_of(alloc, &expected, N)?;
        reads::<N>(alloc, bytes, &expected, &counts)?;
    } else {
        refuses::<N>(alloc, bytes, count, Reason::InvalidPacking)?;
    }
    Ok(())
}

/// Columns of `N` variants of up to two bytes, the last of them any byte, are read by their digits, whatever the digits
/// are that are left over.
fn every_last_byte<const N: usize>(alloc: Global, radix: u16, in_byte: usize) -> Result<(), Fail> {
    for count in 0..=2 * in_byte {
        for last in 0..=255u8 {
            let bytes = [16, last];
            reads_digits::<N>(
                alloc,
                last_bytes(&bytes, count, in_byte),
                radix,
                in_byte,
                count,
            )?;
        }
    }
    refuses::<N>(alloc, &[16], in_byte + 1, Reason::Eof)?;
    Ok(())
}

#[test]
fn digits_of_every_last_byte_are_read(rt: HostRuntime) -> Result<(), Fail> {
    let alloc = rt.alloc();
    every_last_byte::<2>(alloc, 2, 8)?;
    every_last_byte::<3>(alloc, 3, 5)?;
    every_last_byte::<4>(alloc, 4, 4)?;
    every_last_byte::<5>(alloc, 6, 3)?;
    every_last_byte::<6>(alloc, 6, 3)?;
    every_last_byte::<7>(alloc, 16, 2)?;
    every_last_byte::<16>(alloc, 16, 2)?;
    every_last_byte::<17>(alloc, 256, 1)?;
    every_last_byte::<256>(alloc, 256, 1)
}

#[test]
fn high_bytes_are_counted(rt: HostRuntime) -> Result<(), Got> {
    let alloc = rt.alloc();
    counts::<3>(alloc, &[243; 102], 506, &[506, 0, 0])?;
    counts::<6>(alloc, &[255; 101], 300, &[100, 100, 0, 100, 0, 0])?;
    counts::<6>(alloc, &[242; 102], 304, &[101, 0, 102, 0, 101, 0])?;
    let mut bytes = [1; 101];
    bytes[62] = 236;
    counts::<6>(alloc, &bytes, 302, &[200, 100, 1, 1, 0, 0])?;
    let mut bytes = [215; 102];
    bytes[10] = 255;
    counts::<3>(alloc, &bytes, 509, &[3, 103, 403])
}

#[test]
fn variants_are_written(rt: HostRuntime) -> Result<(), Got> {
    let alloc = rt.alloc();
    writes::<2>(alloc, &[], &[])?;
    writes::<2>(alloc, &[0, 1, 0, 0, 0, 0, 0, 1, 1, 1], &[130, 3])?;
    writes::<3>(alloc, &[2, 2, 0, 2, 2, 1, 0, 0, 2], &[224, 55])?;
    writes::<4>(alloc, &[0, 2, 0, 3, 0, 1, 3, 2, 3, 2], &[200, 180, 11])?;
    writes::<5>(alloc, &[0, 4, 1, 3, 4, 0, 2], &[60, 27, 2])?;
    writes::<6>(alloc, &[1, 1, 5, 2, 3, 3, 5], &[187, 128, 5])?;
    writes::<7>(alloc, &[0, 0, 1, 1, 3], &[0, 17, 3])?;
    writes::<15>(alloc, &[13, 9, 7, 10, 10], &[157, 167, 10])?;
    writes::<16>(alloc, &[11, 12, 12, 13, 7, 9, 9], &[203, 220, 151, 9])?;
    writes::<17>(alloc, &[15, 13, 14, 15, 7, 16], &[15, 13, 14, 15, 7, 16])?;
    writes::<256>(alloc, &[176, 241, 249, 253], &[176, 241, 249, 253])
}

#[test]
fn variants_are_read(rt: HostRuntime) -> Result<(), Got> {
    let alloc = rt.alloc();
    reads::<2>(alloc, &[57], &[1, 0, 0, 1, 1, 1, 0], &[3, 4])?;
    reads::<3>(alloc, &[253], &[1, 0, 1], &[1, 2, 0])?;
    refuses::<3>(alloc, &[116, 198, 121], 16, Reason::Eof)?;
    refuses::<3>(alloc, &[], 18446744073709551615, Reason::Eof)?;
    reads::<4>(alloc, &[251], &[3, 2, 3, 3], &[0, 0, 1, 3])?;
    refuses::<5>(alloc, &[195], 3, Reason::InvalidPacking)?;
    reads::<5>(
        alloc,
        &[127, 115, 22],
        &[1, 3, 3, 1, 1, 3, 4, 3],
        &[0, 3, 0, 4, 1],
    )?;
    reads::<6>(alloc, &[191, 159], &[5, 1, 5, 3], &[0, 1, 0, 1, 0, 2])?;
    refuses::<7>(alloc, &[239, 50, 24], 5, Reason::InvalidPacking)?;
    reads::<7>(alloc, &[1, 1], &[1, 0, 1], &[1, 2, 0, 0, 0, 0, 0])?;
    refuses::<16>(alloc, &[], 18446744073709551615, Reason::Eof)?;
    refuses::<17>(alloc, &[2, 8, 88, 10, 1, 8], 6, Reason::InvalidPacking)?;
    refuses::<17>(alloc, &[17, 15, 7, 0, 16], 6, Reason::Eof)
}

#[test]
fn bytes_are_counted_and_packed_below_a_bound(rt: HostRuntime) -> Result<(), Fail> {
    let alloc = rt.alloc();
    let counts = histogram(&[3, 7, 3, 255]);
    assert_eq!(rt; (counts[3], counts[4], counts[255]), (2, 0, 1));
    let mut out = vec![in alloc; 9u8]?;
    pack_bytes_less_than::<3>(&[2, 0, 1, 2, 2], &mut out)?;
    assert_eq!(rt; out.as_slice(), [9, 227].as_slice());
    Ok(())
}

#[test]
fn variants_are_data(rt: HostRuntime) -> Result<(), Error> {
    let left = left_behind::<VariantDecoder<3, true>>(rt.alloc(), &[5, 7], 3)?;
    assert!(rt; left == 1);
    let refused = left_behind::<VariantDecoder<5, false>>(rt.alloc(), &[5], 1);
    assert!(rt;
        refused
            == Err(Error {
                reason: Reason::InvalidPacking
            })
    );
    Ok(())
}
