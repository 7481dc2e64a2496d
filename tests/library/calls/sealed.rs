//! Sealed values: with ample memory each call once, and each refusal.
use bitcode::sealed::{
    Expected, Label, Next, OpenError, comes_back, crc_32, damage_in_front_is_seen, damage_is_seen,
    next_head, open, open_front, open_next, read_label, seal, seal_bytes, seal_into, skip_sealed,
    split_sealed,
};
use bitcode::{Error, Reason};
use std::alloc::{AllocError, Global};
use std::test::Fail;

const LABEL: Label = Label {
    kind: 0x5245_4353,
    version: 2,
};

const EXPECTED: Expected = Expected {
    label: LABEL,
    most_bytes: 100,
};

// 7 and "hi", sealed by hand.
const BYTES: [u8; 29] = [
    188, 245, 2, 0, 83, 67, 69, 82, 5, 0, 0, 0, 0, 0, 0, 0, 217, 60, 214, 20, 4, 7, 2, 104, 105,
    89, 133, 187, 52,
];

#[test]
fn a_checksum_is_that_of_zlib(rt: HostRuntime) -> Result<(), Fail> {
    assert_eq!(rt; crc_32(b"123456789"), 0xCBF4_3926);
    assert_eq!(rt; crc_32(b""), 0);
    // So many bytes that the checksum needs each entry of its tables.
    let mut bytes = Vec::new(rt.alloc());
    for i in 0..65536u32 {
        bytes.push((i.wrapping_mul(0x9E37_79B1) >> 24) as u8)?;
    }
    assert_eq!(rt; crc_32(bytes.as_slice()), 0xA627_5846);
    Ok(())
}

#[test]
fn a_value_is_sealed_and_opened(rt: HostRuntime) -> Result<(), Fail> {
    let alloc = rt.alloc();
    let value = (7u32, String::from_str(alloc, "hi")?);
    let bytes = seal(alloc, LABEL, &value)?;
    assert_eq!(rt; bytes.as_slice(), BYTES.as_slice());
    let again: Result<(u32, String), OpenError> = open(alloc, &EXPECTED, bytes.as_slice());
    comes_back(&value, LABEL, &EXPECTED, bytes.as_slice(), &again);
    assert!(rt; again? == value);
    let mut raw = Vec::new(alloc);
    seal_bytes(LABEL, &BYTES[20..25], &mut raw)?;
    assert_eq!(rt; raw.as_slice(), BYTES.as_slice());
    Ok(())
}

#[test]
fn sealed_values_stand_one_behind_the_other(rt: HostRuntime) -> Result<(), Fail> {
    let alloc = rt.alloc();
    let mut out = Vec::new(alloc);
    seal_into(alloc, LABEL, &(7u32, "hi"), &mut out)?;
    seal_into(alloc, LABEL, &true, &mut out)?;
    let mut input = out.as_slice();
    let (value, rest) = split_sealed(&EXPECTED, input)?;
    assert!(rt; value.len() == 5 && rest.len() == 25);
    let pair: (u32, &str) = open_front(alloc, &EXPECTED, &mut input)?;
    assert!(rt; pair.0 == 7 && pair.1 == "hi");
    let flag: bool = open_front(alloc, &EXPECTED, &mut input)?;
    assert!(rt; flag && input.is_empty());
    Ok(())
}

// What `open` says of the bytes as a number and a text.
fn fault(rt: &HostRuntime, expected: &Expected, bytes: &[u8]) -> Option<OpenError> {
    open::<(u32, &str)>(rt.alloc(), expected, bytes).err()
}

#[test]
fn what_is_no_sealed_value_is_refused(rt: HostRuntime) -> Result<(), Fail> {
    let cut_off = |present, wanted| Some(OpenError::CutOff { present, wanted });
    assert_eq!(rt; fault(&rt, &EXPECTED, b"text"), Some(OpenError::NotSealed));
    assert_eq!(rt; fault(&rt, &EXPECTED, b""), cut_off(0, 20));
    assert_eq!(rt; fault(&rt, &EXPECTED, &BYTES[..19]), cut_off(19, 20));
    assert_eq!(rt; fault(&rt, &EXPECTED, &BYTES[..28]), cut_off(28, 29));
    let mut bytes = BYTES;
    bytes[8] = 6;
    assert_eq!(rt; fault(&rt, &EXPECTED, &bytes), Some(OpenError::HeadDamaged));
    let mut bytes = BYTES;
    bytes[24] = 106;
    let stored = 0x34BB_8559;
    let computed = crc_32(&bytes[20..25]);
    assert_eq!(rt;
        fault(&rt, &EXPECTED, &bytes),
        Some(OpenError::ValueDamaged { stored, computed })
    );
    damage_is_seen(&BYTES, &bytes);
    damage_in_front_is_seen(&BYTES, &bytes);
    Ok(())
}

#[test]
fn what_is_not_expected_is_refused(rt: HostRuntime) -> Result<(), Fail> {
    let of = |kind, version, most_bytes| Expected {
        label: Label { kind, version },
        most_bytes,
    };
    assert_eq!(rt;
        fault(&rt, &of(1, 2, 100), &BYTES),
        Some(OpenError::AnotherKind {
            found: 0x5245_4353,
            expected: 1
        })
    );
    assert_eq!(rt;
        fault(&rt, &of(0x5245_4353, 1, 100), &BYTES),
        Some(OpenError::AnotherVersion {
            found: 2,
            expected: 1
        })
    );
    assert_eq!(rt;
        fault(&rt, &of(0x5245_4353, 2, 4), &BYTES),
        Some(OpenError::TooLong { bytes: 5, most: 4 })
    );
    let alloc = rt.alloc();
    let mut out = seal(alloc, LABEL, &(7u32, "hi"))?;
    out.push(0)?;
    assert_eq!(rt;
        fault(&rt, &EXPECTED, out.as_slice()),
        Some(OpenError::BytesLeftOver { count: 1 })
    );
    assert!(rt;
        matches!(
            open::<u64>(alloc, &EXPECTED, &BYTES),
            Err(OpenError::Value(_))
        )
    );
    Ok(())
}

#[test]
fn errors_tell_damage_from_memory(rt: HostRuntime) -> Result<(), Fail> {
    let memory = Error {
        reason: Reason::OutOfMemory,
    };
    let eof = Error {
        reason: Reason::Eof,
    };
    let faults = [
        (OpenError::NotSealed, true, "not sealed"),
        (
            OpenError::CutOff {
                present: 3,
                wanted: 20,
            },
            true,
            "cut off: 3 bytes of 20",
        ),
        (OpenError::HeadDamaged, true, "the header is damaged"),
        (
            OpenError::AnotherKind {
                found: 5,
                expected: 0x5245_4353,
            },
            false,
            "the kind is 0x00000005, expected 0x52454353",
        ),
        (
            OpenError::AnotherVersion {
                found: 1,
                expected: 2,
            },
            false,
            "the version is 1, expected 2",
        ),
        (
            OpenError::TooLong { bytes: 9, most: 4 },
            false,
            "too long: 9 bytes, at most 4",
        ),
        (
            OpenError::ValueDamaged {
                stored: 0xAB,
                computed: 0xCBF4_3926,
            },
            true,
            "the value is damaged: its checksum is cbf43926, not 000000ab",
        ),
        (
            OpenError::BytesLeftOver { count: 2 },
            false,
            "trailing bytes: 2",
        ),
        (
            OpenError::Value(eof),
            false,
            "the value was not decoded: EOF",
        ),
        (
            OpenError::Value(memory),
            false,
            "the value was not decoded: out of memory",
        ),
    ];
    for (fault, is_damage, text) in &faults {
        let printed = format!(in rt.alloc(); "{fault}")?;
        assert_eq!(rt; printed.as_str(), *text);
        assert_eq!(rt; fault.is_damage(), *is_damage);
        assert_eq!(rt; fault.is_out_of_memory(), *fault == OpenError::Value(memory));
    }
    Ok(())
}

// A function that allocates beside opening: `?` converts each error.
fn opened_twice(alloc: Global, bytes: &[u8]) -> Result<Vec<u32>, OpenError> {
    let mut numbers = Vec::with_capacity(alloc, 1)?;
    for _ in 0..2u8 {
        let pair: (u32, &str) = open(alloc, &EXPECTED, bytes)?;
        numbers.push(pair.0)?;
    }
    Ok(numbers)
}

#[test]
fn errors_are_converted(rt: HostRuntime) -> Result<(), Fail> {
    let numbers = opened_twice(rt.alloc(), &BYTES)?;
    assert_eq!(rt; numbers.as_slice(), [7, 7].as_slice());
    assert!(rt; OpenError::from(AllocError).is_out_of_memory());
    Ok(())
}

#[test]
fn labels_are_read_and_skipped(rt: HostRuntime) -> Result<(), Fail> {
    assert_eq!(rt; read_label(&BYTES)?, LABEL);
    assert_eq!(rt; read_label(&BYTES[..20])?, LABEL);
    assert_eq!(rt; read_label(b"text"), Err(OpenError::NotSealed));
    let alloc = rt.alloc();
    let mut out = BYTES.to_vec(alloc)?;
    out.push(0xBC)?;
    let mut input = out.as_slice();
    assert_eq!(rt; skip_sealed(&mut input)?, LABEL);
    assert_eq!(rt; input, [0xBC].as_slice());
    let cut_off = OpenError::CutOff {
        present: 1,
        wanted: 20,
    };
    assert_eq!(rt; skip_sealed(&mut input), Err(cut_off));
    assert_eq!(rt; input.len(), 1);
    assert_eq!(rt; next_head(out.as_slice()), 29);
    assert_eq!(rt; next_head(&BYTES), 29);
    assert_eq!(rt; next_head(&[0xBC, 0xF5, 0xBC, 0xBC, 0xF5]), 3);
    Ok(())
}

#[test]
fn a_journal_is_read_to_its_torn_end(rt: HostRuntime) -> Result<(), Fail> {
    let alloc = rt.alloc();
    let mut journal = BYTES.to_vec(alloc)?;
    let other = Label {
        kind: 1,
        version: 2,
    };
    seal_into(alloc, other, &7u8, &mut journal)?;
    journal.extend_from_slice(&BYTES)?;
    journal.as_mut_slice()[54 + 24] = 106;
    journal.extend_from_slice(&BYTES)?;
    journal.extend_from_slice(&BYTES[..28])?;

    let opened = Next::Opened((7u32, "hi"));
    let mut input = journal.as_slice();
    assert_eq!(rt; open_next(alloc, &EXPECTED, &mut input)?, opened);
    let fault = OpenError::AnotherKind {
        found: 1,
        expected: 0x5245_4353,
    };
    let skipped: Next<(u32, &str)> = Next::Skipped { fault, bytes: 25 };
    assert_eq!(rt; open_next(alloc, &EXPECTED, &mut input)?, skipped);
    let skipped = open_next::<(u32, &str)>(alloc, &EXPECTED, &mut input)?;
    assert!(rt;
        matches!(
            skipped,
            Next::Skipped {
                fault: OpenError::ValueDamaged { .. },
                bytes: 29
            }
        )
    );
    assert_eq!(rt; open_next(alloc, &EXPECTED, &mut input)?, opened);
    let end: Next<(u32, &str)> = Next::EndCutOff {
        present: 28,
        wanted: 29,
    };
    assert_eq!(rt; open_next(alloc, &EXPECTED, &mut input)?, end);
    assert_eq!(rt; input.len(), 28);
    Ok(())
}

#[test]
fn a_foreign_value_that_is_too_long_is_not_waited_for(rt: HostRuntime) -> Result<(), Fail> {
    let alloc = rt.alloc();
    let short = Expected {
        label: LABEL,
        most_bytes: 4,
    };
    let mut input = &BYTES[..28];
    let fault = OpenError::TooLong { bytes: 5, most: 4 };
    let skipped: Next<(u32, &str)> = Next::Skipped { fault, bytes: 28 };
    assert_eq!(rt; open_next(alloc, &short, &mut input)?, skipped);
    assert!(rt; input.is_empty());
    Ok(())
}
