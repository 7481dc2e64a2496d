//! Tuples of one field, both ways, and of sixteen types, written. The tables of `scripts/vectors` have every number of
//! fields.
use bitcode_test_support::{Got, encodes, written_and_read};
use std::time::Duration;

#[test]
fn one_field_is_as_that_field(rt: HostRuntime) -> Result<(), Got> {
    let (read,) = written_and_read(rt.alloc(), &(10u8,), &[10])?;
    if read == 10 {
        Ok(())
    } else {
        Err(Got::AnotherValue)
    }
}

#[test]
fn sixteen_types_are_written(rt: HostRuntime) -> Result<(), Got> {
    let alloc = rt.alloc();
    let value = (
        13u8,
        126i8,
        0u16,
        111i16,
        27528u32,
        4i32,
        15u64,
        32765i64,
        false,
        '\u{fff6}',
        "qmomfgd",
        None::<u8>,
        vec![in alloc; false]?,
        [0u8, 173, 40],
        (),
        Duration::new(2, 719610901),
    );
    let bytes = [
        13, 126, 0, 0, 111, 0, 2, 136, 107, 4, 4, 6, 15, 4, 253, 127, 0, 2, 246, 255, 7, 113, 109,
        111, 109, 102, 103, 100, 0, 1, 0, 0, 0, 173, 40, 6, 2, 0, 21, 100, 228, 42,
    ];
    encodes(alloc, &value, &bytes)
}
