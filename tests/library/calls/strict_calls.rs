//! What is read strictly is what is written.
use bitcode::{decode_strict, encode};
use bitcode_test_support::strict_laws::{flag_is_written, number_is_written};
use std::test::Fail;

#[test]
fn what_is_written_is_read_strictly(rt: HostRuntime) -> Result<(), Fail> {
    let alloc = rt.alloc();
    let bytes = encode(alloc, &true)?;
    let flag: bool = decode_strict(alloc, &bytes)?;
    flag_is_written(&flag, &bytes);
    assert!(rt; flag);
    let bytes = encode(alloc, &70000u32)?;
    let number: u32 = decode_strict(alloc, &bytes)?;
    number_is_written(&number, &bytes);
    assert_eq!(rt; number, 70000);
    Ok(())
}
