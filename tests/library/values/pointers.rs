//! Pointers and markers, both ways. `scripts/checks/vectors.sh` runs many more of the values of the Rust crate.
use bitcode_test_support::{Got, written_and_read};
use std::boxed::BoxedSlice;
use std::marker::PhantomData;
use std::rc::{Rc, RcSlice};
use std::sync::{Arc, ArcSlice};

/// What was read is this.
fn is(same: bool) -> Result<(), Got> {
    if same { Ok(()) } else { Err(Got::AnotherValue) }
}

#[test]
fn boxes(rt: HostRuntime) -> Result<(), Got> {
    let alloc = rt.alloc();
    let read = written_and_read(alloc, &Box::new(alloc, 8u8)?, &[8])?;
    is(*read == 8)
}

#[test]
fn shared_pointers(rt: HostRuntime) -> Result<(), Got> {
    let alloc = rt.alloc();
    let number = Rc::new(alloc, 3606444468u32)?;
    let read = written_and_read(alloc, &number, &[0, 180, 249, 245, 214])?;
    is(*read == 3606444468)?;
    let number = Arc::new(alloc, 300u32)?;
    let read = written_and_read(alloc, &number, &[2, 44, 1])?;
    is(*read == 300)
}

#[test]
fn slices_of_pointers(rt: HostRuntime) -> Result<(), Got> {
    let alloc = rt.alloc();
    let none: BoxedSlice<u8> = BoxedSlice::from_slice(alloc, &[])?;
    let read = written_and_read(alloc, &none, &[0])?;
    is(read.as_slice().is_empty())?;
    let one: RcSlice<u16> = RcSlice::from_slice(alloc, &[0])?;
    let read = written_and_read(alloc, &one, &[1, 0, 0])?;
    is(read.as_slice() == [0].as_slice())?;
    let three: ArcSlice<u16> = ArcSlice::from_slice(alloc, &[1, 2, 3])?;
    let read = written_and_read(alloc, &three, &[3, 2, 6, 57])?;
    is(read.as_slice() == [1, 2, 3].as_slice())
}

#[test]
fn markers(rt: HostRuntime) -> Result<(), Got> {
    let marker: PhantomData<u8> = PhantomData;
    let PhantomData = written_and_read(rt.alloc(), &marker, &[])?;
    Ok(())
}
