//! With ample memory a list of enums is written by the variants of all and the payloads of each, in chunks of 64 and
//! less, and read back.
use bitcode::coder::Buffer as _;
use bitcode::{Encode, Encoder, Error, decode, encode};
use bitcode_own_types::event::Event;
use bitcode_own_types::outcome::Outcome;
use bitcode_own_types::two::Two;
use std::alloc::Global;

/// More than two chunks.
const MANY: u8 = 130;

/// The number of the values, and their columns as their encoder writes them one by one.
fn one_by_one<T: Encode>(alloc: Global, values: &Vec<T>) -> Result<Vec<u8>, Error> {
    let mut columns = T::Encoder::new(alloc);
    for value in values {
        columns.reserve(1)?;
        columns.encode(value)?;
    }
    let mut bytes = vec![in alloc; MANY]?;
    columns.collect_into(&mut bytes)?;
    Ok(bytes)
}

fn event(alloc: Global, i: u8) -> Result<Event, Error> {
    Ok(match i % 5 {
        0 => Event::Tick,
        1 => Event::Spawn(u64::from(i), String::from_str(alloc, "ab")?),
        2 => Event::Move {
            id: 7,
            dx: -1,
            dy: 3,
        },
        3 => Event::Quit(None),
        _ => Event::Quit(Some(u16::from(i))),
    })
}

#[test]
fn lists_of_events_come_back(rt: HostRuntime) -> Result<(), Error> {
    let alloc = rt.alloc();
    let mut events = Vec::new(alloc);
    for i in 0..MANY {
        events.push(event(alloc, i)?)?;
    }
    let bytes = encode(alloc, &events)?;
    assert!(rt; bytes.as_slice() == one_by_one(alloc, &events)?.as_slice());
    let again: Vec<Event> = decode(alloc, bytes.as_slice())?;
    assert!(rt; again == events);
    Ok(())
}

#[test]
fn lists_of_two_variants_are_those_of_results(rt: HostRuntime) -> Result<(), Error> {
    let alloc = rt.alloc();
    let mut twos = Vec::new(alloc);
    let mut results: Vec<Result<u8, i8>> = Vec::new(alloc);
    for i in 0..MANY {
        if i % 3 == 0 {
            twos.push(Two::A(i))?;
            results.push(Ok(i))?;
        } else {
            twos.push(Two::B(-7))?;
            results.push(Err(-7))?;
        }
    }
    let bytes = encode(alloc, &twos)?;
    assert!(rt; bytes.as_slice() == encode(alloc, &results)?.as_slice());
    let again: Vec<Two> = decode(alloc, bytes.as_slice())?;
    assert!(rt; again == twos);
    Ok(())
}

#[test]
fn lists_of_variants_without_fields_come_back(rt: HostRuntime) -> Result<(), Error> {
    let alloc = rt.alloc();
    let mut outcomes = Vec::new(alloc);
    for i in 0..MANY {
        let outcome = match i % 3 {
            0 => Outcome::Won,
            1 => Outcome::Drawn,
            _ => Outcome::Lost,
        };
        outcomes.push((outcome, Some(outcome)))?;
    }
    let bytes = encode(alloc, &outcomes)?;
    let again: Vec<(Outcome, Option<Outcome>)> = decode(alloc, bytes.as_slice())?;
    assert!(rt; again == outcomes);
    // The length, and then five digits in base 3 a byte: 0, 1, 2, 0, 1 and 2, 0, 1, 2, 0 and 1, 2, 0, 1, 2.
    assert!(rt; bytes.as_slice().starts_with(&[MANY, 102, 65, 196]));
    assert!(rt; bytes.as_slice() == one_by_one(alloc, &outcomes)?.as_slice());
    Ok(())
}
