//! Structs with a check: what the check refuses is refused, and never made, also of random bytes. Structs with skipped
//! fields: these are not written.
use bitcode::{Error, Reason, decode, decode_strict, encode};
use bitcode_changed_types::decoded::{decode_grade, decode_known, decode_percent, decode_span};
use bitcode_changed_types::grade::Grade;
use bitcode_changed_types::known::Known;
use bitcode_changed_types::percent::Percent;
use bitcode_changed_types::span::Span;
use std::alloc::Global;
use std::collections::BTreeMap;

const INPUTS: u64 = 100_000;

const LEFT: Error = Error {
    reason: Reason::ExpectedEof,
};

const REFUSED: Error = Error {
    reason: Reason::InvalidBitPattern,
};

/// Numbers that look random.
#[derive(Drop)]
struct Random {
    state: u64,
}

impl Random {
    fn below(&mut self, limit: u64) -> u64 {
        self.state = self.state.wrapping_mul(6364136223846793005).wrapping_add(1442695040888963407);
        (self.state >> 33) % limit
    }
}

fn is_refused<T: Drop>(res: Result<T, Error>) -> bool {
    match res {
        Ok(_) => false,
        Err(e) => e == REFUSED,
    }
}

#[test]
fn a_percent_has_at_most_100_hundredths(rt: HostRuntime) -> Result<(), Error> {
    let alloc = rt.alloc();
    assert!(rt; Percent::new(100).is_some() && Percent::new(101).is_none());
    for n in 0..=255u8 {
        let percent = decode_percent(alloc, &[n]);
        assert!(rt; if n <= 100 { percent.is_ok() } else { is_refused(percent) });
    }
    Ok(())
}

#[test]
fn a_span_ends_where_it_starts_or_later(rt: HostRuntime) -> Result<(), Error> {
    let alloc = rt.alloc();
    let span = Span::new(3, 3).unwrap();
    let bytes = encode(alloc, &span)?;
    assert!(rt; decode_span(alloc, &bytes)? == span);
    assert!(rt; bytes.as_slice() == encode(alloc, &(3u64, 3u64))?.as_slice());
    assert!(rt; is_refused(decode_span(alloc, &encode(alloc, &(4u64, 3u64))?)));
    Ok(())
}

#[test]
fn one_element_of_a_list_that_is_refused_refuses_all(rt: HostRuntime) -> Result<(), Error> {
    let alloc = rt.alloc();
    let good = encode(alloc, &vec![in alloc; (1u64, 3u64), (5u64, 5u64)]?)?;
    let spans: Vec<Span> = decode(alloc, &good)?;
    assert!(rt; spans.as_slice() == [Span::new(1, 3).unwrap(), Span::new(5, 5).unwrap()].as_slice());
    let bad = encode(alloc, &vec![in alloc; (1u64, 3u64), (5u64, 5u64), (7u64, 6u64)]?)?;
    assert!(rt; is_refused(decode::<Vec<Span>>(alloc, &bad)));
    assert!(rt; is_refused(decode_strict::<Vec<Span>>(alloc, &bad)));
    Ok(())
}

#[test]
fn percents_are_keys(rt: HostRuntime) -> Result<(), Error> {
    let alloc = rt.alloc();
    let mut named: BTreeMap<Percent, u8> = BTreeMap::new(alloc);
    named.insert(Percent::new(50).unwrap(), 1)?;
    named.insert(Percent::new(7).unwrap(), 2)?;
    let bytes = encode(alloc, &named)?;
    assert!(rt; decode::<BTreeMap<Percent, u8>>(alloc, &bytes)? == named);
    let mut others: BTreeMap<u8, u8> = BTreeMap::new(alloc);
    others.insert(101, 1)?;
    assert!(rt; is_refused(decode::<BTreeMap<Percent, u8>>(alloc, &encode(alloc, &others)?)));
    Ok(())
}

#[test]
fn random_fields_are_decoded_just_where_the_check_takes_them(rt: HostRuntime) -> Result<(), Error> {
    let alloc = rt.alloc();
    let mut random = Random { state: 7 };
    for _i in 0..INPUTS {
        let (points, most) = (random.below(4) as u16, random.below(4) as u16);
        let grade = decode_grade(alloc, &encode(alloc, &(points, most))?);
        let is_taken = most > 0 && points <= most;
        assert!(rt; if is_taken { grade.is_ok() } else { is_refused(grade) });
        assert!(rt; Grade::new(points, most).is_some() == is_taken);
    }
    Ok(())
}

#[test]
fn random_bytes_make_no_span_that_the_check_refuses(rt: HostRuntime) -> Result<(), Error> {
    let alloc = rt.alloc();
    let mut random = Random { state: 11 };
    for _i in 0..INPUTS {
        let mut bytes = Vec::new(alloc);
        for _j in 0..random.below(8) {
            bytes.push(random.below(9) as u8)?;
        }
        let fields: Result<(u64, u64), Error> = decode(alloc, &bytes);
        match decode_span(alloc, &bytes) {
            Ok(span) => assert!(rt; fields?.0 <= decode::<(u64, u64)>(alloc, &encode(alloc, &span)?)?.1),
            Err(e) => assert!(rt; match fields {
                Ok((start, end)) => start > end && e == REFUSED,
                // The check comes before what is left behind the value.
                Err(other) => other == e || e == REFUSED && other == LEFT,
            }),
        }
    }
    Ok(())
}

#[test]
fn skipped_fields_are_not_written(rt: HostRuntime) -> Result<(), Error> {
    let alloc = rt.alloc();
    let known = Known {
        name: String::from_str(alloc, "ogre")?,
        is_seen: true,
        health: -3,
        path: vec![in alloc; 1u8, 2]?,
    };
    let bytes = encode(alloc, &known)?;
    assert!(rt; bytes.as_slice() == encode(alloc, &("ogre", -3i16))?.as_slice());
    let again = decode_known(alloc, &bytes)?;
    assert!(rt; again.name == known.name && again.health == -3 && !again.is_seen && again.path.is_empty());
    Ok(())
}
