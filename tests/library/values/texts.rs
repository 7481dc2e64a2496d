//! Texts and chars: all of Unicode's boundary scalars, and what the Rust crate wrote and read.
use bitcode::coder::Buffer as _;
use bitcode::laws::{borrowed_text, borrowed_texts, joined_texts, short_text};
use bitcode::{
    Decoder, Encoder, NewDecoder, Reason, StrDecoder, StrEncoder, U8Char, U8CharEncoder, View,
    decode,
};
use bitcode_test_support::{Got, both_ways, refuses};
use std::alloc::Global;
use std::boxed::BoxedStr;
use std::rc::RcStr;
use std::test::Fail;

/// Two texts are read of the bytes of one, cut at each byte: only where no char is cut.
fn cut_everywhere(alloc: Global, length: u8, text: &[u8]) -> Result<(), Got> {
    for cut in 0..=length {
        let mut column: Vec<u8> = vec![in alloc; cut, length - cut]?;
        column.extend_from_slice(text)?;
        let mut input = column.as_slice();
        let mut texts = StrDecoder::new(alloc);
        let at_char = cut == 0 || cut == length;
        match texts.populate(&mut input, 2) {
            Ok(()) if at_char => {}
            Err(error) if !at_char && error.reason == Reason::InvalidUtf8 => {}
            Ok(()) => return Err(Got::AnotherValue),
            Err(error) => return Err(Got::Refused(error)),
        }
    }
    Ok(())
}

#[test]
fn boundary_scalars(rt: HostRuntime) -> Result<(), Got> {
    let alloc = rt.alloc();
    let scalars: [(char, &[u8], u8, &[u8]); 10] = [
        ('\u{0}', &[4, 0], 1, &[0]),
        ('\u{7f}', &[4, 127], 1, &[127]),
        ('\u{80}', &[4, 128], 2, &[194, 128]),
        ('\u{7ff}', &[2, 255, 7], 2, &[223, 191]),
        ('\u{800}', &[2, 0, 8], 3, &[224, 160, 128]),
        ('\u{d7ff}', &[2, 255, 215], 3, &[237, 159, 191]),
        ('\u{e000}', &[2, 0, 224], 3, &[238, 128, 128]),
        ('\u{ffff}', &[2, 255, 255], 3, &[239, 191, 191]),
        ('\u{10000}', &[0, 0, 0, 1, 0], 4, &[240, 144, 128, 128]),
        (
            '\u{10ffff}',
            &[0, 255, 255, 16, 0],
            4,
            &[244, 143, 191, 191],
        ),
    ];
    for (scalar, column, length, text) in &scalars {
        both_ways(alloc, *scalar, column)?;
        cut_everywhere(alloc, *length, text)?;
    }
    Ok(())
}

#[test]
fn what_is_no_scalar(rt: HostRuntime) -> Result<(), Got> {
    let alloc = rt.alloc();
    let chars: [&[u8]; 3] = [&[2, 0, 216], &[2, 255, 223], &[0, 0, 0, 17, 0]];
    for bytes in &chars {
        refuses::<char>(alloc, bytes, Reason::InvalidBitPattern)?;
    }
    // surrogates, forms that are too long, and a scalar that is too great
    let texts: [&[u8]; 8] = [
        &[3, 237, 160, 128],
        &[3, 237, 191, 191],
        &[2, 192, 128],
        &[2, 193, 191],
        &[3, 224, 128, 128],
        &[3, 224, 159, 191],
        &[4, 240, 143, 191, 191],
        &[4, 244, 144, 128, 128],
    ];
    for bytes in &texts {
        refuses::<String>(alloc, bytes, Reason::InvalidUtf8)?;
    }
    Ok(())
}

#[test]
fn texts_of_the_rust_crate(rt: HostRuntime) -> Result<(), Got> {
    let alloc = rt.alloc();
    let written: [(&str, &[u8]); 4] = [
        ("\u{80}o\u{10ffff}", &[7, 194, 128, 111, 244, 143, 191, 191]),
        (
            "\u{e9}cvS'v\u{ffff}",
            &[10, 195, 169, 99, 118, 83, 39, 118, 239, 191, 191],
        ),
        ("", &[0]),
        ("\tk1", &[3, 9, 107, 49]),
    ];
    for (text, bytes) in &written {
        both_ways(alloc, *text, bytes)?;
    }
    let refused: [(&[u8], Reason); 10] = [
        (&[2, 223, 192], Reason::InvalidUtf8),
        (&[2, 223, 8, 191], Reason::InvalidUtf8),
        (&[7, 97, 97, 97, 97, 97, 97, 128], Reason::InvalidUtf8),
        (&[7, 121, 114, 95, 6, 19, 27], Reason::Eof),
        (&[216, 215, 0], Reason::Eof),
        (&[255, 2, 1, 0, 0, 0], Reason::Eof),
        (&[255, 2, 0, 0, 0, 0, 0], Reason::ExpectedEof),
        (
            &[8, 240, 159, 152, 128, 244, 143, 191, 191, 8],
            Reason::ExpectedEof,
        ),
        (
            &[255, 0, 255, 255, 255, 255, 255, 255, 7, 0],
            Reason::HugeLength,
        ),
        (
            &[255, 0, 255, 255, 255, 255, 255, 255, 255, 255],
            Reason::HugeLength,
        ),
    ];
    for (bytes, reason) in &refused {
        refuses::<String>(alloc, bytes, *reason)?;
    }
    Ok(())
}

#[test]
fn texts_of_each_kind_are_written(rt: HostRuntime) -> Result<(), Fail> {
    let alloc = rt.alloc();
    let mut column = StrEncoder::new(alloc);
    column.reserve(4)?;
    column.encode(&"a")?;
    column.encode(&String::from_str(alloc, "bc")?)?;
    column.encode(&BoxedStr::from_str(alloc, "")?)?;
    column.encode(&RcStr::from_str(alloc, "d")?)?;
    let mut bytes = Vec::new(alloc);
    column.collect_into(&mut bytes)?;
    assert_eq!(rt; bytes.as_slice(), [8, 34, 97, 98, 99, 100].as_slice());
    column.clear();
    Ok(())
}

#[test]
fn texts_of_each_kind_are_read(rt: HostRuntime) -> Result<(), Fail> {
    let mut input: &[u8] = &[8, 34, 97, 98, 99, 100];
    let mut texts = StrDecoder::new(rt.alloc());
    texts.populate(&mut input, 4)?;
    let first: &str = texts.decode()?;
    assert_eq!(rt; first, "a");
    let second: String = texts.decode()?;
    assert_eq!(rt; second.as_str(), "bc");
    let third: BoxedStr = texts.decode()?;
    assert_eq!(rt; third.as_str(), "");
    let last: RcStr = texts.decode()?;
    assert_eq!(rt; last.as_str(), "d");
    Ok(())
}

#[test]
fn bytes_of_texts_stand_as_they_are(rt: HostRuntime) -> Result<(), Fail> {
    let alloc = rt.alloc();
    let mut chars = U8CharEncoder::new(alloc);
    chars.reserve(1)?;
    chars.encode(&U8Char(255))?;
    let mut bytes = Vec::new(alloc);
    chars.collect_into(&mut bytes)?;
    chars.clear();
    assert_eq!(rt; bytes.as_slice(), [255].as_slice());
    Ok(())
}

#[test]
fn texts_are_slices_of_the_input(rt: HostRuntime) -> Result<(), Fail> {
    let alloc = rt.alloc();
    let bytes = [2, 97, 98, 7];
    let pair: (&str, u8) = decode(alloc, &bytes)?;
    borrowed_texts(&bytes, &pair);
    assert_eq!(rt; pair, ("ab", 7));
    let text = short_text(alloc, &bytes[..3])?;
    borrowed_text(&bytes[..3], &text);
    assert_eq!(rt; text, "ab");
    joined_texts();
    Ok(())
}
