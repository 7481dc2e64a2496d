//! With ample memory structs and scores are written and read back, and generic code reads them.
use bitcode::own::Absent;
use bitcode::{Error, Reason, decode, encode};
use bitcode_own_types::amino_acid::AminoAcid;
use bitcode_own_types::chest::Chest;
use bitcode_own_types::dated::Dated;
use bitcode_own_types::event::Event;
use bitcode_own_types::foo::Foo;
use bitcode_own_types::generic::{Cache, load};
use bitcode_own_types::item::Item;
use bitcode_own_types::keys::{lit_spots, sold_seats};
use bitcode_own_types::message::Message;
use bitcode_own_types::monster::Monster;
use bitcode_own_types::msg::Msg;
use bitcode_own_types::never::Never;
use bitcode_own_types::one::One;
use bitcode_own_types::order::Order;
use bitcode_own_types::outcome::Outcome;
use bitcode_own_types::reply::Reply;
use bitcode_own_types::saved::{saved_and_loaded, saved_monster};
use bitcode_own_types::scores::Scores;
use bitcode_own_types::two::Two;

#[test]
fn what_stands_for_its_fields_comes_back(rt: HostRuntime) -> Result<(), Error> {
    let alloc = rt.alloc();
    let message = Message {
        from: 10,
        text: "abc",
    };
    let bytes = encode(alloc, &message)?;
    assert!(rt; bytes.as_slice() == [4, 10, 3, 97, 98, 99].as_slice());
    let again: Message<'_> = decode(alloc, bytes.as_slice())?;
    assert!(rt; again == message);
    let dated = Dated {
        year: 2026,
        day: 7,
        value: 9u8,
    };
    let bytes = encode(alloc, &dated)?;
    assert!(rt; bytes.as_slice() == [234, 7, 7, 0, 9].as_slice());
    let again: Dated<u8> = decode(alloc, bytes.as_slice())?;
    assert!(rt; again == dated);
    Ok(())
}

#[test]
fn a_generic_enum_comes_back(rt: HostRuntime) -> Result<(), Error> {
    let alloc = rt.alloc();
    let one = encode(alloc, &Msg::One(7u8))?;
    assert!(rt; one.as_slice() == [0, 7].as_slice());
    let messages = vec![in alloc;
        Msg::One(String::from_str(alloc, "ab")?),
        Msg::Nothing,
        Msg::Many(vec![in alloc; String::from_str(alloc, "c")?, String::from_str(alloc, "")?]?),
    ]?;
    let bytes = encode(alloc, &messages)?;
    let again: Vec<Msg<String>> = decode(alloc, bytes.as_slice())?;
    assert!(rt; again == messages);
    // A byte of three variants has five digits in base 3: 5 is variant 2, and 3 is variant 0, whose field is missing.
    assert!(rt; decode::<Msg<u8>>(alloc, &[5])? == Msg::Nothing);
    let refused: Result<Msg<u8>, Error> = decode(alloc, &[3]);
    assert!(rt; matches!(&refused, Err(error) if error.reason == Reason::Eof));
    Ok(())
}

#[test]
fn a_monster_comes_back(rt: HostRuntime) -> Result<(), Error> {
    let alloc = rt.alloc();
    let monster = Monster {
        id: 7,
        name: String::from_str(alloc, "ab")?,
        health: -1,
        alive: true,
        position: (1, 2),
        loot: Vec::new(alloc),
    };
    let bytes = encode(alloc, &monster)?;
    assert!(rt; bytes.as_slice() == [6, 7, 2, 97, 98, 255, 255, 1, 4, 1, 4, 2, 0].as_slice());
    let again: Monster = decode(alloc, bytes.as_slice())?;
    assert!(rt; again == monster);
    assert!(rt; saved_monster(alloc, &monster)? == monster);
    Ok(())
}

#[test]
fn variants_come_back(rt: HostRuntime) -> Result<(), Error> {
    let alloc = rt.alloc();
    let bytes = encode(alloc, &Outcome::Drawn)?;
    assert!(rt; bytes.as_slice() == [1].as_slice());
    let again: Outcome = decode(alloc, bytes.as_slice())?;
    assert!(rt; again == Outcome::Drawn);
    let outcomes = vec![in alloc; Outcome::Lost, Outcome::Drawn, Outcome::Won]?;
    let bytes = encode(alloc, &outcomes)?;
    assert!(rt; bytes.as_slice() == [3, 5].as_slice());
    let again: Vec<Outcome> = decode(alloc, bytes.as_slice())?;
    assert!(rt; again == outcomes);
    let acids = vec![in alloc; AminoAcid::Valine, AminoAcid::Alanine]?;
    let bytes = encode(alloc, &acids)?;
    assert!(rt; bytes.as_slice() == [2, 19, 0].as_slice());
    let again: Vec<AminoAcid> = decode(alloc, bytes.as_slice())?;
    assert!(rt; again == acids);
    let refused: Result<AminoAcid, Error> = decode(alloc, &[20]);
    assert!(rt; matches!(&refused, Err(error) if error.reason == Reason::InvalidPacking));
    Ok(())
}

#[test]
fn events_come_back(rt: HostRuntime) -> Result<(), Error> {
    let alloc = rt.alloc();
    let events = vec![in alloc;
        Event::Quit(Some(5)),
        Event::Tick,
        Event::Spawn(7, String::from_str(alloc, "ab")?),
        Event::Move {
            id: 9,
            dx: 1,
            dy: -1
        },
        Event::Quit(None),
    ]?;
    let bytes = encode(alloc, &events)?;
    // The length, the variants, and then the columns of each variant's payload.
    let expected = [5, 147, 3, 6, 7, 2, 97, 98, 6, 9, 1, 255, 1, 5, 0];
    assert!(rt; bytes.as_slice() == expected.as_slice());
    let again: Vec<Event> = decode(alloc, bytes.as_slice())?;
    assert!(rt; again == events);
    Ok(())
}

#[test]
fn orders_come_back(rt: HostRuntime) -> Result<(), Error> {
    let alloc = rt.alloc();
    let orders = vec![in alloc;
        Order::Open,
        Order::Add(1, String::from_str(alloc, "a")?),
        Order::Cancel,
        Order::Remove { item: 7, count: 2 },
    ]?;
    let bytes = encode(alloc, &orders)?;
    // The length, the variants in base 6, and then the columns of each variant's payload.
    let expected = [4, 186, 2, 6, 1, 1, 97, 6, 7, 2, 0];
    assert!(rt; bytes.as_slice() == expected.as_slice());
    let again: Vec<Order> = decode(alloc, bytes.as_slice())?;
    assert!(rt; again == orders);
    let refused: Result<Vec<Order>, Error> = decode(alloc, &[1, 1]);
    assert!(rt; matches!(&refused, Err(error) if error.reason == Reason::Eof));
    Ok(())
}

#[test]
fn replies_come_back(rt: HostRuntime) -> Result<(), Error> {
    let alloc = rt.alloc();
    // The length, the variants in base 16, and then the columns of each variant's payload.
    let written = [
        7, 1, 101, 66, 3, 2, 97, 98, 2, 1, 1, 120, 121, 1, 4, 9, 1, 4, 7, 1, 113, 2, 2, 1, 2, 4, 7,
        1, 99, 1, 5, 0, 1, 122, 4, 44, 1,
    ];
    let replies: Vec<Reply<'_>> = decode(alloc, &written)?;
    assert!(rt; replies.len() == 7);
    let bytes = encode(alloc, &replies)?;
    assert!(rt; bytes.as_slice() == written.as_slice());
    Ok(())
}

#[test]
fn spots_are_keys(rt: HostRuntime) -> Result<(), Error> {
    let alloc = rt.alloc();
    // The length, the lights as bits, the lengths of the sets, and the columns of the spots.
    let written = [2, 2, 1, 1, 4, 1, 2, 4, 3, 4];
    let lit = lit_spots(alloc, &written)?;
    assert!(rt; lit.len() == 2);
    let bytes = encode(alloc, &lit)?;
    assert!(rt; bytes.as_slice() == written.as_slice());
    Ok(())
}

#[test]
fn seats_are_keys(rt: HostRuntime) -> Result<(), Error> {
    let alloc = rt.alloc();
    // The length, the columns of the three fields, and that of how often each was sold.
    let written = [1, 1, 2, 2, 2, 3, 4, 9];
    let sold = sold_seats(alloc, &written)?;
    assert!(rt; sold.len() == 1);
    let bytes = encode(alloc, &sold)?;
    assert!(rt; bytes.as_slice() == written.as_slice());
    Ok(())
}

#[test]
fn twins_have_the_bytes_of_the_types_by_hand(rt: HostRuntime) -> Result<(), Error> {
    let alloc = rt.alloc();
    let foo = Foo {
        x: 4294967295,
        y: "Y_(",
    };
    let bytes = encode(alloc, &foo)?;
    assert!(rt; bytes.as_slice() == [0, 255, 255, 255, 255, 3, 89, 95, 40].as_slice());
    let again: Foo<'_> = decode(alloc, bytes.as_slice())?;
    assert!(rt; again == foo);
    let two = vec![in alloc;
        Two::B(-2),
        Two::B(39),
        Two::B(11),
        Two::B(85),
        Two::B(110),
        Two::B(8),
        Two::B(68),
        Two::B(73),
        Two::B(109),
    ]?;
    let bytes = encode(alloc, &two)?;
    assert!(rt;
        bytes.as_slice() == [9, 255, 1, 0, 254, 39, 11, 85, 110, 8, 68, 73, 109].as_slice()
    );
    let again: Vec<Two> = decode(alloc, bytes.as_slice())?;
    assert!(rt; again == two);
    let bytes = encode(alloc, &One::A(7))?;
    assert!(rt; bytes.as_slice() == [7].as_slice());
    let again: One = decode(alloc, bytes.as_slice())?;
    assert!(rt; again == One::A(7));
    Ok(())
}

#[test]
fn never_is_read(rt: HostRuntime) -> Result<(), Error> {
    let alloc = rt.alloc();
    let none: Vec<Absent<Never>> = Vec::new(alloc);
    let bytes = encode(alloc, &none)?;
    assert!(rt; bytes.as_slice() == [0].as_slice());
    let refused: Result<Vec<Absent<Never>>, Error> = decode(alloc, &[106]);
    assert!(rt; matches!(&refused, Err(error) if error.reason == Reason::InvalidEnumVariant));
    Ok(())
}

#[test]
fn scores_come_back(rt: HostRuntime) -> Result<(), Error> {
    let alloc = rt.alloc();
    let scores = Scores {
        list: vec![in alloc; 0, 1, 3, 0, 3, 1]?,
    };
    let bytes = encode(alloc, &scores)?;
    assert!(rt; bytes.as_slice() == [6, 4, 6, 52, 7].as_slice());
    let again: Scores = decode(alloc, bytes.as_slice())?;
    assert!(rt; again == scores);
    assert!(rt; saved_and_loaded(alloc, &scores)? == scores);
    Ok(())
}

#[test]
fn generic_code_reads(rt: HostRuntime) -> Result<(), Error> {
    let alloc = rt.alloc();
    let level: u8 = load(alloc, &[7])?;
    assert!(rt; level == 7);
    let refused: Result<u8, Error> = load(alloc, &[]);
    assert!(rt; matches!(&refused, Err(error) if error.reason == Reason::Eof));
    let cache: Cache<Vec<u8>> = Cache::new(vec![in alloc; 2, 7, 9]?);
    assert!(rt; cache.get(alloc)?.as_slice() == [7, 9].as_slice());
    Ok(())
}

#[test]
fn own_types_inside_another_come_back(rt: HostRuntime) -> Result<(), Error> {
    let alloc = rt.alloc();
    let chest = Chest {
        label: String::from_str(alloc, "a")?,
        items: vec![in alloc;
            Item {
                name: String::from_str(alloc, "bc")?,
                level: 7,
            },
        ]?,
        best: None,
    };
    let bytes = encode(alloc, &chest)?;
    // The label, a list of one item, and no other item.
    let expected = [1, 97, 1, 2, 98, 99, 7, 0];
    assert!(rt; bytes.as_slice() == expected.as_slice());
    let again: Chest = decode(alloc, bytes.as_slice())?;
    assert!(rt; again == chest);
    Ok(())
}
