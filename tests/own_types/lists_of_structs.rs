//! With ample memory a list of structs is written as the list of the tuples of their fields, in chunks of 64 and less,
//! and read back.
use bitcode::{Error, decode, encode};
use bitcode_own_types::chest::Chest;
use bitcode_own_types::foo::Foo;
use bitcode_own_types::item::Item;
use bitcode_own_types::meters::Meters;
use bitcode_own_types::monster::Monster;
use bitcode_own_types::pause::Pause;
use std::alloc::Global;

/// More than two chunks.
const MANY: u8 = 130;

type MonsterParts = (u64, String, i16, bool, (i32, i32), Vec<u16>);

type FooParts = (u32, &'static str);

type ItemParts = (String, u8);

type ChestParts = (String, Vec<ItemParts>, Option<ItemParts>);

/// A text of none to two letters.
fn name(alloc: Global, i: u8) -> Result<String, Error> {
    let name = match i % 3 {
        0 => "",
        1 => "a",
        _ => "bc",
    };
    Ok(String::from_str(alloc, name)?)
}

fn monster_parts(alloc: Global, i: u8) -> Result<MonsterParts, Error> {
    let mut loot = Vec::new(alloc);
    for _found in 0..i % 4 {
        loot.push(u16::from(i))?;
    }
    let position = (i32::from(i), -1);
    Ok((
        u64::from(i),
        name(alloc, i)?,
        -7,
        i % 5 == 0,
        position,
        loot,
    ))
}

fn monster(alloc: Global, i: u8) -> Result<Monster, Error> {
    let (id, name, health, alive, position, loot) = monster_parts(alloc, i)?;
    Ok(Monster {
        id,
        name,
        health,
        alive,
        position,
        loot,
    })
}

fn foo_parts(i: u8) -> FooParts {
    (u32::from(i), if i % 2 == 0 { "ab" } else { "" })
}

fn foo(i: u8) -> Foo<'static> {
    let (x, y) = foo_parts(i);
    Foo { x, y }
}

fn item(alloc: Global, i: u8) -> Result<Item, Error> {
    Ok(Item {
        name: name(alloc, i)?,
        level: i,
    })
}

fn chest(alloc: Global, i: u8) -> Result<Chest, Error> {
    let mut items = Vec::new(alloc);
    for held in 0..i % 4 {
        items.push(item(alloc, held)?)?;
    }
    let best = if i % 2 == 0 {
        Some(item(alloc, i)?)
    } else {
        None
    };
    let label = name(alloc, i)?;
    Ok(Chest { label, items, best })
}

fn chest_parts(alloc: Global, i: u8) -> Result<ChestParts, Error> {
    let mut items = Vec::new(alloc);
    for held in 0..i % 4 {
        items.push((name(alloc, held)?, held))?;
    }
    let best = if i % 2 == 0 {
        Some((name(alloc, i)?, i))
    } else {
        None
    };
    Ok((name(alloc, i)?, items, best))
}

#[test]
fn lists_of_six_fields_come_back(rt: HostRuntime) -> Result<(), Error> {
    let alloc = rt.alloc();
    let mut monsters = Vec::new(alloc);
    let mut tuples = Vec::new(alloc);
    for i in 0..MANY {
        monsters.push(monster(alloc, i)?)?;
        tuples.push(monster_parts(alloc, i)?)?;
    }
    let bytes = encode(alloc, &monsters)?;
    assert!(rt; bytes.as_slice() == encode(alloc, &tuples)?.as_slice());
    let again: Vec<Monster> = decode(alloc, bytes.as_slice())?;
    assert!(rt; again == monsters);
    Ok(())
}

#[test]
fn lists_and_options_of_two_fields_come_back(rt: HostRuntime) -> Result<(), Error> {
    let alloc = rt.alloc();
    let mut structs: Vec<(Foo<'static>, Option<Foo<'static>>)> = Vec::new(alloc);
    let mut tuples: Vec<(FooParts, Option<FooParts>)> = Vec::new(alloc);
    for i in 0..MANY {
        let is_both = i % 3 == 0;
        structs.push((foo(i), if is_both { Some(foo(7)) } else { None }))?;
        tuples.push((
            foo_parts(i),
            if is_both { Some(foo_parts(7)) } else { None },
        ))?;
    }
    let bytes = encode(alloc, &structs)?;
    assert!(rt; bytes.as_slice() == encode(alloc, &tuples)?.as_slice());
    let again: Vec<(Foo<'_>, Option<Foo<'_>>)> = decode(alloc, bytes.as_slice())?;
    assert!(rt; again == structs);
    Ok(())
}

#[test]
fn lists_of_one_field_and_of_none_come_back(rt: HostRuntime) -> Result<(), Error> {
    let alloc = rt.alloc();
    let mut structs = Vec::new(alloc);
    let mut tuples = Vec::new(alloc);
    for i in 0..MANY {
        structs.push((Meters(u32::from(i)), Pause))?;
        tuples.push((u32::from(i), ()))?;
    }
    let bytes = encode(alloc, &structs)?;
    assert!(rt; bytes.as_slice() == encode(alloc, &tuples)?.as_slice());
    let again: Vec<(Meters, Pause)> = decode(alloc, bytes.as_slice())?;
    assert!(rt; again == structs);
    Ok(())
}

#[test]
fn lists_of_structs_with_structs_inside_come_back(rt: HostRuntime) -> Result<(), Error> {
    let alloc = rt.alloc();
    let mut chests = Vec::new(alloc);
    let mut tuples = Vec::new(alloc);
    for i in 0..MANY {
        chests.push(chest(alloc, i)?)?;
        tuples.push(chest_parts(alloc, i)?)?;
    }
    let bytes = encode(alloc, &chests)?;
    assert!(rt; bytes.as_slice() == encode(alloc, &tuples)?.as_slice());
    let again: Vec<Chest> = decode(alloc, bytes.as_slice())?;
    assert!(rt; again == chests);
    Ok(())
}
