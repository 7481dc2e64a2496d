// The four data sets of rust_serialization_benchmark: what they hold, by a generator of its own. A tuple stands for each
// struct, as its derive would write it, and tuples of tuples for more than sixteen fields.
use bitcode::glue::{Columns, Decoder, Encoder, VariantDecoder, VariantEncoder, View};
use std::num::NonZeroUsize;

/// An enum without fields, with the coders that the Rust crate's derive would write.
macro_rules! kinds {
    ($name:ident, $encoder:ident, $decoder:ident, $n:literal: $($variant:ident)*) => {
        #[derive(Clone, Copy, Serialize, Deserialize)]
        #[repr(u8)]
        pub enum $name { $($variant),* }

        impl $name {
            const ALL: [$name; $n] = [$($name::$variant),*];
        }

        #[derive(Default)]
        pub struct $encoder(VariantEncoder<$n>);

        impl Encode for $name {
            type Encoder = $encoder;
        }

        impl Encoder<$name> for $encoder {
            fn encode(&mut self, t: &$name) {
                self.0.encode(&(*t as u8));
            }
        }

        impl Columns for $encoder {
            fn collect_into(&mut self, out: &mut Vec<u8>) {
                self.0.collect_into(out);
            }
            fn reserve(&mut self, additional: NonZeroUsize) {
                self.0.reserve(additional);
            }
        }

        #[derive(Default)]
        pub struct $decoder<'a>(VariantDecoder<'a, $n, true>);

        impl<'a> Decode<'a> for $name {
            type Decoder = $decoder<'a>;
        }

        impl<'a> View<'a> for $decoder<'a> {
            fn populate(&mut self, input: &mut &'a [u8], length: usize) -> bitcode::glue::Result<()> {
                self.0.populate(input, length)
            }
        }

        impl<'a> Decoder<'a, $name> for $decoder<'a> {
            fn decode(&mut self) -> $name {
                $name::ALL[self.0.decode() as usize]
            }
        }
    };
}

kinds!(GameType, GameTypeEncoder, GameTypeDecoder, 4: Survival Creative Adventure Spectator);
kinds!(EntityType, EntityTypeEncoder, EntityTypeDecoder, 40:
    ArleighBurke Bismarck Clemenceau Fletcher G5 Iowa Kolkata Osa Yasen Zubr Acacia Barrel Coin Crate Dredger Essex
    Fairmile Freccia Golovko Hq Hydra Komar Kirov Leander Lst Mark48 Mina Moskva OilPlatform Oberon Olympias Oniks
    Pelican Seahawk Skjold Tanker Town Type055 Visby Yamato);

fn one_of<T: Copy>(r: &mut Random, items: &[T]) -> T {
    items[r.below(items.len())]
}
fn flag(r: &mut Random) -> bool {
    r.below(2) == 0
}
fn single(r: &mut Random) -> f32 {
    (r.next() >> 40) as f32 / 16_777_216.0
}
fn double(r: &mut Random) -> f64 {
    (r.next() >> 11) as f64 / 9_007_199_254_740_992.0
}
fn up_to<T>(r: &mut Random, most: usize, mut item: impl FnMut(&mut Random) -> T) -> Vec<T> {
    (0..r.below(most)).map(|_| item(r)).collect()
}
fn maybe<T>(r: &mut Random, item: impl FnOnce(&mut Random) -> T) -> Option<T> {
    flag(r).then(|| item(r))
}

// ---- log: lines of a web server

type Address = (u8, u8, u8, u8);
type LogLine = (Address, String, String, String, String, u16, u64);
type BorrowedLogLine = (Address, &'static str, &'static str, &'static str, &'static str, u16, u64);

fn log_line(r: &mut Random) -> LogLine {
    let months = ["Jan", "Feb", "Mar", "Apr", "May", "Jun", "Jul", "Aug", "Sep", "Oct", "Nov", "Dec"];
    let users = ["-", "alice", "bob", "carmen", "david", "eric", "frank", "george", "harry"];
    let routes = ["/favicon.ico", "/css/index.css", "/css/font-awsome.min.css", "/img/logo-full.svg", "/img/splash.jpg",
        "/api/login", "/api/logout"];
    let zone = one_of(r, &["-0800", "-0500", "+0000", "+0100"]);
    let (day, month, year) = (r.below(28) + 1, one_of(r, &months), r.below(52) + 1970);
    let (hour, minute, second) = (r.below(24), r.below(60), r.below(60));
    let method = one_of(r, &["GET", "POST", "PUT", "UPDATE", "DELETE"]);
    let protocol = one_of(r, &["HTTP/1.0", "HTTP/1.1", "HTTP/2", "HTTP/3"]);
    let address = (r.next() as u8, r.next() as u8, r.next() as u8, r.next() as u8);
    let date = format!("{day}/{month}/{year}:{hour}:{minute}:{second} {zone}");
    let request = format!("{method} {} {protocol}", one_of(r, &routes));
    let code = one_of(r, &[200, 201, 204, 301, 304, 400, 404, 500]);
    (address, "-".into(), one_of(r, &users).into(), date, request, code, r.next() % 100_000_000)
}

// ---- mesh: triangles

type Vector3 = (f32, f32, f32);
type Triangle = (Vector3, Vector3, Vector3, Vector3);

fn vector(r: &mut Random) -> Vector3 {
    (single(r), single(r), single(r))
}
fn triangle(r: &mut Random) -> Triangle {
    (vector(r), vector(r), vector(r), vector(r))
}

// ---- minecraft: saved players

type Item = (i8, u8, String);
type Place = (f64, f64, f64);
type Abilities = (f32, f32, bool, bool, bool, bool, bool);
type Entity = (
    (String, Place, Place, (f32, f32), f32, u16, u16, bool),
    (bool, bool, i32, [u32; 4], Option<String>, bool, bool, bool),
);
type Book = (Vec<String>, Vec<String>, bool, bool, bool, bool, bool, bool, bool, bool);
type Player = (
    (GameType, GameType, u64, String, u32, Item, Option<String>, i64, i64, i64, Option<bool>, u16, f32, f32),
    (u32, u32, f32, i32, i32, Vec<Item>, Vec<Item>, Abilities, Option<Place>, Option<([u32; 4], Entity)>, Option<Entity>,
        Option<Entity>, bool, Book),
);
type BorrowedItem = (i8, u8, &'static str);
type BorrowedEntity = (
    (&'static str, Place, Place, (f32, f32), f32, u16, u16, bool),
    (bool, bool, i32, [u32; 4], Option<&'static str>, bool, bool, bool),
);
type BorrowedBook = (Vec<&'static str>, Vec<&'static str>, bool, bool, bool, bool, bool, bool, bool, bool);
type BorrowedPlayer = (
    (GameType, GameType, u64, &'static str, u32, BorrowedItem, Option<&'static str>, i64, i64, i64, Option<bool>, u16, f32, f32),
    (u32, u32, f32, i32, i32, Vec<BorrowedItem>, Vec<BorrowedItem>, Abilities, Option<Place>, Option<([u32; 4], BorrowedEntity)>, Option<BorrowedEntity>,
        Option<BorrowedEntity>, bool, BorrowedBook),
);

fn item(r: &mut Random) -> Item {
    let names = ["dirt", "stone", "pickaxe", "sand", "gravel", "shovel", "chestplate", "steak"];
    (r.next() as i8, r.next() as u8, one_of(r, &names).into())
}
fn place(r: &mut Random) -> Place {
    (double(r), double(r), double(r))
}
fn words(r: &mut Random) -> [u32; 4] {
    [(); 4].map(|_| r.next() as u32)
}
fn dimension(r: &mut Random) -> String {
    one_of(r, &["overworld", "nether", "end"]).into()
}
fn entity(r: &mut Random) -> Entity {
    let kinds = ["cow", "sheep", "zombie", "skeleton", "spider", "creeper", "parrot", "bee"];
    let names = ["rainbow", "princess", "steve", "johnny", "missy", "coward", "fairy", "howard"];
    let turned = (single(r), single(r));
    ((one_of(r, &kinds).into(), place(r), place(r), turned, single(r), r.next() as u16, r.next() as u16, flag(r)),
        (flag(r), flag(r), r.next() as i32, words(r), maybe(r, |r| one_of(r, &names).into()), flag(r), flag(r), flag(r)))
}
fn book(r: &mut Random) -> Book {
    let recipe = |r: &mut Random| -> String {
        one_of(r, &["pickaxe", "torch", "bow", "crafting table", "furnace", "shears", "arrow", "tnt"]).into()
    };
    let (known, shown) = (up_to(r, 30, recipe), up_to(r, 10, recipe));
    (known, shown, flag(r), flag(r), flag(r), flag(r), flag(r), flag(r), flag(r), flag(r))
}
fn player(r: &mut Random) -> Player {
    let abilities = (single(r), single(r), flag(r), flag(r), flag(r), flag(r), flag(r));
    let (x, y, z) = (r.next() as i64, r.next() as i64, r.next() as i64);
    ((one_of(r, &GameType::ALL), one_of(r, &GameType::ALL), r.next(), dimension(r), r.next() as u32, item(r),
        maybe(r, dimension), x, y, z, maybe(r, flag), r.next() as u16, single(r), single(r)),
        (r.next() as u32, r.next() as u32, single(r), r.next() as i32, r.next() as i32, up_to(r, 40, item),
        up_to(r, 27, item), abilities, maybe(r, place), maybe(r, |r| (words(r), entity(r))), maybe(r, entity),
        maybe(r, entity), flag(r), book(r)))
}

// ---- mk48: updates of a game

type Guidance = (u16, bool, f32);
type Transform = (i8, u16, (f32, f32), f32);
type Contact = (u8, u32, Option<EntityType>, Guidance, Option<u16>, Vec<bool>, Transform, Vec<u16>);
type Terrain = ((i8, i8), Vec<u8>);
type Update = (Vec<Contact>, u32, f32, Vec<Terrain>);

fn contact(r: &mut Random) -> Contact {
    let transform = (r.next() as i8, r.next() as u16, (single(r), single(r)), single(r));
    (r.next() as u8, r.next() as u32, maybe(r, |r| one_of(r, &EntityType::ALL)), (r.next() as u16, flag(r), single(r)),
        maybe(r, |r| r.next() as u16), up_to(r, 20, flag), transform, up_to(r, 5, |r| r.next() as u16))
}
fn terrain(r: &mut Random) -> Terrain {
    ((r.next() as i8, r.next() as i8), up_to(r, 600, |r| r.next() as u8 % 16))
}
fn update(r: &mut Random) -> Update {
    (up_to(r, 30, contact), r.next() as u32, single(r), up_to(r, 5, terrain))
}
