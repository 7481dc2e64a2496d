#[derive(Debug, PartialEq)]
pub struct Monster {
    pub id: u64,
    pub name: String,
    pub health: i16,
    pub alive: bool,
    pub position: (i32, i32),
    pub loot: Vec<u16>,
}
