pub struct Folder {
    pub name: String,
    pub entries: Vec<Entry>,
}

pub enum Entry {
    File { size: u64 },
    Folder(Box<Folder>),
    Link(String, u8),
}
