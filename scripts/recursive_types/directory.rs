/// A folder.
pub struct Directory {
    pub name: String,
    pub entries: Vec<Entry>,
}

/// What a folder holds.
pub enum Entry {
    File(u64),
    Folder(Directory),
    Nothing,
    Link { target: String, offset: i64 },
}
