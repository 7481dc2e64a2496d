/// A sorted tree.
pub struct SearchTree {
    pub left: Option<Box<SearchTree>>,
    pub key: u32,
    pub right: Option<Box<SearchTree>>,
}
