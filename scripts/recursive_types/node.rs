/// A tree of named nodes.
pub struct Node {
    pub name: String,
    pub weight: i32,
    pub children: Vec<Node>,
    pub labels: Vec<(u8, bool)>,
}
